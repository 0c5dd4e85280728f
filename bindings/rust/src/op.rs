//! Operations.

use crate::letters::PauliAngle;
use crate::reference::{PauliAxis, PauliRef};
use std::fmt;

/// A measurement of one circuit.
///
/// ```
/// use pbc::{Pauli, PbcCircuit, PbcError};
/// let (mut circuit, mut other) = (PbcCircuit::new(1, 0)?, PbcCircuit::new(1, 0)?);
/// let (z, y) = (circuit.single(0, Pauli::Z)?, other.single(0, Pauli::Y)?);
/// let outcome = circuit.measure(z, None)?;
/// assert_eq!((outcome.index(), outcome.to_string().as_str()), (0, "m0"));
/// assert_eq!(other.conditional_pauli(y, outcome), Err(PbcError::UnknownMeasurement));
/// # Ok::<(), PbcError>(())
/// ```
#[derive(Clone, Copy, Debug, PartialEq, Eq)]
pub struct MeasId {
    pub(crate) owner: u64,
    pub(crate) index: u32,
}

impl MeasId {
    /// Its number among the measurements of its circuit.
    pub fn index(self) -> usize {
        self.index as usize
    }
}

impl fmt::Display for MeasId {
    fn fmt(&self, f: &mut fmt::Formatter<'_>) -> fmt::Result {
        write!(f, "m{}", self.index)
    }
}

/// The fifth word of an operation that was added by hand.
const HAND: u32 = u32::MAX;

/// An operation. +1 yields 0 as a measurement's bit, -1 yields 1; a conditional rotation turns where its measurement gave 1.
///
/// ```
/// use pbc::{Gate, PbcOp, to_pbc};
/// let circuit = to_pbc(1, 1, &[Gate::H(0), Gate::T(0), Gate::Measure(0, 0)], None)?;
/// for (op, axis) in circuit.operations().zip(circuit.axes(100)?) {
///     match op {
///         PbcOp::Rotate { angle, gate, .. } => assert_eq!((format!("{angle} {axis}").as_str(), gate), ("pi/8 +X", Some(1))),
///         PbcOp::Measure { outcome, target, .. } => assert_eq!((outcome.index(), target), (0, Some(0))),
///         _ => unreachable!("a conversion makes no other"),
///     }
/// }
/// # Ok::<(), pbc::PbcError>(())
/// ```
#[derive(Clone, Copy, Debug, PartialEq, Eq)]
#[non_exhaustive]
pub enum PbcOp {
    /// A rotation.
    Rotate {
        /// The axis.
        axis: PauliAxis,
        /// The angle.
        angle: PauliAngle,
        /// As [`PbcOp::gate`].
        gate: Option<u32>,
    },
    /// A measurement.
    Measure {
        /// The axis.
        axis: PauliAxis,
        /// The measurement.
        outcome: MeasId,
        /// The classical bit that it is written to.
        target: Option<u32>,
        /// As [`PbcOp::gate`].
        gate: Option<u32>,
    },
    /// A rotation where a measurement gave 1.
    ConditionalRotate {
        /// The axis.
        axis: PauliAxis,
        /// The angle.
        angle: PauliAngle,
        /// The measurement.
        if_one: MeasId,
        /// As [`PbcOp::gate`].
        gate: Option<u32>,
    },
}

impl PbcOp {
    /// The axis.
    pub fn axis(&self) -> PauliAxis {
        match *self {
            Self::Rotate { axis, .. } | Self::Measure { axis, .. } | Self::ConditionalRotate { axis, .. } => axis,
        }
    }

    /// The gate that it came from, by its place in the list of [`to_pbc`](crate::to_pbc); `None` if it was added by hand.
    /// A rotation that stands for a pending Clifford gate names that gate, not the one that had it written.
    ///
    /// ```
    /// use pbc::{Gate, PauliAngle, to_pbc};
    /// use std::num::NonZeroU32;
    /// let mut circuit = to_pbc(2, 0, &[Gate::Cnot(0, 1), Gate::T(1)], NonZeroU32::new(1))?;
    /// circuit.rotate(circuit.identity(), PauliAngle::new(1))?;
    /// let gates: Vec<_> = circuit.operations().map(|op| op.gate()).collect();
    /// assert_eq!(gates, [Some(0), Some(0), Some(0), Some(1), None]);
    /// # Ok::<(), pbc::PbcError>(())
    /// ```
    pub fn gate(&self) -> Option<u32> {
        match *self {
            Self::Rotate { gate, .. } | Self::Measure { gate, .. } | Self::ConditionalRotate { gate, .. } => gate,
        }
    }

    pub(crate) fn read(owner: u64, words: &[u32]) -> Self {
        let axis = PauliAxis(PauliRef { owner, word: words[1] });
        let angle = PauliAngle::new(i64::from(words[0] / 4));
        let measurement = MeasId { owner, index: words[2] };
        let gate = (words[4] != HAND).then_some(words[4]);
        match words[0] % 4 {
            0 => Self::Rotate { axis, angle, gate },
            1 => Self::Measure { axis, outcome: measurement, target: words[3].checked_sub(1), gate },
            _ => Self::ConditionalRotate { axis, angle, if_one: measurement, gate },
        }
    }
}

/// The kind of an operation's axis.
#[derive(Clone, Copy, Debug, PartialEq, Eq)]
#[non_exhaustive]
pub enum AxisKind {
    /// A rotation by an odd multiple of π/8, conditional or not.
    Pi8,
    /// A rotation by a nonzero multiple of π/4, conditional or not.
    Clifford,
    /// A measurement.
    Measurement,
}

impl AxisKind {
    /// The kind of `op`, or `None` for a rotation of angle 0.
    ///
    /// ```
    /// use pbc::{AxisKind, Gate, to_pbc};
    /// let circuit = to_pbc(1, 0, &[Gate::T(0)], None)?;
    /// assert_eq!(circuit.operations().next().and_then(|op| AxisKind::of(&op)), Some(AxisKind::Pi8));
    /// # Ok::<(), pbc::PbcError>(())
    /// ```
    pub fn of(op: &PbcOp) -> Option<Self> {
        match op {
            PbcOp::Measure { .. } => Some(Self::Measurement),
            PbcOp::Rotate { angle, .. } | PbcOp::ConditionalRotate { angle, .. } => match angle.eighths() {
                0 => None,
                k if k % 2 == 1 => Some(Self::Pi8),
                _ => Some(Self::Clifford),
            },
        }
    }
}
