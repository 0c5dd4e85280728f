//! Refusals.

use crate::ffi;
use std::fmt;

/// Why a call was refused. `index` is a gate's place in the list of a conversion, 0 elsewhere.
///
/// ```
/// use pbc::{Gate, PbcError, to_pbc};
/// let refusal = to_pbc(2, 0, &[Gate::H(0), Gate::Cnot(1, 1)], None).unwrap_err();
/// assert_eq!(refusal, PbcError::RepeatedOperand { index: 1, qubit: 1 });
/// assert_eq!(refusal.to_string(), "gate 1: qubit 1 is repeated");
/// ```
#[derive(Clone, Copy, Debug, PartialEq, Eq)]
#[non_exhaustive]
pub enum PbcError {
    /// Over 256 qubits, or over 65,536 classical bits.
    TooManyQubits,
    /// Over 65,536 gates.
    BrokenGateList,
    /// The circuit's words are damaged. No call of this crate leaves them so.
    BadStore,
    /// A reference of another circuit.
    ForeignPauli,
    /// A kind of gate that the library does not take. No [`Gate`](crate::Gate) is of one.
    UnsupportedGate {
        /// The gate's place.
        index: u64,
        /// The kind's number.
        kind: u64,
    },
    /// A gate that the output frame does not take.
    NonCliffordFrameGate {
        /// The kind's number.
        kind: u64,
    },
    /// A qubit past the last.
    QubitOutOfRange {
        /// The gate's place.
        index: u64,
        /// The qubit.
        qubit: u64,
    },
    /// A qubit twice among the operands of a gate.
    RepeatedOperand {
        /// The gate's place.
        index: u64,
        /// The qubit.
        qubit: u64,
    },
    /// A classical bit past the last.
    ClassicalBitOutOfRange {
        /// The gate's place.
        index: u64,
        /// The bit.
        bit: u64,
    },
    /// A measurement of another circuit.
    UnknownMeasurement,
    /// A cap of 0, which no call of this crate can be given.
    CapTooSmall,
    /// A buffer of this crate is too short. No call leaves it so.
    NoPlanes,
    /// The same of the frame.
    NoFrame,
    /// Over 65,536 nodes.
    NoNodes,
    /// Over 65,536 operations.
    NoOperations,
    /// As `NoPlanes`, of the words of a walk.
    NoScratch,
    /// The work is above the limit.
    ExpansionLimit,
    /// Over 65,535 factors at once.
    NoPool,
    /// The phase in front is i or -i.
    NonHermitianAxis,
    /// A text goes on with no statement of the subset that [`read_qasm`](crate::read_qasm) reads, or ends too early.
    BadText {
        /// The byte, from 0, where that statement would begin.
        place: u64,
        /// Its line, from 1.
        line: u64,
        /// Its column, from 1, in bytes.
        column: u64,
    },
    /// As `NoPlanes`, of the gates of a text.
    NoGateRoom,
    /// An earlier gate measures into this classical bit.
    TargetTaken {
        /// The gate's place in the list.
        index: u64,
        /// The classical bit.
        bit: u64,
    },
}

impl PbcError {
    /// The refusal with this number, gate index and operand. What has a place in a text is still to be [`located`](Self::located).
    pub(crate) fn of(number: u32, answer: [u64; 4]) -> Self {
        let [index, operand, ..] = answer;
        match number {
            1 => Self::TooManyQubits,
            2 => Self::BrokenGateList,
            3 => Self::BadStore,
            4 => Self::ForeignPauli,
            5 => Self::UnsupportedGate { index, kind: operand },
            6 => Self::NonCliffordFrameGate { kind: operand },
            7 => Self::QubitOutOfRange { index, qubit: operand },
            8 => Self::RepeatedOperand { index, qubit: operand },
            9 => Self::ClassicalBitOutOfRange { index, bit: operand },
            10 => Self::UnknownMeasurement,
            11 => Self::CapTooSmall,
            12 => Self::NoPlanes,
            13 => Self::NoFrame,
            14 => Self::NoNodes,
            15 => Self::NoOperations,
            16 => Self::NoScratch,
            17 => Self::ExpansionLimit,
            18 => Self::NoPool,
            19 => Self::NonHermitianAxis,
            20 => Self::BadText { place: operand, line: 0, column: 0 },
            21 => Self::NoGateRoom,
            24 => Self::TargetTaken { index, bit: operand },
            other => unreachable!("the library returned {other}"),
        }
    }

    /// With the line and column of its place in the text.
    pub(crate) fn located(self, text: &[u8]) -> Self {
        match self {
            Self::BadText { place, .. } => match ffi::pbc_text_position(text, place) {
                Ok([line, column, ..]) => Self::BadText { place, line, column },
                Err(refusal) => unreachable!("a position was refused: {refusal}"),
            },
            other => other,
        }
    }
}

impl fmt::Display for PbcError {
    fn fmt(&self, f: &mut fmt::Formatter<'_>) -> fmt::Result {
        match self {
            Self::TooManyQubits => f.write_str("over 256 qubits, or over 65,536 classical bits"),
            Self::BrokenGateList => f.write_str("over 65,536 gates"),
            Self::BadStore => f.write_str("the circuit's words are damaged"),
            Self::ForeignPauli => f.write_str("Pauli reference belongs to another circuit"),
            Self::UnsupportedGate { index, kind } => write!(f, "gate {index}: unsupported kind {kind}"),
            Self::NonCliffordFrameGate { kind } => write!(f, "the output frame does not accept gate kind {kind}"),
            Self::QubitOutOfRange { index, qubit } => write!(f, "gate {index}: qubit {qubit} is out of range"),
            Self::RepeatedOperand { index, qubit } => write!(f, "gate {index}: qubit {qubit} is repeated"),
            Self::ClassicalBitOutOfRange { index, bit } => write!(f, "gate {index}: classical bit {bit} is out of range"),
            Self::UnknownMeasurement => f.write_str("measurement is not defined in this circuit"),
            Self::CapTooSmall => f.write_str("the cap is 0"),
            Self::NoPlanes => f.write_str("too few plane words"),
            Self::NoFrame => f.write_str("too few frame words"),
            Self::NoNodes => f.write_str("over 65,536 nodes"),
            Self::NoOperations => f.write_str("over 65,536 operations"),
            Self::NoScratch => f.write_str("too few scratch words"),
            Self::ExpansionLimit => f.write_str("the work is above the limit"),
            Self::NoPool => f.write_str("over 65,535 factors at once"),
            Self::NonHermitianAxis => f.write_str("rotation and measurement axes must be Hermitian"),
            Self::BadText { line, column, .. } => write!(f, "line {line}, column {column}: no statement of the subset begins here"),
            Self::NoGateRoom => f.write_str("too few gate words"),
            Self::TargetTaken { index, bit } => write!(f, "gate {index}: classical bit {bit} is taken"),
        }
    }
}

impl std::error::Error for PbcError {}
