//! Gate lists, their conversion, and gates on a circuit's output.

use crate::circuit::{PbcCircuit, growing_nodes, next_owner};
use crate::error::PbcError;
use crate::{MAX_QUBITS, ffi};
use std::num::NonZeroU32;

/// A gate on qubits; controls come first.
///
/// ```
/// use pbc::{Gate, PbcError, to_pbc};
/// let bell = [Gate::H(0), Gate::Cnot(0, 1), Gate::Measure(0, 0), Gate::Measure(1, 1)];
/// assert_eq!(to_pbc(2, 2, &bell, None)?.measurement_count(), 2);
/// assert_eq!(to_pbc(1, 2, &bell, None).unwrap_err(), PbcError::QubitOutOfRange { index: 1, qubit: 1 });
/// # Ok::<(), PbcError>(())
/// ```
#[derive(Clone, Copy, Debug, PartialEq, Eq)]
#[non_exhaustive]
pub enum Gate {
    /// Hadamard.
    H(u32),
    /// Pauli X.
    X(u32),
    /// Pauli Z.
    Z(u32),
    /// The square root of Z.
    S(u32),
    /// The inverse of S.
    Sdg(u32),
    /// The square root of S.
    T(u32),
    /// The inverse of T.
    Tdg(u32),
    /// Controlled X.
    Cnot(u32, u32),
    /// Controlled Z.
    Cz(u32, u32),
    /// Doubly controlled X.
    Ccx(u32, u32, u32),
    /// Doubly controlled Z.
    Ccz(u32, u32, u32),
    /// A measurement of a qubit, into a classical bit.
    Measure(u32, u32),
    /// Pauli Y.
    Y(u32),
    /// The square root of X.
    Sx(u32),
    /// Two qubits change places.
    Swap(u32, u32),
    /// Controlled Y.
    Cy(u32, u32),
}

impl Gate {
    /// Kind, then operands in declared order, then zeros.
    fn words(self) -> [u32; 4] {
        match self {
            Self::H(a) => [0, a, 0, 0],
            Self::X(a) => [1, a, 0, 0],
            Self::Z(a) => [2, a, 0, 0],
            Self::S(a) => [3, a, 0, 0],
            Self::Sdg(a) => [4, a, 0, 0],
            Self::T(a) => [5, a, 0, 0],
            Self::Tdg(a) => [6, a, 0, 0],
            Self::Cnot(a, b) => [8, a, b, 0],
            Self::Cz(a, b) => [9, a, b, 0],
            Self::Ccx(a, b, c) => [10, a, b, c],
            Self::Ccz(a, b, c) => [11, a, b, c],
            Self::Measure(a, bit) => [12, a, bit, 0],
            Self::Y(a) => [15, a, 0, 0],
            Self::Sx(a) => [16, a, 0, 0],
            Self::Swap(a, b) => [19, a, b, 0],
            Self::Cy(a, b) => [20, a, b, 0],
        }
    }

    /// The gate of such words.
    pub(crate) fn read(words: &[u32]) -> Self {
        let (a, b, c) = (words[1], words[2], words[3]);
        match words[0] {
            0 => Self::H(a),
            1 => Self::X(a),
            2 => Self::Z(a),
            3 => Self::S(a),
            4 => Self::Sdg(a),
            5 => Self::T(a),
            6 => Self::Tdg(a),
            8 => Self::Cnot(a, b),
            9 => Self::Cz(a, b),
            10 => Self::Ccx(a, b, c),
            11 => Self::Ccz(a, b, c),
            12 => Self::Measure(a, b),
            15 => Self::Y(a),
            16 => Self::Sx(a),
            19 => Self::Swap(a, b),
            20 => Self::Cy(a, b),
            other => unreachable!("the library wrote a gate of kind {other}"),
        }
    }

    /// The nodes and operations that it writes, then those that a flush of it writes. Under a cap of 1 or 2 (`narrow`) ccx and ccz are written as gates
    /// of at most two qubits.
    fn needs(self, narrow: bool) -> [u8; 4] {
        match self {
            Self::Ccx(..) if narrow => [12, 7, 6, 24],
            Self::Ccz(..) if narrow => [12, 7, 6, 18],
            Self::H(_) => [0, 0, 0, 3],
            Self::X(_) | Self::Z(_) => [0, 0, 0, 1],
            Self::S(_) | Self::Sdg(_) => [1, 0, 0, 1],
            Self::T(_) | Self::Tdg(_) | Self::Measure(..) => [0, 1, 0, 0],
            Self::Cnot(..) | Self::Cz(..) => [2, 0, 1, 3],
            Self::Ccx(..) | Self::Ccz(..) => [4, 7, 0, 0],
            Self::Y(_) => [0, 0, 0, 2],
            Self::Sx(_) => [1, 0, 0, 7],
            Self::Swap(..) => [6, 0, 3, 9],
            Self::Cy(..) => [4, 0, 1, 5],
        }
    }
}

/// The nodes and operations, besides the first nodes, that suffice for a conversion; without a cap they are what it needs.
fn needs(gates: &[Gate], max_weight: Option<NonZeroU32>) -> (usize, usize) {
    let narrow = max_weight.is_some_and(|cap| cap.get() < 3);
    gates.iter().fold((0, 0), |(nodes, operations), gate| {
        let [pushed, written, flush_pushed, flush_written] = gate.needs(narrow);
        let (flush_nodes, flush_operations) = if max_weight.is_some() { (flush_pushed, flush_written) } else { (0, 0) };
        (nodes + usize::from(pushed + flush_nodes), operations + usize::from(written + flush_operations))
    })
}

/// The circuit of a gate list.
///
/// Under `max_weight` no axis of an odd angle or of a measurement has more letters other than I: pending Clifford gates are written as
/// rotations before one would. Those have sign + and at most two letters, whatever the cap. Every axis has sign + or -, and without a cap no
/// angle is even. Each operation names its gate ([`PbcOp::gate`](crate::PbcOp::gate)); routing has nothing to test but operations added by
/// hand, which name none.
/// Under a `max_weight` of 1 or 2 a ccz is written first as thirteen gates of at most two qubits, and a ccx as the same between two h.
/// Time and space are O(gates + qubits); under a cap O(qubits / 64) more a gate, and O(qubits² / 64) more a flush.
///
/// ```
/// use pbc::{Gate, to_pbc};
/// use std::num::NonZeroU32;
///
/// let gates = [Gate::Cnot(0, 1), Gate::T(1)];
/// let circuit = to_pbc(2, 0, &gates, None)?;
/// assert_eq!(circuit.operations().len(), 1);
/// let axis = circuit.operations().next().unwrap().axis();
/// assert_eq!(circuit.expand(axis.as_ref(), 100)?.to_string(), "+ZZ");
///
/// // At a cap of 1 the cnot is written as three rotations, and the t rotates along one letter.
/// let capped = to_pbc(2, 0, &gates, NonZeroU32::new(1))?;
/// assert_eq!(capped.operations().len(), 4);
/// let weights = capped.max_axis_weights(100)?;
/// assert_eq!((weights.non_clifford, weights.clifford), (1, 2));
/// # Ok::<(), pbc::PbcError>(())
/// ```
///
/// # Errors
///
/// `TooManyQubits`, `BrokenGateList`, then of the first faulty gate `QubitOutOfRange`, `RepeatedOperand`, `ClassicalBitOutOfRange` or `TargetTaken`,
/// then `NoNodes`, `NoOperations`.
pub fn to_pbc(num_qubits: u32, num_cbits: u32, gates: &[Gate], max_weight: Option<NonZeroU32>) -> Result<PbcCircuit, PbcError> {
    let words: Vec<u32> = gates.iter().flat_map(|gate| gate.words()).collect();
    let cap = max_weight.map_or(u64::MAX, |cap| u64::from(cap.get()));
    let mut planes = vec![0; if max_weight.is_some() { plane_words(num_qubits.min(MAX_QUBITS)) } else { 0 }];
    let (nodes, operations) = needs(gates, max_weight);
    let mut circuit = PbcCircuit::room(num_qubits, nodes, operations);
    let PbcCircuit { header, nodes, operations, frame } = &mut circuit;
    ffi::pbc_convert(num_qubits, num_cbits, next_owner(), cap, &words, nodes, operations, frame, &mut planes, header)?;
    circuit.shrink();
    Ok(circuit)
}

/// The words that a conversion under a cap needs: an x part and a z part for each of two images a qubit, one bit a qubit.
fn plane_words(num_qubits: u32) -> usize {
    4 * num_qubits as usize * num_qubits.div_ceil(64).max(1) as usize
}

impl PbcCircuit {
    /// One more Clifford gate (h, x, z, s, sdg, cnot, cz) on the output frame. Amortized O(1), plus a test of the frame's words.
    ///
    /// ```
    /// use pbc::{Gate, PbcCircuit};
    /// let mut circuit = PbcCircuit::new(2, 0)?;
    /// circuit.push_output_clifford(Gate::Cnot(0, 1))?;
    /// assert_eq!(circuit.expand(circuit.output_frame().x(0), 100)?.to_string(), "+XX");
    /// # Ok::<(), pbc::PbcError>(())
    /// ```
    ///
    /// # Errors
    ///
    /// `NonCliffordFrameGate`, `QubitOutOfRange`, `RepeatedOperand`, `NoNodes`.
    pub fn push_output_clifford(&mut self, gate: Gate) -> Result<(), PbcError> {
        let [kind, a, b, _] = gate.words();
        let Self { header, nodes, frame, .. } = self;
        growing_nodes(nodes, |nodes| ffi::pbc_push_output_clifford(header, nodes, frame, kind, a, b))?;
        Ok(())
    }
}

#[cfg(test)]
mod tests {
    use super::Gate::*;
    use super::*;

    const CLIFFORDS: [Gate; 11] = [H(0), X(0), Z(0), S(0), Sdg(0), Cnot(0, 1), Cz(0, 1), Y(0), Sx(0), Swap(0, 1), Cy(0, 1)];

    const ONE: Option<NonZeroU32> = NonZeroU32::new(1);

    const OTHERS: [Gate; 5] = [T(0), Tdg(0), Ccx(0, 1, 2), Ccz(0, 1, 2), Measure(0, 0)];

    fn used(circuit: &PbcCircuit) -> (usize, usize) {
        (circuit.header[3] as usize - 1 - 2 * circuit.num_qubits(), circuit.header[4] as usize)
    }

    #[test]
    fn words_are_read_back() {
        for gate in CLIFFORDS.into_iter().chain(OTHERS) {
            assert_eq!(Gate::read(&gate.words()), gate);
        }
    }

    #[test]
    fn without_a_cap_the_needs_are_exact() {
        for gate in CLIFFORDS.into_iter().chain(OTHERS) {
            let again = if let Measure(qubit, _) = gate { Measure(qubit, 1) } else { gate };
            let gates = [gate, H(2), again];
            assert_eq!(used(&to_pbc(3, 2, &gates, None).unwrap()), needs(&gates, None), "{gate:?}");
        }
    }

    #[test]
    fn under_a_cap_they_suffice() {
        // The measured axis has weight 2 whatever the gate does, so all that is pending is written.
        for gate in CLIFFORDS {
            let gates = [gate, Cnot(2, 3), Measure(3, 0), H(0), Cz(0, 1), S(1)];
            let circuit = to_pbc(4, 1, &gates, ONE).unwrap();
            let written = needs(&gates[..3], ONE);
            let pending = needs(&gates[3..], None);
            assert_eq!(used(&circuit), (written.0 + pending.0, written.1 + pending.1), "{gate:?}");
            let most = needs(&gates, ONE);
            assert!(used(&circuit).0 <= most.0 && used(&circuit).1 <= most.1);
        }
    }

    #[test]
    fn toffolis_in_parts() {
        for (gate, cap, written) in [(Ccz(0, 1, 2), 2, 19), (Ccx(0, 1, 2), 1, 25)] {
            let circuit = to_pbc(3, 0, &[gate], NonZeroU32::new(cap)).unwrap();
            assert_eq!(circuit.operations().len(), written);
            assert!(circuit.operations().all(|operation| operation.gate() == Some(0)));
            assert!(circuit.max_axis_weights(10_000).unwrap().non_clifford <= cap as usize);
            let most = needs(&[gate], NonZeroU32::new(cap));
            assert!(used(&circuit).0 <= most.0 && used(&circuit).1 <= most.1);
        }
    }
}
