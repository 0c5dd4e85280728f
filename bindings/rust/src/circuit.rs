//! A circuit that owns its words, and the calls that add to it.

use crate::error::PbcError;
use crate::ffi::{self, Answer};
use crate::letters::{Pauli, PauliAngle};
use crate::op::{MeasId, PbcOp};
use crate::reference::{PauliAxis, PauliNode, PauliRef};
use crate::{MAX_NODES, MAX_OPERATIONS, MAX_QUBITS};
use std::sync::atomic::{AtomicU64, Ordering};

const NODE_WORDS: usize = 2;
const OPERATION_WORDS: usize = 5;

/// An owned circuit. References and measurements belong to the circuit that gave them.
///
/// It cannot be cloned: two circuits with one owner's number could mix their references.
///
/// ```compile_fail
/// let copy = pbc::PbcCircuit::new(1, 0).unwrap().clone();
/// ```
#[derive(Debug)]
pub struct PbcCircuit {
    pub(crate) header: [u64; 6],
    pub(crate) nodes: Vec<u32>,
    pub(crate) operations: Vec<u32>,
    pub(crate) frame: Vec<u32>,
}

/// The images of X and Z of each qubit under the postponed output Clifford.
///
/// ```
/// use pbc::{Gate, to_pbc};
/// let circuit = to_pbc(2, 0, &[Gate::Cnot(0, 1)], None)?;
/// let frame = circuit.output_frame();
/// assert_eq!(circuit.expand(frame.x(0), 100)?.to_string(), "+XX");
/// assert_eq!(circuit.expand(frame.z(1), 100)?.to_string(), "+ZZ");
/// # Ok::<(), pbc::PbcError>(())
/// ```
#[derive(Clone, Debug, PartialEq, Eq)]
pub struct CliffordFrame {
    x: Vec<PauliRef>,
    z: Vec<PauliRef>,
}

impl CliffordFrame {
    /// The image of X of a qubit.
    ///
    /// # Panics
    ///
    /// Past the last qubit.
    pub fn x(&self, qubit: u32) -> PauliRef {
        self.x[qubit as usize]
    }

    /// The image of Z of a qubit.
    ///
    /// # Panics
    ///
    /// Past the last qubit.
    pub fn z(&self, qubit: u32) -> PauliRef {
        self.z[qubit as usize]
    }

    /// The number of qubits.
    pub fn len(&self) -> usize {
        self.x.len()
    }

    /// Whether there are no qubits.
    pub fn is_empty(&self) -> bool {
        self.x.is_empty()
    }
}

/// A number that no other circuit of this process has.
pub(crate) fn next_owner() -> u64 {
    static NEXT: AtomicU64 = AtomicU64::new(0);
    NEXT.fetch_add(1, Ordering::Relaxed)
}

/// Twice as many words, `most` at the most; false where there were as many already.
fn grow(words: &mut Vec<u32>, most: usize) -> bool {
    if words.len() >= most {
        return false;
    }
    let more = (2 * words.len()).clamp(64, most);
    words.resize(more, 0);
    true
}

/// Calls until the refusal is not the one that more words cure, or there can be no more.
pub(crate) fn growing(words: &mut Vec<u32>, most: usize, cured: PbcError, mut call: impl FnMut(&mut [u32]) -> Answer) -> Answer {
    loop {
        match call(words) {
            Err(refusal) if refusal == cured && grow(words, most) => {}
            answer => return answer,
        }
    }
}

pub(crate) fn growing_nodes(nodes: &mut Vec<u32>, call: impl FnMut(&mut [u32]) -> Answer) -> Answer {
    growing(nodes, NODE_WORDS * MAX_NODES, PbcError::NoNodes, call)
}

fn growing_operations(operations: &mut Vec<u32>, call: impl FnMut(&mut [u32]) -> Answer) -> Answer {
    growing(operations, OPERATION_WORDS * MAX_OPERATIONS, PbcError::NoOperations, call)
}

impl PbcCircuit {
    /// Room for a new circuit of so many qubits, or of the most that there can be, with so many nodes and operations more.
    pub(crate) fn room(num_qubits: u32, nodes: usize, operations: usize) -> Self {
        let images = 2 * num_qubits.min(MAX_QUBITS) as usize;
        let nodes = MAX_NODES.min(1 + images + nodes);
        let operations = MAX_OPERATIONS.min(operations);
        Self {
            header: [0; 6],
            nodes: vec![0; NODE_WORDS * nodes],
            operations: vec![0; OPERATION_WORDS * operations],
            frame: vec![0; images],
        }
    }

    /// Gives back the words that are not in use.
    pub(crate) fn shrink(&mut self) {
        self.nodes.truncate(NODE_WORDS * self.header[3] as usize);
        self.nodes.shrink_to_fit();
        self.operations.truncate(OPERATION_WORDS * self.header[4] as usize);
        self.operations.shrink_to_fit();
    }

    /// A circuit without operations, with the identity as its output frame.
    ///
    /// ```
    /// let circuit = pbc::PbcCircuit::new(2, 1)?;
    /// assert_eq!((circuit.num_qubits(), circuit.pauli_nodes().len()), (2, 5));
    /// # Ok::<(), pbc::PbcError>(())
    /// ```
    ///
    /// # Errors
    ///
    /// `TooManyQubits`.
    pub fn new(num_qubits: u32, num_cbits: u32) -> Result<Self, PbcError> {
        let mut circuit = Self::room(num_qubits, 0, 0);
        ffi::pbc_new(num_qubits, num_cbits, next_owner(), &mut circuit.nodes, &mut circuit.frame, &mut circuit.header)?;
        Ok(circuit)
    }

    /// The number of qubits.
    pub fn num_qubits(&self) -> usize {
        self.header[0] as usize
    }

    /// The number of classical bits.
    pub fn num_cbits(&self) -> usize {
        self.header[1] as usize
    }

    /// The number of measurements so far.
    pub fn measurement_count(&self) -> usize {
        self.header[5] as usize
    }

    pub(crate) fn owner(&self) -> u64 {
        self.header[2]
    }

    pub(crate) fn reference(&self, word: u32) -> PauliRef {
        PauliRef { owner: self.owner(), word }
    }

    /// The nodes, in order.
    pub fn pauli_nodes(&self) -> impl ExactSizeIterator<Item = PauliNode> + '_ {
        let used = NODE_WORDS * self.header[3] as usize;
        self.nodes[..used].chunks_exact(NODE_WORDS).map(|words| PauliNode::read(self.owner(), words))
    }

    /// The operations, in order.
    pub fn operations(&self) -> impl ExactSizeIterator<Item = PbcOp> + '_ {
        let used = OPERATION_WORDS * self.header[4] as usize;
        self.operations[..used].chunks_exact(OPERATION_WORDS).map(|words| PbcOp::read(self.owner(), words))
    }

    /// The output frame.
    ///
    /// ```
    /// use pbc::{Gate, to_pbc};
    /// let circuit = to_pbc(1, 0, &[Gate::H(0)], None)?;
    /// let frame = circuit.output_frame();
    /// assert_eq!(circuit.expand(frame.x(0), 100)?.to_string(), "+Z");
    /// # Ok::<(), pbc::PbcError>(())
    /// ```
    pub fn output_frame(&self) -> CliffordFrame {
        let (x, z) = self.frame[..2 * self.num_qubits()].split_at(self.num_qubits());
        let read = |words: &[u32]| words.iter().map(|&word| self.reference(word)).collect();
        CliffordFrame { x: read(x), z: read(z) }
    }

    /// The identity, node 0.
    pub fn identity(&self) -> PauliAxis {
        PauliAxis(self.reference(0))
    }

    /// The letter on a qubit, as a new node; I is node 0. Amortized O(1).
    ///
    /// ```
    /// use pbc::{Pauli, PbcCircuit};
    /// let mut circuit = PbcCircuit::new(2, 0)?;
    /// let y = circuit.single(1, Pauli::Y)?;
    /// assert_eq!(circuit.expand(y.as_ref(), 100)?.to_string(), "+IY");
    /// assert_eq!(circuit.single(0, Pauli::I)?, circuit.identity());
    /// # Ok::<(), pbc::PbcError>(())
    /// ```
    ///
    /// # Errors
    ///
    /// `QubitOutOfRange`, `NoNodes`.
    pub fn single(&mut self, qubit: u32, pauli: Pauli) -> Result<PauliAxis, PbcError> {
        let header = &mut self.header;
        let answer = growing_nodes(&mut self.nodes, |nodes| ffi::pbc_single(header, nodes, qubit, pauli as u32))?;
        Ok(PauliAxis(self.reference(answer[0] as u32)))
    }

    /// One ordered product, without expanding either operand. Amortized O(1).
    ///
    /// # Errors
    ///
    /// `ForeignPauli`, `NoNodes`.
    pub fn product(&mut self, left: PauliRef, right: PauliRef) -> Result<PauliRef, PbcError> {
        let header = &mut self.header;
        let answer =
            growing_nodes(&mut self.nodes, |nodes| ffi::pbc_product(header, nodes, left.owner, left.word, right.owner, right.word))?;
        Ok(self.reference(answer[0] as u32))
    }

    /// The rotation exp(-i k π/8 P). Amortized O(1).
    ///
    /// ```
    /// use pbc::{PauliAngle, PbcCircuit, PbcOp};
    /// let mut circuit = PbcCircuit::new(1, 0)?;
    /// let (axis, angle) = (circuit.identity(), PauliAngle::new(1));
    /// circuit.rotate(axis, angle)?;
    /// assert_eq!(circuit.operations().next(), Some(PbcOp::Rotate { axis, angle, gate: None }));
    /// # Ok::<(), pbc::PbcError>(())
    /// ```
    ///
    /// # Errors
    ///
    /// `ForeignPauli`, `NoOperations`.
    pub fn rotate(&mut self, axis: PauliAxis, angle: PauliAngle) -> Result<(), PbcError> {
        let (header, eighths) = (&mut self.header, i64::from(angle.eighths()));
        growing_operations(&mut self.operations, |operations| ffi::pbc_rotate(header, operations, axis.0.owner, axis.0.word, eighths))?;
        Ok(())
    }

    /// A measurement, into a classical bit or none. Amortized O(1).
    ///
    /// ```
    /// use pbc::{Pauli, PbcCircuit, PbcError};
    /// let mut circuit = PbcCircuit::new(1, 1)?;
    /// let z = circuit.single(0, Pauli::Z)?;
    /// let outcome = circuit.measure(z, Some(0))?;
    /// circuit.conditional_pauli(z, outcome)?;
    /// assert_eq!(circuit.measure(z, Some(1)), Err(PbcError::ClassicalBitOutOfRange { index: 0, bit: 1 }));
    /// # Ok::<(), PbcError>(())
    /// ```
    ///
    /// # Errors
    ///
    /// `ForeignPauli`, `ClassicalBitOutOfRange`, `NoOperations`.
    pub fn measure(&mut self, axis: PauliAxis, target: Option<u32>) -> Result<MeasId, PbcError> {
        let (header, bit) = (&mut self.header, target.map_or(0, |bit| u64::from(bit) + 1));
        let answer =
            growing_operations(&mut self.operations, |operations| ffi::pbc_measure(header, operations, axis.0.owner, axis.0.word, bit))?;
        Ok(MeasId { owner: self.owner(), index: answer[0] as u32 })
    }

    /// A rotation where a measurement gave 1. Amortized O(1).
    ///
    /// # Errors
    ///
    /// `ForeignPauli`, `UnknownMeasurement`, `NoOperations`.
    pub fn conditional_rotate(&mut self, axis: PauliAxis, angle: PauliAngle, if_one: MeasId) -> Result<(), PbcError> {
        let (header, eighths) = (&mut self.header, i64::from(angle.eighths()));
        growing_operations(&mut self.operations, |operations| {
            ffi::pbc_conditional_rotate(header, operations, axis.0.owner, axis.0.word, eighths, if_one.owner, if_one.index)
        })?;
        Ok(())
    }

    /// A Pauli string where a measurement gave 1, as a rotation by π/2: equal up to a phase that cannot be observed.
    ///
    /// # Errors
    ///
    /// As `conditional_rotate`.
    pub fn conditional_pauli(&mut self, axis: PauliAxis, if_one: MeasId) -> Result<(), PbcError> {
        self.conditional_rotate(axis, PauliAngle::new(4), if_one)
    }
}
