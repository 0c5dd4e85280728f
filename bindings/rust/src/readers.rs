//! What is read from a circuit by expanding its products.

use crate::circuit::{PbcCircuit, growing};
use crate::error::PbcError;
use crate::ffi::{self, Answer};
use crate::letters::{Pauli, Phase};
use crate::reference::{PauliAxis, PauliRef};
use std::fmt;

/// Three words a record; at most so many records count.
const POOL_WORDS: usize = 3 * 65_536;

/// The letters of an expression, by qubit, and the phase in front.
///
/// ```
/// use pbc::{Pauli, PbcCircuit, Phase};
/// let circuit = PbcCircuit::new(2, 0)?;
/// let z = circuit.expand(circuit.output_frame().z(1), 100)?;
/// assert_eq!((z.phase, z.factors.as_slice()), (Phase::One, &[Pauli::I, Pauli::Z][..]));
/// assert_eq!(z.to_string(), "+IZ");
/// # Ok::<(), pbc::PbcError>(())
/// ```
#[derive(Clone, Debug, PartialEq, Eq)]
pub struct ExpandedPauli {
    /// The phase.
    pub phase: Phase,
    /// The letters, by qubit.
    pub factors: Vec<Pauli>,
}

impl ExpandedPauli {
    fn of(phase: u32, letters: &[u8]) -> Self {
        let factors = letters.iter().map(|&letter| Pauli::of(u32::from(letter))).collect();
        Self { phase: Phase::power(phase), factors }
    }
}

impl fmt::Display for ExpandedPauli {
    fn fmt(&self, f: &mut fmt::Formatter<'_>) -> fmt::Result {
        write!(f, "{}", self.phase)?;
        self.factors.iter().try_for_each(|factor| write!(f, "{factor}"))
    }
}

/// Result of [`PbcCircuit::max_axis_weights`] and [`PbcCircuit::max_axis_weights_by_kind`].
#[derive(Clone, Copy, Debug, Default, PartialEq, Eq)]
pub struct MaxAxisWeights {
    /// Over non-Clifford rotations and measurements.
    pub non_clifford: usize,
    /// Over Clifford rotations.
    pub clifford: usize,
}

impl PbcCircuit {
    /// Calls with scratch of four words a node, and with a pool that begins with so many words, and grows.
    fn walk(&self, words: usize, mut call: impl FnMut(&mut [u32], &mut [u32]) -> Answer) -> Answer {
        let mut scratch = vec![0; 4 * self.header[3] as usize];
        growing(&mut vec![0; words], POOL_WORDS, PbcError::NoPool, |pool| call(&mut scratch, pool))
    }

    /// The letters of one expression. The budget charges one cell a qubit plus the work of the expansion.
    ///
    /// ```
    /// use pbc::{Pauli, PbcCircuit, PbcError};
    /// let mut circuit = PbcCircuit::new(1, 0)?;
    /// let (x, z) = (circuit.single(0, Pauli::X)?, circuit.single(0, Pauli::Z)?);
    /// let product = circuit.product(x.as_ref(), z.as_ref())?;
    /// assert_eq!(circuit.expand(product, 100)?.to_string(), "-iY");
    /// assert_eq!(circuit.expand(product, 6), Err(PbcError::ExpansionLimit));
    /// # Ok::<(), PbcError>(())
    /// ```
    ///
    /// # Errors
    ///
    /// `ForeignPauli`, `ExpansionLimit`, `NoPool`.
    pub fn expand(&self, reference: PauliRef, max_cells: usize) -> Result<ExpandedPauli, PbcError> {
        Ok(self.expand_with_commute(reference, max_cells)?.0)
    }

    /// The same, and whether the two factors of the expression's product commute: an even number of qubits hold two different letters
    /// other than I. Yes if the expression is no product; a phase in front of it plays no part.
    ///
    /// ```
    /// use pbc::{Pauli, PbcCircuit};
    /// let mut circuit = PbcCircuit::new(1, 0)?;
    /// let (x, z) = (circuit.single(0, Pauli::X)?, circuit.single(0, Pauli::Z)?);
    /// let product = circuit.product(x.as_ref(), z.as_ref())?;
    /// let (expanded, commute) = circuit.expand_with_commute(product, 100)?;
    /// assert_eq!((expanded.to_string().as_str(), commute), ("-iY", false));
    /// # Ok::<(), pbc::PbcError>(())
    /// ```
    ///
    /// # Errors
    ///
    /// `ForeignPauli`, `ExpansionLimit`, `NoPool`.
    pub fn expand_with_commute(&self, reference: PauliRef, max_cells: usize) -> Result<(ExpandedPauli, bool), PbcError> {
        let PauliRef { owner, word } = reference;
        let mut letters = vec![0; self.num_qubits()];
        let answer = self.walk(0, |scratch, pool| {
            ffi::pbc_expand(&self.header, &self.nodes, &mut letters, scratch, pool, owner, word, max_cells as u64)
        })?;
        Ok((ExpandedPauli::of(answer[0] as u32, &letters), answer[2] == 1))
    }

    /// The expression as an axis, if its sign is +1 or -1.
    ///
    /// ```
    /// use pbc::{Pauli, PbcCircuit, PbcError, Phase};
    /// let mut circuit = PbcCircuit::new(1, 0)?;
    /// let (x, z) = (circuit.single(0, Pauli::X)?, circuit.single(0, Pauli::Z)?);
    /// let product = circuit.product(x.as_ref(), z.as_ref())?;
    /// assert_eq!(circuit.hermitian_axis(product, 100), Err(PbcError::NonHermitianAxis));
    /// assert!(circuit.hermitian_axis(product.scaled(Phase::I), 100).is_ok());
    /// # Ok::<(), PbcError>(())
    /// ```
    ///
    /// # Errors
    ///
    /// `ForeignPauli`, `ExpansionLimit`, `NoPool`, `NonHermitianAxis`.
    pub fn hermitian_axis(&self, reference: PauliRef, max_cells: usize) -> Result<PauliAxis, PbcError> {
        let PauliRef { owner, word } = reference;
        self.walk(0, |scratch, pool| ffi::pbc_hermitian_axis(&self.header, &self.nodes, scratch, pool, owner, word, max_cells as u64))?;
        Ok(PauliAxis(reference))
    }

    /// The largest axis weights: of non-Clifford rotations and measurements, and of Clifford rotations; 0 where there are none.
    ///
    /// ```
    /// use pbc::{Gate, to_pbc};
    /// let circuit = to_pbc(3, 0, &[Gate::Ccx(0, 1, 2)], None)?;
    /// let weights = circuit.max_axis_weights(100)?;
    /// assert_eq!((weights.non_clifford, weights.clifford), (3, 0));
    /// # Ok::<(), pbc::PbcError>(())
    /// ```
    ///
    /// # Errors
    ///
    /// `ExpansionLimit`, `NoPool`.
    pub fn max_axis_weights(&self, max_work: usize) -> Result<MaxAxisWeights, PbcError> {
        let answer = self.walk(0, |scratch, pool| {
            ffi::pbc_max_axis_weights(&self.header, &self.nodes, &self.operations, scratch, pool, max_work as u64)
        })?;
        Ok(MaxAxisWeights { non_clifford: answer[0] as usize, clifford: answer[1] as usize })
    }

    /// The same by the kinds of the axes: rotations of angle 0, conditional ones too, are in neither maximum. The work is that of
    /// [`max_axis_weights`](Self::max_axis_weights).
    ///
    /// ```
    /// use pbc::{Pauli, PauliAngle, PbcCircuit};
    /// let mut circuit = PbcCircuit::new(1, 0)?;
    /// let x = circuit.single(0, Pauli::X)?;
    /// circuit.rotate(x, PauliAngle::new(0))?;
    /// assert_eq!(circuit.max_axis_weights(100)?.clifford, 1);
    /// assert_eq!(circuit.max_axis_weights_by_kind(100)?.clifford, 0);
    /// # Ok::<(), pbc::PbcError>(())
    /// ```
    ///
    /// # Errors
    ///
    /// `ExpansionLimit`, `NoPool`.
    pub fn max_axis_weights_by_kind(&self, max_work: usize) -> Result<MaxAxisWeights, PbcError> {
        let answer = self.walk(0, |scratch, pool| {
            ffi::pbc_max_axis_weights_by_kind(&self.header, &self.nodes, &self.operations, scratch, pool, max_work as u64)
        })?;
        Ok(MaxAxisWeights { non_clifford: answer[0] as usize, clifford: answer[1] as usize })
    }

    /// The axis of every operation, in order, in one walk: its work and its limit are those of
    /// [`max_axis_weights`](Self::max_axis_weights).
    ///
    /// ```
    /// use pbc::{Gate, to_pbc};
    /// let circuit = to_pbc(2, 1, &[Gate::Cnot(0, 1), Gate::T(1), Gate::Measure(0, 0)], None)?;
    /// for (operation, axis) in circuit.operations().zip(circuit.axes(100)?) {
    ///     assert_eq!(axis.to_string(), if operation.gate() == Some(1) { "+ZZ" } else { "+ZI" });
    /// }
    /// # Ok::<(), pbc::PbcError>(())
    /// ```
    ///
    /// # Errors
    ///
    /// `ExpansionLimit`, `NoPool`.
    pub fn axes(&self, max_work: usize) -> Result<Vec<ExpandedPauli>, PbcError> {
        let qubits = self.num_qubits();
        let mut rows = vec![0; self.header[4] as usize * (qubits + 1)];
        // All that can be of use, so that a long walk is not begun again with more.
        let records = 1 + qubits * self.header[3] as usize;
        self.walk(POOL_WORDS.min(3 * records), |scratch, pool| {
            ffi::pbc_expand_axes(&self.header, &self.nodes, &self.operations, &mut rows, scratch, pool, max_work as u64)
        })?;
        // A row is a letter a qubit, then the phase.
        Ok(rows.chunks_exact(qubits + 1).map(|row| ExpandedPauli::of(u32::from(row[qubits]), &row[..qubits])).collect())
    }
}
