//! References into a circuit's nodes, and the nodes.

use crate::letters::{Pauli, Phase};

/// A reference to a node of one circuit, with a phase in front. Equality is structural, not algebraic.
/// References of different circuits cannot be mixed.
///
/// ```
/// use pbc::{Pauli, PbcCircuit, PbcError, Phase};
/// let (mut circuit, other) = (PbcCircuit::new(1, 0)?, PbcCircuit::new(1, 0)?);
/// let y = circuit.single(0, Pauli::Y)?.as_ref();
/// assert_eq!((y.node_index(), y.scaled(Phase::I).phase()), (3, Phase::I));
/// assert_eq!(other.expand(y, 100), Err(PbcError::ForeignPauli));
/// # Ok::<(), PbcError>(())
/// ```
#[derive(Clone, Copy, Debug, PartialEq, Eq)]
pub struct PauliRef {
    pub(crate) owner: u64,
    pub(crate) word: u32,
}

impl PauliRef {
    /// The node's place among [`PbcCircuit::pauli_nodes`](crate::PbcCircuit::pauli_nodes).
    pub fn node_index(self) -> usize {
        self.word as usize / 4
    }

    /// The phase in front.
    pub fn phase(self) -> Phase {
        Phase::power(self.word)
    }

    /// The same node with one more phase in front.
    pub fn scaled(self, phase: Phase) -> Self {
        let turned = (self.phase() * phase) as u32;
        Self { owner: self.owner, word: self.word / 4 * 4 + turned }
    }
}

/// A reference known to have the sign +1 or -1: what rotations and measurements take.
/// [`PbcCircuit::hermitian_axis`](crate::PbcCircuit::hermitian_axis) makes one of a product.
///
/// ```
/// use pbc::{Pauli, PbcCircuit};
/// let mut circuit = PbcCircuit::new(1, 0)?;
/// let axis = circuit.single(0, Pauli::Y)?.negated();
/// assert_eq!(circuit.expand(axis.as_ref(), 100)?.to_string(), "-Y");
/// # Ok::<(), pbc::PbcError>(())
/// ```
#[derive(Clone, Copy, Debug, PartialEq, Eq)]
pub struct PauliAxis(pub(crate) PauliRef);

impl PauliAxis {
    /// The reference. Named so in the Rust whose names this crate keeps.
    #[allow(clippy::should_implement_trait)]
    pub fn as_ref(self) -> PauliRef {
        self.0
    }

    /// The axis with the other sign.
    pub fn negated(self) -> Self {
        Self(self.0.scaled(Phase::MinusOne))
    }
}

/// A node. Products are ordered and refer to older nodes only.
///
/// ```
/// use pbc::{Pauli, PauliNode, PbcCircuit};
/// let circuit = PbcCircuit::new(1, 0)?;
/// let nodes: Vec<_> = circuit.pauli_nodes().collect();
/// assert_eq!(nodes[..2], [PauliNode::Identity, PauliNode::Single { qubit: 0, pauli: Pauli::X }]);
/// # Ok::<(), pbc::PbcError>(())
/// ```
#[derive(Clone, Copy, Debug, PartialEq, Eq)]
#[non_exhaustive]
pub enum PauliNode {
    /// The identity, node 0.
    Identity,
    /// A letter on a qubit.
    Single {
        /// The qubit.
        qubit: u32,
        /// The letter.
        pauli: Pauli,
    },
    /// The left reference times the right one.
    Product(PauliRef, PauliRef),
}

impl PauliNode {
    pub(crate) fn read(owner: u64, words: &[u32]) -> Self {
        let (first, second) = (words[0], words[1]);
        match first % 4 {
            0 => Self::Identity,
            1 => Self::Single { qubit: second, pauli: Pauli::of(first / 4) },
            _ => Self::Product(PauliRef { owner, word: first / 4 }, PauliRef { owner, word: second }),
        }
    }
}
