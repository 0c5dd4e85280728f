//! Stand-in for the optimizer, and what the driver reads of a circuit that the public interface does not show.
use super::*;

pub struct OptimizeOptions;
pub struct OptimizeStats;
pub struct Strategy;
pub(crate) fn packed_anticommutes() {}
pub(crate) fn support_signature() {}

impl PbcCircuit {
    pub(crate) fn owner(&self) -> u64 {
        self.arena.owner
    }
    pub(crate) fn handle(&self, owner: u64, word: u32) -> PauliRef {
        let phase = [Phase::One, Phase::I, Phase::MinusOne, Phase::MinusI][word as usize % 4];
        PauliRef { owner, node: word as usize / 4, phase }
    }
    pub(crate) fn axis(&self, reference: PauliRef) -> PauliAxis {
        PauliAxis(reference)
    }
    pub(crate) fn outcome(&self, owner: u64, index: usize) -> MeasId {
        MeasId { owner, index }
    }
    /// The work of a walk from these roots, as the walk itself counts it.
    pub(crate) fn work(&self, roots: &[PauliRef], limit: usize) -> Result<usize, PbcError> {
        Ok(self.arena.materialize(roots, limit, |_, _, _| Ok(()))?.work)
    }
    /// Whether the two factors of a reference's node commute, counted qubit by qubit; yes if it is no product.
    pub(crate) fn factors_commute(&self, reference: PauliRef) -> bool {
        let PauliNode::Product(left, right) = self.arena.nodes[reference.node] else { return true };
        let (a, b) = (self.expand(left, usize::MAX).unwrap(), self.expand(right, usize::MAX).unwrap());
        let clashes = a.factors.iter().zip(&b.factors).filter(|&(&p, &q)| p != Pauli::I && q != Pauli::I && p != q);
        clashes.count() % 2 == 0
    }
    pub(crate) fn axes(&self) -> Vec<PauliRef> {
        self.operations.iter().map(|op| op.axis().0).collect()
    }
    pub(crate) fn frame_roots(&self) -> Vec<PauliRef> {
        self.output_frame.roots().collect()
    }
    /// These parts in place of its own; the frame has the images of X, then those of Z.
    pub(crate) fn store(&mut self, nodes: Vec<PauliNode>, operations: Vec<PbcOp>, frame: &[PauliRef], measurements: usize) {
        let (x, z) = frame.split_at(self.num_qubits);
        self.arena.nodes = nodes;
        self.operations = operations;
        self.output_frame = CliffordFrame { x: x.to_vec(), z: z.to_vec() };
        self.measurements = measurements;
    }
}
