//! The crate of this folder (`bound`) and the Rust in one process, call by call: random gate lists, some with an operand made wrong, and random
//! calls on what they become and on new circuits. Stops at the first answer that differs; else prints how many there were, and of the refusals
//! how many of each kind.
//!
//! Not made are those inputs for which docs/DIFFERENCES.md lists another answer: sizes past the limits. Under a cap of 1 or 2 the Rust is given the parts
//! of ccx and ccz.
//! The gate that an operation came from is the crate's alone: the other words are compared, and what was converted has a gate, what was added none.
//! tools/beside/build puts this file among the Rust's.
#![allow(dead_code, unused_imports, unused_variables)]

mod angle;
mod angle_stats;
mod circuit;
mod decompose;
mod driver;
mod generate;
mod operands;
mod pass;
mod pbc;
mod qasm;
mod synthesis;

use generate::{KINDS, Random, arity, gates};
use std::collections::BTreeMap;
use std::num::NonZeroU32;

const SEED: u64 = 0x9e37_79b9_7f4a_7c15;
const CIRCUITS: u32 = 6_000;
/// This kind has a classical bit beside its qubit.
const MEASURE: u32 = 12;
const WIDE: [u32; 8] = [62, 63, 64, 65, 127, 128, 129, 130];
const PHASES: [(pbc::Phase, bound::Phase); 4] = [
    (pbc::Phase::One, bound::Phase::One),
    (pbc::Phase::I, bound::Phase::I),
    (pbc::Phase::MinusOne, bound::Phase::MinusOne),
    (pbc::Phase::MinusI, bound::Phase::MinusI),
];
const LETTERS: [(pbc::Pauli, bound::Pauli); 4] = [
    (pbc::Pauli::I, bound::Pauli::I),
    (pbc::Pauli::X, bound::Pauli::X),
    (pbc::Pauli::Y, bound::Pauli::Y),
    (pbc::Pauli::Z, bound::Pauli::Z),
];

type Reference = (pbc::PauliRef, bound::PauliRef);
type Axis = (pbc::PauliAxis, bound::PauliAxis);
type Outcome = (pbc::MeasId, bound::MeasId);

/// What the same calls gave in both.
#[derive(Default)]
struct Handles {
    references: Vec<Reference>,
    axes: Vec<Axis>,
    outcomes: Vec<Outcome>,
}

/// One circuit in both, with its handles and the number of operations that it began with.
struct Both {
    rust: pbc::PbcCircuit,
    ours: bound::PbcCircuit,
    handles: Handles,
    converted: usize,
}

struct Comparison {
    random: Random,
    answers: u64,
    refusals: BTreeMap<String, u64>,
    /// Of the circuit before.
    foreign: Handles,
}

/// Four words as a gate of the crate.
fn gate(words: &[u32]) -> bound::Gate {
    use bound::Gate::*;
    let &[kind, a, b, c] = words else { panic!("four words are a gate") };
    match kind {
        0 => H(a),
        1 => X(a),
        2 => Z(a),
        3 => S(a),
        4 => Sdg(a),
        5 => T(a),
        6 => Tdg(a),
        8 => Cnot(a, b),
        9 => Cz(a, b),
        10 => Ccx(a, b, c),
        11 => Ccz(a, b, c),
        12 => Measure(a, b),
        15 => Y(a),
        16 => Sx(a),
        19 => Swap(a, b),
        20 => Cy(a, b),
        _ => panic!("the crate has no gate of kind {kind}"),
    }
}

/// The Rust's refusal in the crate's words. Where the Rust does not carry the operand, it is taken from the gate.
fn refusal(error: &pbc::PbcError, gates: &[u32]) -> bound::PbcError {
    use bound::PbcError as Ours;
    use pbc::PbcError as Rust;
    let (place, cause) = match error {
        Rust::InvalidInput { index, cause } => (*index, &**cause),
        cause => (0, cause),
    };
    let (index, gate) = (place as u64, gates.chunks(4).nth(place).unwrap_or(&[]));
    match *cause {
        Rust::ForeignPauli => Ours::ForeignPauli,
        Rust::NonCliffordFrameGate => Ours::NonCliffordFrameGate { kind: gate[0].into() },
        Rust::QubitOutOfRange(qubit) => Ours::QubitOutOfRange { index, qubit: qubit.into() },
        Rust::RepeatedOperand => Ours::RepeatedOperand { index, qubit: if gate[1] == gate[2] { gate[2] } else { gate[3] }.into() },
        Rust::ClassicalBitOutOfRange(bit) => Ours::ClassicalBitOutOfRange { index, bit: bit.into() },
        Rust::UnknownMeasurement => Ours::UnknownMeasurement,
        Rust::ExpansionLimit => Ours::ExpansionLimit,
        Rust::NonHermitianAxis => Ours::NonHermitianAxis,
        _ => panic!("no such refusal was expected: {error}"),
    }
}

fn same_reference(rust: pbc::PauliRef, ours: bound::PauliRef) -> bool {
    rust.node_index() == ours.node_index() && rust.phase() as u8 == ours.phase() as u8
}

fn same_axis(rust: pbc::PauliAxis, ours: bound::PauliAxis) -> bool {
    same_reference(rust.as_ref(), ours.as_ref())
}

fn same_node(rust: &pbc::PauliNode, ours: &bound::PauliNode) -> bool {
    use bound::PauliNode as Ours;
    use pbc::PauliNode as Rust;
    match (*rust, *ours) {
        (Rust::Identity, Ours::Identity) => true,
        (Rust::Single { qubit, pauli }, Ours::Single { qubit: q, pauli: p }) => qubit == q && pauli as u8 == p as u8,
        (Rust::Product(l, r), Ours::Product(left, right)) => same_reference(l, left) && same_reference(r, right),
        _ => false,
    }
}

fn same_operation(rust: &pbc::PbcOp, ours: &bound::PbcOp) -> bool {
    use bound::PbcOp as Ours;
    use pbc::PbcOp as Rust;
    let kinds = (pbc::AxisKind::of(rust).map(|kind| kind as u8), bound::AxisKind::of(ours).map(|kind| kind as u8));
    kinds.0 == kinds.1
        && same_axis(rust.axis(), ours.axis())
        && match (*rust, *ours) {
            (Rust::Rotate { angle, .. }, Ours::Rotate { angle: k, .. }) => angle.eighths() == k.eighths(),
            (Rust::Measure { outcome, target, .. }, Ours::Measure { outcome: m, target: bit, .. }) => {
                outcome.index() == m.index() && target == bit
            }
            (Rust::ConditionalRotate { angle, if_one, .. }, Ours::ConditionalRotate { angle: k, if_one: m, .. }) => {
                angle.eighths() == k.eighths() && if_one.index() == m.index()
            }
            _ => false,
        }
}

fn same_expansion(rust: &pbc::ExpandedPauli, ours: &bound::ExpandedPauli) -> bool {
    rust.phase as u8 == ours.phase as u8
        && rust.factors.len() == ours.factors.len()
        && rust.factors.iter().zip(&ours.factors).all(|(&a, &b)| a as u8 == b as u8)
}

impl Both {
    fn of(rust: pbc::PbcCircuit, ours: bound::PbcCircuit) -> Self {
        let converted = rust.operations().len();
        let mut both = Self { rust, ours, handles: Handles::default(), converted };
        both.check_words();
        let (mut axes, mut references) = (both.operation_axes(), both.frame());
        axes.push((both.rust.identity(), both.ours.identity()));
        references.extend(axes.iter().map(|&(a, b)| (a.as_ref(), b.as_ref())));
        both.handles = Handles { references, axes, outcomes: both.measurements() };
        both
    }

    /// The words agree: counts, nodes, operations and frame.
    fn check_words(&self) {
        let (rust, ours) = (&self.rust, &self.ours);
        assert_eq!((rust.num_qubits(), rust.num_cbits()), (ours.num_qubits(), ours.num_cbits()));
        assert_eq!(rust.measurement_count(), ours.measurement_count());
        assert_eq!(rust.pauli_nodes().len(), ours.pauli_nodes().len());
        assert!(rust.pauli_nodes().iter().zip(ours.pauli_nodes()).all(|(a, b)| same_node(a, &b)), "the nodes differ");
        assert_eq!(rust.operations().len(), ours.operations().len());
        assert!(rust.operations().iter().zip(ours.operations()).all(|(a, b)| same_operation(a, &b)), "the operations differ");
        assert!(ours.operations().enumerate().all(|(i, op)| op.gate().is_some() == (i < self.converted)), "a gate is missing, or one too many");
        assert_eq!(rust.output_frame().len(), ours.output_frame().len());
        assert!(self.frame().iter().all(|&(a, b)| same_reference(a, b)), "the frames differ");
    }

    fn frame(&self) -> Vec<Reference> {
        let (rust, ours) = (self.rust.output_frame(), self.ours.output_frame());
        (0..ours.len() as u32).flat_map(|q| [(rust.x(q), ours.x(q)), (rust.z(q), ours.z(q))]).collect()
    }

    fn operation_axes(&self) -> Vec<Axis> {
        self.rust.operations().iter().zip(self.ours.operations()).map(|(a, b)| (a.axis(), b.axis())).collect()
    }

    fn measurements(&self) -> Vec<Outcome> {
        let pairs = self.rust.operations().iter().zip(self.ours.operations());
        pairs
            .filter_map(|(a, b)| match (*a, b) {
                (pbc::PbcOp::Measure { outcome, .. }, bound::PbcOp::Measure { outcome: m, .. }) => Some((outcome, m)),
                _ => None,
            })
            .collect()
    }
}

impl Comparison {
    /// What both accepted; None where both refused alike. `gates` are those that the call was given.
    fn agree<A, B>(&mut self, rust: Result<A, pbc::PbcError>, ours: Result<B, bound::PbcError>, gates: &[u32]) -> Option<(A, B)> {
        self.answers += 1;
        match (rust, ours) {
            (Ok(a), Ok(b)) => Some((a, b)),
            (Err(a), Err(b)) => {
                assert_eq!(refusal(&a, gates), b, "the refusals differ");
                let kind = format!("{b:?}").split(' ').next().unwrap().to_string();
                *self.refusals.entry(kind).or_default() += 1;
                None
            }
            (Ok(_), Err(b)) => panic!("the Rust accepts, the crate refuses: {b}"),
            (Err(a), Ok(_)) => panic!("the crate accepts, the Rust refuses: {a}"),
        }
    }

    fn convert(&mut self, n: u32, cbits: u32, cap: Option<u32>, words: &[u32]) -> Option<Both> {
        let repeated = driver::taken(words);
        let list: Vec<_> = words.chunks(4).map(gate).collect();
        let rust = driver::converted(n as usize, cbits as usize, &words[..repeated.map_or(words.len(), |(index, _)| 4 * index + 4)], cap);
        let ours = bound::to_pbc(n, cbits, &list, cap.and_then(NonZeroU32::new));
        if let (Ok(_), Some((index, bit))) = (&rust, repeated) {
            assert_eq!(ours.err(), Some(bound::PbcError::TargetTaken { index: index as u64, bit: bit.into() }), "24 is missing");
            return None;
        }
        self.agree(rust, ours, words).map(|(rust, ours)| Both::of(rust, ours))
    }

    fn expand(&mut self, both: &Both, (a, b): Reference, max_cells: usize) {
        if let Some((expanded, (ours, commute))) = self.agree(both.rust.expand(a, max_cells), both.ours.expand_with_commute(b, max_cells), &[]) {
            assert!(same_expansion(&expanded, &ours), "the expansions differ");
            assert_eq!(both.rust.factors_commute(a), commute, "commuting differs");
        }
    }

    /// The letters of every axis and image.
    fn expand_all(&mut self, both: &Both) {
        let axes: Vec<_> = both.operation_axes().iter().map(|&(a, b)| (a.as_ref(), b.as_ref())).collect();
        for reference in axes.into_iter().chain(both.frame()) {
            self.expand(both, reference, usize::MAX);
        }
    }

    /// The weights, also with the exact limit and one below; and all axes at once, beside each one's expansion, where the weights are given.
    fn weights(&mut self, both: &Both) {
        let work = both.rust.work(&both.rust.axes(), usize::MAX).unwrap();
        for limit in [usize::MAX, work, work.saturating_sub(1)] {
            if let Some((a, b)) = self.agree(both.rust.max_axis_weights(limit), both.ours.max_axis_weights(limit), &[]) {
                assert_eq!((a.non_clifford, a.clifford), (b.non_clifford, b.clifford), "the weights differ");
            }
            if let Some((a, b)) = self.agree(both.rust.axis_weight_summary(limit), both.ours.max_axis_weights_by_kind(limit), &[]) {
                assert_eq!((a.pi8.max.max(a.measurements.max), a.clifford.max), (b.non_clifford, b.clifford), "the weights by kind differ");
            }
            let each = |_| both.rust.axes().into_iter().map(|axis| both.rust.expand(axis, usize::MAX)).collect::<Result<Vec<_>, _>>();
            if let Some((a, b)) = self.agree(both.rust.max_axis_weights(limit).and_then(each), both.ours.axes(limit), &[]) {
                assert_eq!(a.len(), b.len());
                assert!(a.iter().zip(&b).all(|(a, b)| same_expansion(a, b)), "the axes differ");
            }
        }
    }

    /// One reference with more than the exact limit, with it, and with one below; and with fewer cells than qubits, or few more.
    fn limits(&mut self, both: &Both) {
        let (reference, qubits) = (self.reference(both), both.rust.num_qubits());
        let work = both.rust.work(&[reference.0], usize::MAX).unwrap_or(1);
        for limit in [work + 1, work, work - 1] {
            self.expand(both, reference, limit + qubits);
            self.hermitian_axis(both, reference, limit);
        }
        let few = self.random.below(qubits as u32 + 2) as usize;
        self.expand(both, reference, few);
    }

    fn read(&mut self, both: &Both) {
        both.check_words();
        self.expand_all(both);
        self.weights(both);
        for _ in 0..3 {
            self.limits(both);
        }
    }

    fn hermitian_axis(&mut self, both: &Both, (a, b): Reference, limit: usize) -> Option<Axis> {
        let axis = self.agree(both.rust.hermitian_axis(a, limit), both.ours.hermitian_axis(b, limit), &[])?;
        assert!(same_axis(axis.0, axis.1), "the axes differ");
        Some(axis)
    }

    /// One in twelve is of another circuit, if there was one.
    fn pick<T: Copy>(&mut self, own: &[T], foreign: impl Fn(&Handles) -> &[T]) -> Option<T> {
        let list = if self.random.one_in(12) { foreign(&self.foreign) } else { own };
        list.get(self.random.below(list.len() as u32) as usize).copied()
    }

    fn reference(&mut self, both: &Both) -> Reference {
        let picked = self.pick(&both.handles.references, |handles| &handles.references);
        let (a, b) = picked.unwrap_or(both.handles.references[0]);
        let (p, q) = PHASES[self.random.below(4) as usize];
        (a.scaled(p), b.scaled(q))
    }

    fn axis(&mut self, both: &Both) -> Axis {
        let (a, b) = self.pick(&both.handles.axes, |handles| &handles.axes).unwrap_or(both.handles.axes[0]);
        if self.random.one_in(2) { (a.negated(), b.negated()) } else { (a, b) }
    }

    fn angle(&mut self) -> (pbc::PauliAngle, bound::PauliAngle) {
        let k = self.random.next() as i64;
        (pbc::PauliAngle::new(k), bound::PauliAngle::new(k))
    }

    fn add_node(&mut self, both: &mut Both) {
        if self.random.one_in(2) {
            let (a, b) = LETTERS[self.random.below(4) as usize];
            let qubit = self.random.below(both.rust.num_qubits() as u32 + 1);
            if let Some(axis) = self.agree(both.rust.single(qubit, a), both.ours.single(qubit, b), &[]) {
                assert!(same_axis(axis.0, axis.1), "the singles differ");
                both.handles.axes.push(axis);
                both.handles.references.push((axis.0.as_ref(), axis.1.as_ref()));
            }
        } else {
            let (left, right) = (self.reference(both), self.reference(both));
            if let Some(product) = self.agree(both.rust.product(left.0, right.0), both.ours.product(left.1, right.1), &[]) {
                assert!(same_reference(product.0, product.1), "the products differ");
                both.handles.references.push(product);
            }
        }
    }

    fn add_operation(&mut self, both: &mut Both) {
        let (axis, angle) = (self.axis(both), self.angle());
        let outcome = self.pick(&both.handles.outcomes, |handles| &handles.outcomes);
        match (self.random.below(3), outcome) {
            (0, Some(m)) => {
                let rust = both.rust.conditional_rotate(axis.0, angle.0, m.0);
                self.agree(rust, both.ours.conditional_rotate(axis.1, angle.1, m.1), &[]);
            }
            (1, _) => {
                self.agree(both.rust.rotate(axis.0, angle.0), both.ours.rotate(axis.1, angle.1), &[]);
            }
            _ => {
                let target = self.random.below(both.rust.num_cbits() as u32 + 2).checked_sub(1);
                if let Some(outcome) = self.agree(both.rust.measure(axis.0, target), both.ours.measure(axis.1, target), &[]) {
                    assert_eq!(outcome.0.index(), outcome.1.index());
                    both.handles.outcomes.push(outcome);
                }
            }
        }
    }

    fn add_frame_gate(&mut self, both: &mut Both) {
        let some = if self.random.one_in(6) { KINDS.len() } else { 9 };
        let kind = KINDS[self.random.below(some as u32) as usize];
        let qubits = both.rust.num_qubits() as u32 + u32::from(self.random.one_in(8));
        let words = [kind, self.random.below(qubits), self.random.below(qubits), self.random.below(qubits)];
        let rust = driver::gate(kind, words[1], words[2], words[3]).unwrap();
        self.agree(both.rust.push_output_clifford(rust), both.ours.push_output_clifford(gate(&words)), &words);
    }

    fn later(&mut self, both: &mut Both) {
        match self.random.below(6) {
            0 | 1 => self.add_node(both),
            2 | 3 => self.add_operation(both),
            4 => self.add_frame_gate(both),
            _ => {
                let reference = self.reference(both);
                let axis = self.hermitian_axis(both, reference, usize::MAX);
                both.handles.axes.extend(axis);
            }
        }
    }

    /// One operand of one gate becomes n, the greatest number, or another operand of the gate, in some cases itself.
    fn damage(&mut self, words: &mut [u32], n: u32) {
        let gates = (words.len() / 4) as u32;
        if gates == 0 {
            return;
        }
        let gate = &mut words[4 * self.random.below(gates) as usize..][..4];
        let operands = arity(gate[0]) + u32::from(gate[0] == MEASURE);
        gate[1 + self.random.below(operands) as usize] = match self.random.below(4) {
            0 => n,
            1 => u32::MAX,
            _ => gate[1 + self.random.below(operands) as usize],
        };
    }

    /// A new circuit, or that of a gate list; None where the list was refused.
    fn start(&mut self) -> Option<Both> {
        let n = if self.random.one_in(30) { WIDE[self.random.below(WIDE.len() as u32) as usize] } else { self.random.below(9) };
        let (cbits, above) = (self.random.below(4), n + 1 + self.random.below(3));
        if self.random.one_in(20) {
            return Some(Both::of(pbc::PbcCircuit::new(n as usize, cbits as usize), bound::PbcCircuit::new(n, cbits).unwrap()));
        }
        let cap = [None, Some(1), Some(2), Some(3), Some(8), Some(above)][self.random.below(6) as usize];
        let count = self.random.below(if n > 8 { 600 } else { 60 });
        let mut words = gates(&mut self.random, n, cbits, count);
        if self.random.one_in(4) {
            self.damage(&mut words, n);
        }
        self.convert(n, cbits, cap, &words)
    }

    fn circuit(&mut self) {
        let Some(mut both) = self.start() else { return };
        self.read(&both);
        for _ in 0..self.random.below(24) {
            self.later(&mut both);
        }
        self.read(&both);
        self.foreign = both.handles;
    }
}

fn main() {
    let mut comparison = Comparison { random: Random(SEED), answers: 0, refusals: BTreeMap::new(), foreign: Handles::default() };
    for _ in 0..CIRCUITS {
        comparison.circuit();
    }
    let refused: u64 = comparison.refusals.values().sum();
    println!("{CIRCUITS} circuits, {} answers compared, {refused} of them refusals, none differs", comparison.answers);
    for (kind, count) in &comparison.refusals {
        println!("{kind}: {count}");
    }
    assert_eq!(comparison.refusals.len(), 8, "a refusal that both know was never met");
}
