//! What is read by expanding products: letters, axes, weights, and the limits.

use pbc::{ExpandedPauli, Gate, MaxAxisWeights, Pauli, PauliAngle, PbcCircuit, PbcError, Phase, to_pbc};
use std::num::NonZeroU32;

#[test]
fn a_product_of_x_and_z_is_no_axis_before_it_is_scaled() {
    let mut circuit = PbcCircuit::new(1, 0).unwrap();
    let (x, z) = (circuit.single(0, Pauli::X).unwrap().as_ref(), circuit.single(0, Pauli::Z).unwrap().as_ref());
    let product = circuit.product(x, z).unwrap();
    assert_eq!(circuit.expand(product, 100).unwrap(), ExpandedPauli { phase: Phase::MinusI, factors: vec![Pauli::Y] });
    assert_eq!(circuit.hermitian_axis(product, 6).unwrap_err(), PbcError::NonHermitianAxis);
    assert_eq!(circuit.hermitian_axis(product, 5).unwrap_err(), PbcError::ExpansionLimit);
    let axis = circuit.hermitian_axis(product.scaled(Phase::I), 6).unwrap();
    circuit.rotate(axis, PauliAngle::new(1)).unwrap();
    assert_eq!(circuit.expand(axis.as_ref(), 7).unwrap().factors, [Pauli::Y]);
    assert_eq!(circuit.expand(axis.as_ref(), 6).unwrap_err(), PbcError::ExpansionLimit);
}

#[test]
fn the_identity_expands_at_4() {
    let circuit = PbcCircuit::new(2, 0).unwrap();
    assert_eq!(circuit.expand(circuit.identity().as_ref(), 4).unwrap().factors, [Pauli::I, Pauli::I]);
    assert_eq!(circuit.expand(circuit.identity().as_ref(), 3).unwrap_err(), PbcError::ExpansionLimit);
}

#[test]
fn the_pool_grows() {
    let mut circuit = PbcCircuit::new(256, 0).unwrap();
    let frame = circuit.output_frame();
    let mut all = frame.x(0);
    for qubit in 1..256 {
        all = circuit.product(all, frame.x(qubit)).unwrap();
    }
    let twice = circuit.product(all, frame.z(255)).unwrap();
    assert_eq!(circuit.expand(all, 1 << 20).unwrap().factors, [Pauli::X; 256]);
    let expanded = circuit.expand(twice, 1 << 20).unwrap();
    assert_eq!((expanded.phase, expanded.factors[254], expanded.factors[255]), (Phase::MinusI, Pauli::X, Pauli::Y));
}

#[test]
fn weights_are_by_kind() {
    let mut circuit = PbcCircuit::new(3, 0).unwrap();
    assert_eq!(circuit.max_axis_weights(0).unwrap(), MaxAxisWeights { non_clifford: 0, clifford: 0 });
    let (x, z) = (circuit.single(0, Pauli::X).unwrap(), circuit.single(2, Pauli::Z).unwrap());
    let both = circuit.product(x.as_ref(), z.as_ref()).unwrap();
    let both = circuit.hermitian_axis(both, 100).unwrap();
    circuit.rotate(both, PauliAngle::new(2)).unwrap();
    circuit.measure(z, None).unwrap();
    assert_eq!(circuit.max_axis_weights(100).unwrap(), MaxAxisWeights { non_clifford: 1, clifford: 2 });
    assert_eq!(circuit.max_axis_weights(3).unwrap_err(), PbcError::ExpansionLimit);
    assert_eq!(circuit.max_axis_weights_by_kind(100).unwrap(), MaxAxisWeights { non_clifford: 1, clifford: 2 });
}

#[test]
fn zero_turns_are_no_clifford_work() {
    let mut circuit = PbcCircuit::new(3, 0).unwrap();
    let (x, z) = (circuit.single(0, Pauli::X).unwrap(), circuit.single(2, Pauli::Z).unwrap());
    let both = circuit.product(x.as_ref(), z.as_ref()).unwrap();
    let both = circuit.hermitian_axis(both, 100).unwrap();
    let measured = circuit.measure(z, None).unwrap();
    circuit.rotate(both, PauliAngle::new(0)).unwrap();
    circuit.conditional_rotate(both, PauliAngle::new(8), measured).unwrap();
    circuit.rotate(x, PauliAngle::new(6)).unwrap();
    assert_eq!(circuit.max_axis_weights(100).unwrap(), MaxAxisWeights { non_clifford: 1, clifford: 2 });
    assert_eq!(circuit.max_axis_weights_by_kind(100).unwrap(), MaxAxisWeights { non_clifford: 1, clifford: 1 });
    for limit in 0..100 {
        assert_eq!(circuit.max_axis_weights(limit).err(), circuit.max_axis_weights_by_kind(limit).err());
    }
}

#[test]
fn axes_are_the_expansions_of_all_operations() {
    let gates = [Gate::H(0), Gate::Cnot(0, 1), Gate::T(1), Gate::Ccx(0, 1, 2), Gate::Sx(2), Gate::Measure(2, 0)];
    for cap in [None, NonZeroU32::new(3)] {
        let mut circuit = to_pbc(3, 1, &gates, cap).unwrap();
        let y = circuit.single(1, Pauli::Y).unwrap().negated();
        circuit.rotate(y, PauliAngle::new(3)).unwrap();
        let each: Vec<_> = circuit.operations().map(|op| circuit.expand(op.axis().as_ref(), 1000).unwrap()).collect();
        let axes = circuit.axes(1000).unwrap();
        assert_eq!(axes, each);
        assert_eq!(axes.last().unwrap().to_string(), "-IYI");
    }
}

#[test]
fn axes_have_the_limit_of_the_weights() {
    let mut circuit = PbcCircuit::new(2, 0).unwrap();
    assert_eq!(circuit.axes(0).unwrap(), []);
    let (x, z) = (circuit.single(0, Pauli::X).unwrap(), circuit.single(1, Pauli::Z).unwrap());
    let product = circuit.product(x.as_ref(), z.as_ref()).unwrap();
    let axis = circuit.hermitian_axis(product, 100).unwrap();
    circuit.rotate(axis, PauliAngle::new(1)).unwrap();
    circuit.measure(z, None).unwrap();
    let work = (0..).find(|&limit| circuit.max_axis_weights(limit).is_ok()).unwrap();
    assert_eq!(circuit.axes(work).unwrap().len(), 2);
    assert_eq!(circuit.axes(work - 1).unwrap_err(), PbcError::ExpansionLimit);
}

#[test]
fn axes_of_no_qubit_are_phases() {
    let mut circuit = PbcCircuit::new(0, 0).unwrap();
    circuit.rotate(circuit.identity().negated(), PauliAngle::new(1)).unwrap();
    circuit.rotate(circuit.identity(), PauliAngle::new(1)).unwrap();
    assert_eq!(circuit.axes(100).unwrap().iter().map(ToString::to_string).collect::<Vec<_>>(), ["-", "+"]);
}

#[test]
fn what_is_no_product_commutes() {
    let mut circuit = PbcCircuit::new(1, 0).unwrap();
    let x = circuit.single(0, Pauli::X).unwrap().as_ref();
    assert!(circuit.expand_with_commute(x, 100).unwrap().1);
    assert!(circuit.expand_with_commute(circuit.identity().as_ref(), 100).unwrap().1);
    // The whole phase is i.
    let product = circuit.product(x, x.scaled(Phase::I)).unwrap();
    assert!(circuit.expand_with_commute(product, 100).unwrap().1);
    assert_eq!(circuit.expand_with_commute(product, 5).unwrap_err(), PbcError::ExpansionLimit);
}

#[test]
fn references_stay_with_their_circuit() {
    let (circuit, other) = (PbcCircuit::new(1, 0).unwrap(), PbcCircuit::new(1, 0).unwrap());
    assert_eq!(circuit.expand(other.identity().as_ref(), 100).unwrap_err(), PbcError::ForeignPauli);
    assert_eq!(circuit.hermitian_axis(other.identity().as_ref(), 100).unwrap_err(), PbcError::ForeignPauli);
}

#[test]
fn expansions_are_products_letter_by_letter() {
    const QUBITS: u32 = 5;
    let mut circuit = PbcCircuit::new(QUBITS, 0).unwrap();
    let mut known = vec![(circuit.identity().as_ref(), circuit.expand(circuit.identity().as_ref(), 100).unwrap())];
    let mut seed = 1u64;
    let mut pick = |below: usize| {
        seed = seed.wrapping_mul(6_364_136_223_846_793_005).wrapping_add(1_442_695_040_888_963_407);
        (seed >> 33) as usize % below
    };
    for qubit in 0..QUBITS {
        for pauli in [Pauli::X, Pauli::Y, Pauli::Z] {
            let mut factors = vec![Pauli::I; QUBITS as usize];
            factors[qubit as usize] = pauli;
            known.push((circuit.single(qubit, pauli).unwrap().as_ref(), ExpandedPauli { phase: Phase::One, factors }));
        }
    }
    for _ in 0..300 {
        let ((left, a), (right, b)) = (known[pick(known.len())].clone(), known[pick(known.len())].clone());
        let scale = [Phase::One, Phase::I, Phase::MinusOne, Phase::MinusI][pick(4)];
        let (mut phase, mut factors, mut clashes) = (a.phase * b.phase * scale, Vec::new(), 0);
        for (p, q) in a.factors.into_iter().zip(b.factors) {
            let (turn, letter) = p.times(q);
            phase = phase * turn;
            clashes += usize::from(p != q && p != Pauli::I && q != Pauli::I);
            factors.push(letter);
        }
        let product = circuit.product(left, right).unwrap().scaled(scale);
        let expected = ExpandedPauli { phase, factors };
        assert_eq!(circuit.expand(product, 1 << 20).unwrap(), expected);
        assert_eq!(circuit.expand_with_commute(product, 1 << 20).unwrap(), (expected.clone(), clashes % 2 == 0));
        known.push((product, expected));
    }
}
