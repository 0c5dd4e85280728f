//! The calls that make a circuit: their answers, their words, and refusals at the limits.

use pbc::{AxisKind, MAX_NODES, MAX_OPERATIONS, MAX_QUBITS, Pauli, PauliAngle, PauliNode, PbcCircuit, PbcError, PbcOp, Phase};

#[test]
fn letters_and_phases_multiply() {
    use Pauli::*;
    assert_eq!(X.times(Y), (Phase::I, Z));
    assert_eq!(Y.times(X), (Phase::MinusI, Z));
    assert_eq!(Z.times(X), (Phase::I, Y));
    for letter in [I, X, Y, Z] {
        assert_eq!(letter.times(letter), (Phase::One, I));
        assert_eq!(I.times(letter), (Phase::One, letter));
    }
    assert_eq!(Phase::I * Phase::MinusI, Phase::One);
}

#[test]
fn angles_count_modulo_8() {
    for (eighths, kept) in [(-1, 7), (8, 0), (i64::MIN, 0), (i64::MAX, 7), (3, 3)] {
        assert_eq!(PauliAngle::new(eighths).eighths(), kept);
    }
    assert_eq!((-PauliAngle::new(3)).eighths(), 5);
    assert_eq!((PauliAngle::new(5) + PauliAngle::new(6)).signed_eighths(), 3);
}

#[test]
fn a_new_circuit_has_x_and_z_of_each_qubit() {
    let circuit = PbcCircuit::new(2, 3).unwrap();
    assert_eq!((circuit.num_qubits(), circuit.num_cbits(), circuit.measurement_count()), (2, 3, 0));
    let nodes: Vec<_> = circuit.pauli_nodes().collect();
    let single = |qubit, pauli| PauliNode::Single { qubit, pauli };
    let start = [PauliNode::Identity, single(0, Pauli::X), single(0, Pauli::Z), single(1, Pauli::X), single(1, Pauli::Z)];
    assert_eq!(nodes, start);
    let frame = circuit.output_frame();
    assert_eq!(frame.len(), 2);
    assert_eq!((frame.x(1).node_index(), frame.z(1).node_index(), frame.x(1).phase()), (3, 4, Phase::One));
    assert_eq!(circuit.operations().len(), 0);
}

#[test]
fn operations_are_read_back() {
    let mut circuit = PbcCircuit::new(2, 1).unwrap();
    let x = circuit.single(0, Pauli::X).unwrap();
    let y = circuit.single(1, Pauli::Y).unwrap();
    assert_eq!(circuit.single(1, Pauli::I).unwrap(), circuit.identity());
    circuit.rotate(x.negated(), PauliAngle::new(-1)).unwrap();
    let outcome = circuit.measure(y, Some(0)).unwrap();
    let hidden = circuit.measure(y, None).unwrap();
    circuit.conditional_rotate(x, PauliAngle::new(2), hidden).unwrap();
    circuit.conditional_pauli(y, outcome).unwrap();
    assert_eq!((outcome.index(), hidden.index(), circuit.measurement_count()), (0, 1, 2));
    let operations: Vec<_> = circuit.operations().collect();
    assert_eq!(operations[0], PbcOp::Rotate { axis: x.negated(), angle: PauliAngle::new(7), gate: None });
    assert_eq!(operations[1], PbcOp::Measure { axis: y, outcome, target: Some(0), gate: None });
    assert_eq!(operations[2], PbcOp::Measure { axis: y, outcome: hidden, target: None, gate: None });
    assert_eq!(operations[3], PbcOp::ConditionalRotate { axis: x, angle: PauliAngle::new(2), if_one: hidden, gate: None });
    assert_eq!(AxisKind::of(&operations[0]), Some(AxisKind::Pi8));
    assert_eq!(AxisKind::of(&operations[4]), Some(AxisKind::Clifford));
    assert_eq!(x.negated().as_ref().phase(), Phase::MinusOne);
}

#[test]
fn products_keep_their_order() {
    let mut circuit = PbcCircuit::new(1, 0).unwrap();
    let (x, z) = (circuit.single(0, Pauli::X).unwrap().as_ref(), circuit.single(0, Pauli::Z).unwrap().as_ref());
    let product = circuit.product(x, z.scaled(Phase::I)).unwrap();
    let node = circuit.pauli_nodes().nth(product.node_index()).unwrap();
    assert_eq!(node, PauliNode::Product(x, z.scaled(Phase::I)));
}

#[test]
fn refusals_name_what_is_wrong() {
    assert_eq!(PbcCircuit::new(MAX_QUBITS + 1, 0).unwrap_err(), PbcError::TooManyQubits);
    assert_eq!(PbcCircuit::new(0, 65_537).unwrap_err(), PbcError::TooManyQubits);
    assert_eq!(PbcCircuit::new(u32::MAX, u32::MAX).unwrap_err(), PbcError::TooManyQubits);
    let mut circuit = PbcCircuit::new(2, 1).unwrap();
    let mut other = PbcCircuit::new(2, 1).unwrap();
    assert_eq!(circuit.single(2, Pauli::I).unwrap_err(), PbcError::QubitOutOfRange { index: 0, qubit: 2 });
    assert_eq!(circuit.single(u32::MAX, Pauli::X).unwrap_err(), PbcError::QubitOutOfRange { index: 0, qubit: u64::from(u32::MAX) });
    let x = circuit.single(0, Pauli::X).unwrap();
    assert_eq!(other.rotate(x, PauliAngle::new(1)).unwrap_err(), PbcError::ForeignPauli);
    assert_eq!(other.product(x.as_ref(), x.as_ref()).unwrap_err(), PbcError::ForeignPauli);
    for bit in [1, u32::MAX] {
        assert_eq!(circuit.measure(x, Some(bit)).unwrap_err(), PbcError::ClassicalBitOutOfRange { index: 0, bit: u64::from(bit) });
    }
    let outcome = circuit.measure(x, Some(0)).unwrap();
    let y = other.single(0, Pauli::Y).unwrap();
    assert_eq!(other.conditional_pauli(y, outcome).unwrap_err(), PbcError::UnknownMeasurement);
}

#[test]
fn buffers_grow_to_the_limits() {
    let mut circuit = PbcCircuit::new(MAX_QUBITS, 0).unwrap();
    let x = circuit.single(255, Pauli::X).unwrap();
    while circuit.pauli_nodes().len() < MAX_NODES {
        circuit.product(x.as_ref(), x.as_ref()).unwrap();
    }
    assert_eq!(circuit.product(x.as_ref(), x.as_ref()).unwrap_err(), PbcError::NoNodes);
    assert_eq!(circuit.single(0, Pauli::Y).unwrap_err(), PbcError::NoNodes);
    while circuit.operations().len() < MAX_OPERATIONS {
        circuit.rotate(x, PauliAngle::new(1)).unwrap();
    }
    assert_eq!(circuit.rotate(x, PauliAngle::new(1)).unwrap_err(), PbcError::NoOperations);
    assert_eq!(circuit.measure(x, None).unwrap_err(), PbcError::NoOperations);
}
