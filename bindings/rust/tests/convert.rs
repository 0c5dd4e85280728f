//! Conversions that are small enough to follow by hand, and gates on a circuit's output.

use pbc::{Gate, Gate::*, Pauli, PauliAngle, PbcCircuit, PbcError, PbcOp, Phase, to_pbc};
use std::num::NonZeroU32;

fn cap(most: u32) -> Option<NonZeroU32> {
    NonZeroU32::new(most)
}

/// Node and angle of each rotation.
fn rotations(circuit: &PbcCircuit) -> Vec<(usize, u8)> {
    circuit
        .operations()
        .map(|op| match op {
            PbcOp::Rotate { axis, angle, .. } => (axis.as_ref().node_index(), angle.eighths()),
            _ => panic!("a rotation was expected"),
        })
        .collect()
}

/// For each gate in turn that operations name, one after another, how many; `None` for those added by hand.
fn named(circuit: &PbcCircuit) -> Vec<(Option<u32>, usize)> {
    let gates: Vec<_> = circuit.operations().map(|op| op.gate()).collect();
    gates.chunk_by(|a, b| a == b).map(|alike| (alike[0], alike.len())).collect()
}

#[test]
fn no_gates() {
    let circuit = to_pbc(0, 0, &[], None).unwrap();
    assert_eq!((circuit.pauli_nodes().len(), circuit.operations().len()), (1, 0));
}

#[test]
fn s_h_t_rotates_along_minus_y() {
    let circuit = to_pbc(1, 0, &[S(0), H(0), T(0)], None).unwrap();
    let axis = circuit.operations().next().unwrap().axis().as_ref();
    let expanded = circuit.expand(axis, 7).unwrap();
    assert_eq!((expanded.phase, expanded.factors), (Phase::MinusOne, vec![Pauli::Y]));
    assert_eq!(circuit.expand(axis, 6).unwrap_err(), PbcError::ExpansionLimit);
}

#[test]
fn a_cap_writes_pending_gates_first() {
    let gates = [Cnot(0, 1), T(1)];
    for most in [None, cap(2)] {
        let circuit = to_pbc(2, 0, &gates, most).unwrap();
        assert_eq!((circuit.pauli_nodes().len(), rotations(&circuit)), (7, vec![(6, 1)]));
    }
    let circuit = to_pbc(2, 0, &gates, cap(1)).unwrap();
    assert_eq!((circuit.pauli_nodes().len(), rotations(&circuit)), (8, vec![(2, 2), (3, 2), (7, 6), (4, 1)]));
}

#[test]
fn a_cap_holds_for_odd_angles_and_measurements_alone() {
    let weights = to_pbc(2, 0, &[Cnot(0, 1), T(1)], cap(1)).unwrap().max_axis_weights(100).unwrap();
    assert_eq!((weights.non_clifford, weights.clifford), (1, 2));
}

#[test]
fn ccx_is_seven_rotations() {
    let circuit = to_pbc(3, 0, &[Ccx(0, 1, 2)], None).unwrap();
    assert_eq!(circuit.pauli_nodes().len(), 11);
    assert_eq!(rotations(&circuit), [(2, 1), (4, 1), (5, 1), (7, 7), (8, 7), (9, 7), (10, 1)]);
    assert_eq!(circuit.max_axis_weights(34).unwrap().non_clifford, 3);
    assert_eq!(circuit.max_axis_weights(33).unwrap_err(), PbcError::ExpansionLimit);
}

#[test]
fn operations_name_their_gate() {
    let circuit = to_pbc(3, 1, &[H(0), T(0), X(1), Ccx(0, 1, 2), Measure(2, 0)], None).unwrap();
    assert_eq!(named(&circuit), [(Some(1), 1), (Some(3), 7), (Some(4), 1)]);
}

#[test]
fn a_flush_names_its_own_gates() {
    assert_eq!(named(&to_pbc(2, 0, &[Cnot(0, 1), T(1)], cap(1)).unwrap()), [(Some(0), 3), (Some(1), 1)]);
    // What is lowered too; the t, whose axis is light, stands before the gates that were pending then, and names itself.
    let gates = [H(0), Y(0), Sx(0), Swap(0, 1), Cy(0, 1), Cnot(2, 3), T(2), Measure(3, 0), Cz(0, 1), Tdg(1)];
    let circuit = to_pbc(4, 1, &gates, cap(1)).unwrap();
    let flushed = [(Some(0), 3), (Some(1), 2), (Some(2), 7), (Some(3), 9), (Some(4), 5), (Some(5), 3)];
    assert_eq!(named(&circuit)[0], (Some(6), 1));
    assert_eq!(named(&circuit)[1..7], flushed);
    assert_eq!(named(&circuit)[7..], [(Some(7), 1), (Some(9), 1)]);
}

#[test]
fn by_hand_there_is_no_gate() {
    let mut circuit = to_pbc(1, 1, &[T(0)], None).unwrap();
    let z = circuit.single(0, Pauli::Z).unwrap();
    circuit.rotate(z, PauliAngle::new(1)).unwrap();
    let outcome = circuit.measure(z, Some(0)).unwrap();
    circuit.conditional_pauli(z, outcome).unwrap();
    assert_eq!(named(&circuit), [(Some(0), 1), (None, 3)]);
}

#[test]
fn refusals_name_the_gate() {
    let refused = |gates: &[Gate], most| to_pbc(3, 1, gates, most).unwrap_err();
    assert_eq!(refused(&[H(0), Cnot(5, 5)], None), PbcError::QubitOutOfRange { index: 1, qubit: 5 });
    assert_eq!(refused(&[Cnot(1, 1)], None), PbcError::RepeatedOperand { index: 0, qubit: 1 });
    assert_eq!(refused(&[Measure(0, 9)], None), PbcError::ClassicalBitOutOfRange { index: 0, bit: 9 });
    assert_eq!(to_pbc(257, 0, &[], None).unwrap_err(), PbcError::TooManyQubits);
    assert_eq!(refused(&vec![H(0); 65_537], None), PbcError::BrokenGateList);
}

#[test]
fn buffers_grow() {
    let gates: Vec<Gate> = (0..65_536).map(|i| if i % 2 == 0 { H(0) } else { T(0) }).collect();
    let circuit = to_pbc(65, 0, &gates, cap(3)).unwrap();
    assert_eq!(circuit.operations().len(), 32_768);
    assert_eq!(circuit.operations().last().unwrap().gate(), Some(65_535));
    assert_eq!(to_pbc(2, 0, &vec![Swap(0, 1); 65_536], None).unwrap_err(), PbcError::NoNodes);
}

#[test]
fn a_frame_gate_turns_the_output() {
    let mut circuit = PbcCircuit::new(2, 0).unwrap();
    circuit.push_output_clifford(S(0)).unwrap();
    circuit.push_output_clifford(Cnot(0, 1)).unwrap();
    let frame = circuit.output_frame();
    let x = circuit.expand(frame.x(0), 100).unwrap();
    assert_eq!((x.phase, x.factors), (Phase::MinusOne, vec![Pauli::Y, Pauli::X]));
    let z = circuit.expand(frame.z(1), 100).unwrap();
    assert_eq!((z.phase, z.factors), (Phase::One, vec![Pauli::Z, Pauli::Z]));
    assert_eq!(circuit.push_output_clifford(T(0)).unwrap_err(), PbcError::NonCliffordFrameGate { kind: 5 });
    assert_eq!(circuit.push_output_clifford(H(2)).unwrap_err(), PbcError::QubitOutOfRange { index: 0, qubit: 2 });
    assert_eq!(circuit.push_output_clifford(Cz(1, 1)).unwrap_err(), PbcError::RepeatedOperand { index: 0, qubit: 1 });
}

#[test]
fn one_target_has_one_measurement() {
    let refusal = to_pbc(2, 2, &[Measure(0, 1), T(0), Measure(1, 1)], None).unwrap_err();
    assert_eq!(refusal, PbcError::TargetTaken { index: 2, bit: 1 });
    assert_eq!(refusal.to_string(), "gate 2: classical bit 1 is taken");
    let mut circuit = to_pbc(2, 2, &[Measure(0, 1), Measure(1, 0)], None).unwrap();
    let z = circuit.single(0, pbc::Pauli::Z).unwrap();
    circuit.measure(z, Some(1)).unwrap();
    assert_eq!(circuit.measurement_count(), 3);
}
