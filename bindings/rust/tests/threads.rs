//! Threads share what they read, and hand over what they make.

use pbc::*;
use std::thread;

fn send_and_sync<T: Send + Sync>() {}

#[test]
fn every_type_is_send_and_sync() {
    send_and_sync::<PbcCircuit>();
    send_and_sync::<CliffordFrame>();
    send_and_sync::<PauliRef>();
    send_and_sync::<PauliAxis>();
    send_and_sync::<PauliNode>();
    send_and_sync::<PbcOp>();
    send_and_sync::<MeasId>();
    send_and_sync::<AxisKind>();
    send_and_sync::<ExpandedPauli>();
    send_and_sync::<MaxAxisWeights>();
    send_and_sync::<Gate>();
    send_and_sync::<Program>();
    send_and_sync::<Pauli>();
    send_and_sync::<Phase>();
    send_and_sync::<PauliAngle>();
    send_and_sync::<PbcError>();
}

#[test]
fn threads_read_one_circuit() {
    let gates: Vec<Gate> =
        (0..6_000).map(|i| [Gate::H(i % 61), Gate::Cnot(i % 61, (i + 7) % 61), Gate::T(i % 59)][i as usize % 3]).collect();
    let circuit = to_pbc(61, 0, &gates, None).unwrap();
    let axes: Vec<_> = circuit.operations().map(|op| op.axis().as_ref()).skip(1_900).step_by(10).collect();
    let expected: Vec<_> = axes.iter().map(|&axis| circuit.expand(axis, usize::MAX).unwrap()).collect();
    let weights = circuit.max_axis_weights(usize::MAX).unwrap();
    let all = circuit.axes(usize::MAX).unwrap();
    thread::scope(|scope| {
        for _ in 0..4 {
            scope.spawn(|| {
                for (&axis, expected) in axes.iter().zip(&expected) {
                    assert_eq!(&circuit.expand(axis, usize::MAX).unwrap(), expected);
                    assert!(circuit.hermitian_axis(axis, usize::MAX).is_ok());
                }
                assert_eq!(circuit.max_axis_weights(usize::MAX).unwrap(), weights);
                assert_eq!(circuit.axes(usize::MAX).unwrap(), all);
            });
        }
    });
}

#[test]
fn owners_differ_between_threads() {
    let made: Vec<_> = (0..4).map(|_| thread::spawn(|| PbcCircuit::new(1, 0).unwrap())).map(|made| made.join().unwrap()).collect();
    for (i, circuit) in made.iter().enumerate() {
        for (j, other) in made.iter().enumerate() {
            assert_eq!(circuit.expand(other.identity().as_ref(), 100).is_ok(), i == j);
        }
    }
}

#[test]
#[should_panic]
fn a_frame_panics_past_the_last_qubit() {
    PbcCircuit::new(2, 0).unwrap().output_frame().x(2);
}
