//! Texts: their gates, the places of refusals, and the adders of examples/.

use pbc::{Gate::*, PauliNode, PauliRef, PbcCircuit, PbcError, PbcOp, Program, read_qasm, to_pbc};
use std::num::NonZeroU32;

const LINES: &str = "OPENQASM 2.0;\ninclude \"qelib1.inc\";\nqreg q[3];\ncreg c[2];\n";

fn after_lines(gates: &str) -> Result<Program, PbcError> {
    read_qasm(format!("{LINES}{gates}"))
}

/// Place, line and column of a refusal.
fn refused(text: impl AsRef<[u8]>) -> (u64, u64, u64) {
    match read_qasm(text).unwrap_err() {
        PbcError::BadText { place, line, column } => (place, line, column),
        other => panic!("{other}"),
    }
}

#[test]
fn every_gate_is_read() {
    let text = "h q[0];x q[1];y q[2];z q[0];s q[1];sdg q[2];t q[0];tdg q[1];cx q[0],q[1];cy q[1],q[2];cz q[2],q[0];\n\
                ccx q[2],q[1],q[0]; // all but the last\n measure q[2]->c[1];";
    let gates = [H(0), X(1), Y(2), Z(0), S(1), Sdg(2), T(0), Tdg(1), Cnot(0, 1), Cy(1, 2), Cz(2, 0), Ccx(2, 1, 0), Measure(2, 1)];
    assert_eq!(after_lines(text).unwrap(), Program { qubits: 3, cbits: 2, gates: gates.to_vec() });
    assert_eq!(after_lines("").unwrap().gates, []);
}

#[test]
fn texts_are_strings_or_bytes() {
    let text = format!("{LINES}h q[0];// \u{3c0}");
    let program = read_qasm(&text).unwrap();
    assert_eq!(read_qasm(text.as_str()).unwrap(), program);
    assert_eq!(read_qasm(text.as_bytes()).unwrap(), program);
    assert_eq!(read_qasm(text.into_bytes()).unwrap(), program);
    assert_eq!(read_qasm([LINES.as_bytes(), b"h q[0];//\xff\0"].concat()).unwrap(), program);
}

#[test]
fn refusals_have_line_and_column() {
    assert_eq!(refused(""), (0, 1, 1));
    assert_eq!(refused("// nothing"), (10, 1, 11));
    assert_eq!(refused("OPENQASM2.0;"), (0, 1, 1));
    assert_eq!(refused("OPENQASM 2.0;include \"qelib1.inc\";qreg q[1]; // end"), (51, 1, 52));
    assert_eq!(refused(format!("{LINES}h q[0];\n\t swap q[0],q[1];")), (68, 6, 3));
    assert_eq!(refused(format!("{LINES}// \u{3c0}\nh q[0]; qreg r[1];")), (72, 6, 9));
    assert_eq!(refused([LINES.as_bytes(), b"h q[0];\0"].concat()), (65, 5, 8));
    let refusal = after_lines("h q[4294967295]; h q[4294967296];").unwrap_err();
    assert_eq!(refusal.to_string(), "line 5, column 18: no statement of the subset begins here");
}

#[test]
fn operands_are_the_conversions_to_refuse() {
    let program = after_lines("h q[0]; cx q[7],q[7];").unwrap();
    assert_eq!(program.gates, [H(0), Cnot(7, 7)]);
    assert_eq!(program.to_pbc(None).unwrap_err(), PbcError::QubitOutOfRange { index: 1, qubit: 7 });
    let wide = read_qasm(LINES.replace("q[3]", "q[4294967295]")).unwrap();
    assert_eq!((wide.qubits, wide.to_pbc(None).unwrap_err()), (u32::MAX, PbcError::TooManyQubits));
}

#[test]
fn long_texts_have_room() {
    let program = after_lines(&"t q[0];".repeat(70_000)).unwrap();
    assert_eq!(program.gates, vec![T(0); 70_000]);
    assert_eq!(program.to_pbc(None).unwrap_err(), PbcError::BrokenGateList);
}

fn example(name: &str) -> String {
    std::fs::read_to_string(format!("{}/../../examples/{name}", env!("CARGO_MANIFEST_DIR"))).unwrap()
}

fn word(reference: PauliRef) -> u32 {
    4 * reference.node_index() as u32 + reference.phase() as u32
}

fn node_words(node: PauliNode) -> [u32; 2] {
    match node {
        PauliNode::Identity => [0, 0],
        PauliNode::Single { qubit, pauli } => [1 + 4 * pauli as u32, qubit],
        PauliNode::Product(left, right) => [2 + 4 * word(left), word(right)],
        _ => panic!("there is no other"),
    }
}

fn operation_words(op: PbcOp) -> [u32; 5] {
    let (kind, measurement, target) = match op {
        PbcOp::Rotate { angle, .. } => (4 * u32::from(angle.eighths()), 0, 0),
        PbcOp::Measure { outcome, target, .. } => (1, outcome.index() as u32, target.map_or(0, |bit| bit + 1)),
        _ => panic!("a conversion makes no other"),
    };
    [kind, word(op.axis().as_ref()), measurement, target, op.gate().unwrap()]
}

/// What the command answers to a conversion: sizes and measurements, then nodes, operations and frame, each as a number of words and the words.
fn answer(circuit: &PbcCircuit) -> String {
    let frame = circuit.output_frame();
    let qubits = 0..frame.len() as u32;
    let parts: [Vec<u32>; 3] = [
        circuit.pauli_nodes().flat_map(node_words).collect(),
        circuit.operations().flat_map(operation_words).collect(),
        qubits.clone().map(|q| frame.x(q)).chain(qubits.map(|q| frame.z(q))).map(word).collect(),
    ];
    let sizes = [circuit.num_qubits(), circuit.num_cbits(), circuit.measurement_count()];
    let numbers = parts.iter().flat_map(|words| [words.len() as u32].into_iter().chain(words.iter().copied()));
    sizes.iter().map(|&size| size as u32).chain(numbers).fold("ok".to_string(), |text, number| format!("{text} {number}"))
}

/// The texts of the adders convert to what the command answers to their lines.
#[test]
fn adders_convert_alike() {
    for name in ["cuccaro-2", "cuccaro-4", "ladder-2", "ladder-4"] {
        let circuit = read_qasm(example(&format!("{name}.qasm"))).unwrap().to_pbc(None).unwrap();
        assert_eq!(Some(answer(&circuit).as_str()), example(&format!("{name}.out")).lines().next(), "{name}");
    }
}

#[test]
fn a_program_converts_as_its_gates_do() {
    let program = read_qasm(example("cuccaro-4.qasm")).unwrap();
    for cap in [None, NonZeroU32::new(3)] {
        let (one, other) = (program.to_pbc(cap).unwrap(), to_pbc(program.qubits, program.cbits, &program.gates, cap).unwrap());
        assert_eq!(one.axes(100_000).unwrap(), other.axes(100_000).unwrap());
    }
}
