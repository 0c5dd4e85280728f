"""Reads the OpenQASM 2 text of a 2-bit ripple-carry adder with measured sums, converts it, and prints each operation with its gate and the letters
of its axis, then makes a few calls by hand."""
import pbc

ADDER = """OPENQASM 2.0;
include "qelib1.inc";
qreg q[6]; // carry in, b_0, a_0, b_1, a_1, carry out
creg c[3];
cx q[2],q[1]; cx q[2],q[0]; ccx q[0],q[1],q[2];
cx q[4],q[3]; cx q[4],q[2]; ccx q[2],q[3],q[4];
cx q[4],q[5];
ccx q[2],q[3],q[4]; cx q[4],q[2]; cx q[2],q[3];
ccx q[0],q[1],q[2]; cx q[2],q[0]; cx q[0],q[1];
measure q[1] -> c[0]; measure q[3] -> c[1]; measure q[5] -> c[2];
"""


def show(circuit):
    for operation, axis in zip(circuit.operations, circuit.axes(100000)):
        source = "by hand" if operation.gate is None else f"gate {operation.gate}"
        into = "" if operation.target is None else f" into {operation.target}"
        print(f"{source}:", operation.kind, operation.angle or 0, f"{axis}{into}")


program = pbc.read_qasm(ADDER)
print(program.qubits, "qubits,", program.cbits, "classical bits,", len(program.gates), "gates, the first", program.gates[0])
circuit = program.to_pbc()
print(len(circuit.pauli_nodes), "nodes,", len(circuit.operations), "operations,", circuit.measurement_count, "measurements")
show(circuit)
print(circuit.max_axis_weights(100000))
print("under a cap of 3:", program.to_pbc(max_weight=3).max_axis_weights(100000))

small = pbc.PbcCircuit(2, 1)
x, z = small.single(0, pbc.X), small.single(0, pbc.Z)
product = small.product(x, z)
print("X and Z of one qubit commute:", small.expand(product, 100).commute)
axis = small.hermitian_axis(product.scaled(pbc.PLUS_I), 100)
small.rotate(axis, -1)
outcome = small.measure(z.scaled(pbc.MINUS_ONE), 0)
small.conditional_rotate(x, 4, outcome)
small.push_output_clifford("cnot", 0, 1)
show(small)
print([small.expand(image, 100).factors for images in small.output_frame for image in images])

assert pbc.times(pbc.X, pbc.Y) == (pbc.PLUS_I, pbc.Z) and pbc.angle(-1) == 7 and pbc.angle(-(10**30) * 8 + 3) == 3


def refused(call, *arguments):
    try:
        call(*arguments)
    except (pbc.PbcError, ValueError) as refusal:
        print(refusal)


refused(small.single, 2, pbc.I)
refused(small.single, -1, pbc.X)
refused(small.hermitian_axis, product, 100)
refused(small.expand, product, 7)
refused(small.push_output_clifford, "t", 0)
refused(pbc.to_pbc, 2, 0, [("h", 0), ("cnot", 1, 1)])
refused(pbc.to_pbc, 3, 0, [("ccz", 0, 1, 2)], 0)
refused(pbc.read_qasm, ADDER.replace("cx q[4],q[5]", "swap q[4],q[5]"))
