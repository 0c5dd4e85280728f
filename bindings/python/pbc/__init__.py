"""Logical Pauli-based circuits, over the proved library libexports.a.

The library is loaded from a shared object: the file in the environment variable PBC_LIBRARY, the one installed beside this file, or
target/bindings/libpbc.so of the repository, which bindings/test makes from the archive. The words that the library asks its caller to
lend are owned here, up to the library's limits. A refused call raises PbcError and changes nothing; a number out of its range is a
ValueError, and changes nothing.
Letters are 0 to 3 (I, X, Y, Z), phases 0 to 3 (powers of i); an angle k stands for exp(-i k pi/8 P) and counts modulo 8.

>>> import pbc
>>> circuit = pbc.to_pbc(3, 1, [("h", 0), ("cx", 0, 1), ("t", 1), ("measure", 2, 0)])
>>> for operation, axis in zip(circuit.operations, circuit.axes(1000)):
...     print(operation.gate, operation.kind, operation.angle, axis)
2 rotate 1 +XZI
3 measure None +IIZ

A gate list may come from OpenQASM 2 text, or from a file of it (read_qasm_file):

>>> program = pbc.read_qasm('OPENQASM 2.0; include "qelib1.inc"; qreg q[2]; creg c[1]; cx q[0],q[1]; t q[1]; measure q[0] -> c[0];')
>>> [str(axis) for axis in program.to_pbc(max_weight=3).axes(1000)]
['+ZZ', '+ZI']
"""
from ._circuit import (
    MAX_CBITS, MAX_NODES, MAX_OPERATIONS, MAX_QUBITS, NO_NODES, NO_OPERATIONS, NO_POOL, NODE_WORDS, OPERATION_WORDS, POOL_WORDS, PbcCircuit,
    to_pbc,
)
from ._gates import GATES
from ._qasm import Program, read_qasm, read_qasm_file
from ._values import (
    I, MINUS_I, MINUS_ONE, ONE, PLUS_I, REFUSALS, X, Y, Z, ExpandedPauli, MaxAxisWeights, MeasId, PauliRef, PbcError, PbcOp, angle, times,
)

__all__ = [
    "GATES", "I", "MAX_CBITS", "MAX_NODES", "MAX_OPERATIONS", "MAX_QUBITS", "MINUS_I", "MINUS_ONE", "NODE_WORDS", "NO_NODES",
    "NO_OPERATIONS", "NO_POOL", "ONE", "OPERATION_WORDS", "PLUS_I", "POOL_WORDS", "REFUSALS", "X", "Y", "Z", "ExpandedPauli",
    "MaxAxisWeights", "MeasId", "PauliRef", "PbcCircuit", "PbcError", "PbcOp", "Program", "angle", "read_qasm", "read_qasm_file", "times",
    "to_pbc",
]
