"""OpenQASM 2 text: its gates, for the conversion."""
import ctypes
import os
import pathlib
from typing import NamedTuple, Optional, Union

from ._circuit import PbcCircuit, to_pbc
from ._gates import GATE_WORDS, gates_in
from ._library import answer_words, call, words
from ._values import PbcError

_BAD_TEXT = 20


class Program(NamedTuple):
    """What a text says: the sizes of its two registers, and its gates, as to_pbc takes them (cx is named cnot).

    >>> program = read_qasm('OPENQASM 2.0; include "qelib1.inc"; qreg q[2]; creg c[1]; cx q[0],q[1]; t q[1]; measure q[0] -> c[0];')
    >>> program
    Program(qubits=2, cbits=1, gates=[('cnot', 0, 1), ('t', 1), ('measure', 0, 0)])
    >>> [str(axis) for axis in to_pbc(*program).axes(100)]
    ['+ZZ', '+ZI']
    """

    qubits: int
    cbits: int
    gates: list[tuple]

    def to_pbc(self, max_weight: Optional[int] = None) -> PbcCircuit:
        """The circuit of these gates, as the function of this name makes it.

        >>> program = Program(2, 0, [("cnot", 0, 1), ("t", 1)])
        >>> len(program.to_pbc().operations), len(program.to_pbc(max_weight=1).operations)
        (1, 4)
        """
        return to_pbc(*self, max_weight)


def read_qasm(text: Union[str, bytes]) -> Program:
    """Reads OpenQASM 2 text, of this subset: OPENQASM 2.0; include "qelib1.inc"; one qreg and then one creg, then h, x, y, z, s, sdg, t, tdg,
    cx, cy, cz, ccx on bits of the first, and measure from one of them to one of the second; comments begin with //.
    Whether operands are in range and differ is tested by the conversion.

    What is outside is refused with the place, line and column of its statement, or of the text's end where that comes before the creg.
    They count bytes, of a str those of UTF-8.

    >>> lines = 'OPENQASM 2.0;\\ninclude "qelib1.inc";\\nqreg q[2];\\ncreg c[1];\\n'
    >>> read_qasm(lines + "h q[0]; // a comment").gates
    [('h', 0)]
    >>> read_qasm(lines + "h q[0]; rx(0.5) q[0];")
    Traceback (most recent call last):
    pbc.PbcError: line 5, column 9: no statement of the subset begins here
    """
    if not isinstance(text, (str, bytes)):
        raise TypeError(f"the text is a {type(text).__name__}, not a str or bytes")
    data = text.encode() if isinstance(text, str) else text
    lent = (ctypes.c_uint8 * len(data)).from_buffer_copy(data)
    # A gate ends with a semicolon of its own.
    gates, answer = words(GATE_WORDS * data.count(b";")), answer_words()
    refusal = call("pbc_read_qasm", lent, gates, answer)
    if refusal == _BAD_TEXT:
        place, found = answer[1], answer_words()
        call("pbc_text_position", lent, place, found)
        raise PbcError(refusal, answer[0], place, f"line {found[0]}, column {found[1]}: ", (found[0], found[1]))
    if refusal:
        raise PbcError(refusal, answer[0], answer[1])
    count, qubits, cbits, _ = answer
    return Program(qubits, cbits, gates_in(gates[:GATE_WORDS * count]))


def read_qasm_file(path: Union[str, os.PathLike]) -> Program:
    """Reads a file as read_qasm reads its bytes."""
    return read_qasm(pathlib.Path(path).read_bytes())
