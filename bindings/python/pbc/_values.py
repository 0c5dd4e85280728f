"""Letters, phases, references, operations and refusals."""
import operator
from typing import NamedTuple, Optional

from ._gates import name_of
from ._library import call, number

I, X, Y, Z = range(4)
ONE, PLUS_I, MINUS_ONE, MINUS_I = range(4)

REFUSALS = [
    None, "TooManyQubits", "BrokenGateList", "BadStore", "ForeignPauli", "UnsupportedGate", "NonCliffordFrameGate", "QubitOutOfRange",
    "RepeatedOperand", "ClassicalBitOutOfRange", "UnknownMeasurement", "CapTooSmall", "NoPlanes", "NoFrame", "NoNodes", "NoOperations",
    "NoScratch", "ExpansionLimit", "NoPool", "NonHermitianAxis", "BadText", "NoGateRoom",
    None, None, "TargetTaken",
]

_MESSAGES = [
    None, "over 256 qubits, or over 65,536 classical bits", "over 65,536 gates", "the circuit's words are damaged",
    "Pauli reference belongs to another circuit", "unsupported gate {name}", "the output frame does not accept {name}",
    "qubit {operand} is out of range", "qubit {operand} is repeated", "classical bit {operand} is out of range",
    "measurement is not defined in this circuit", "the cap is 0", "too few plane words",
    "too few frame words", "over 65,536 nodes", "over 65,536 operations", "too few scratch words", "the work is above the limit",
    "over 65,535 factors at once", "rotation and measurement axes must be Hermitian", "no statement of the subset begins here",
    "too few gate words", None, None, "classical bit {operand} is taken",
]


class PbcError(Exception):
    """A refusal: its number, its name, the offending gate's index (or 0) and the offending kind, qubit, bit or place (or 0).
    A refusal of a text has its place (from 0), line and column (from 1), all in bytes; for others they are None.

    >>> import pbc
    >>> try:
    ...     pbc.to_pbc(2, 0, [("h", 0), ("cnot", 1, 1)])
    ... except pbc.PbcError as refusal:
    ...     print(refusal.number, refusal.name, refusal.index, refusal.operand, "-", refusal)
    8 RepeatedOperand 1 1 - gate 1: qubit 1 is repeated
    >>> try:
    ...     pbc.read_qasm("OPENQASM 2.0;\\n include 'qelib1.inc';")
    ... except pbc.PbcError as refusal:
    ...     print(refusal.number, refusal.name, refusal.place, refusal.line, refusal.column, "-", refusal)
    20 BadText 15 2 2 - line 2, column 2: no statement of the subset begins here
    """

    __module__ = "pbc"

    number: int
    name: str
    index: int
    operand: int
    place: Optional[int]
    line: Optional[int]
    column: Optional[int]

    def __init__(self, number: int, index: int = 0, operand: int = 0, where: str = "", position: Optional[tuple[int, int]] = None) -> None:
        super().__init__(where + _MESSAGES[number].format(operand=operand, name=name_of(operand)))
        self.number, self.name, self.index, self.operand = number, REFUSALS[number], index, operand
        self.place, (self.line, self.column) = (None, (None, None)) if position is None else (operand, position)
        self._made = number, index, operand, where, position

    def __reduce__(self):
        return PbcError, self._made


class _Handle:
    """What belongs to one circuit: copies stand for the same thing, but no other process has that circuit."""

    __slots__ = ()

    def __copy__(self):
        return self

    def __deepcopy__(self, memo):
        return self

    def __reduce_ex__(self, protocol):
        raise TypeError(f"a {type(self).__name__} belongs to a circuit of this process and cannot be pickled")


class _PauliRef(NamedTuple):
    owner: int
    word: int


class PauliRef(_Handle, _PauliRef):
    """A reference to a node of one circuit, with a phase in front; the word is 4 times the node and the phase.

    >>> import pbc
    >>> circuit = pbc.PbcCircuit(1, 0)
    >>> minus_y = circuit.single(0, pbc.Y).scaled(pbc.MINUS_ONE)
    >>> minus_y.node_index, minus_y.phase == pbc.MINUS_ONE
    (3, True)
    """

    __slots__ = ()

    @property
    def node_index(self) -> int:
        """The node's place among ``pauli_nodes``."""
        return self.word // 4

    @property
    def phase(self) -> int:
        """The power of i in front."""
        return self.word % 4

    def scaled(self, phase: int) -> "PauliRef":
        """The same node with one more power of i in front."""
        return PauliRef(self.owner, self.word // 4 * 4 + (self.word + operator.index(phase)) % 4)


class _MeasId(NamedTuple):
    owner: int
    index: int


class MeasId(_Handle, _MeasId):
    """A measurement of one circuit, and its number there."""

    __slots__ = ()


class PbcOp(NamedTuple):
    """An operation: kind is rotate, measure or conditional_rotate; what a kind does not have is None. gate is the place, in the list
    of to_pbc, of the gate that it came from, and None for one added by hand; a rotation that stands for a pending gate names that gate.

    >>> import pbc
    >>> circuit = pbc.to_pbc(2, 0, [("cnot", 0, 1), ("t", 1)], max_weight=1)
    >>> circuit.rotate(circuit.identity, 1)
    >>> [operation.gate for operation in circuit.operations]
    [0, 0, 0, 1, None]
    """

    kind: str
    axis: PauliRef
    angle: Optional[int]
    measurement: Optional[MeasId]
    target: Optional[int]
    gate: Optional[int]


class ExpandedPauli(NamedTuple):
    """The phase and the letters of a reference, the work of reading them, and whether the two factors of its product commute (yes if it is
    no product); the last two are None where all axes were read at once. As text, the letters by qubit.

    >>> import pbc
    >>> print(pbc.ExpandedPauli(pbc.ONE, [pbc.Z, pbc.I, pbc.Z], 0))
    +ZIZ
    """

    phase: int
    factors: list
    work: Optional[int]
    commute: Optional[bool] = None

    def __str__(self) -> str:
        return ["+", "+i", "-", "-i"][self.phase] + "".join("IXYZ"[letter] for letter in self.factors)


class MaxAxisWeights(NamedTuple):
    """The largest weights of axes by kind, and the work of reading them."""

    non_clifford: int
    clifford: int
    work: int


def angle(eighths: int) -> int:
    """The Euclidean remainder by 8 of any integer.

    >>> angle(-1), angle(2**70 + 3)
    (7, 3)
    """
    return call("pbc_angle", operator.index(eighths))


def times(a: int, b: int) -> tuple[int, int]:
    """The product of two letters, a times b: a phase and a letter.

    >>> times(X, Y) == (PLUS_I, Z)
    True
    """
    phase, letter = divmod(call("pbc_times", number("a letter", a, Z), number("a letter", b, Z)), 4)
    return phase, letter
