"""Circuits: the calls that make them, the readers, and the conversion."""
import ctypes
import itertools
import operator
import threading
from typing import Iterable, Optional

from ._gates import gate_words, list_words, needs
from ._library import U32, U64, answer_words, call, number, resized, words
from ._values import ExpandedPauli, MaxAxisWeights, MeasId, PauliRef, PbcError, PbcOp, Z

MAX_QUBITS, MAX_CBITS, MAX_NODES, MAX_OPERATIONS = 256, 65536, 65536, 65536
NODE_WORDS, OPERATION_WORDS, POOL_WORDS = 2, 5, 3 * 65536
NO_NODES, NO_OPERATIONS, NO_POOL = 14, 15, 18
_SCRATCH_WORDS, _FIRST_POOL_WORDS, _NO_CAP, _HAND = 4, 3 * 64, U64, U32
_OF_GATES = (5, 7, 8, 9, 24)

_owners = itertools.count()


def _until_room(attempt, grow, where=""):
    """Calls until no refusal is left that more words cure. The refusals of a gate list name the gate."""
    while True:
        answer = answer_words()
        refusal = attempt(answer)
        if not refusal:
            return list(answer)
        if not grow(refusal):
            raise PbcError(refusal, answer[0], answer[1], where.format(answer[0]) if refusal in _OF_GATES else "")


def _no_growth(refusal):
    return False


def _handle(what, value, kind):
    if not isinstance(value, kind):
        raise TypeError(f"{what} is a {type(value).__name__}, not a {kind.__name__}")
    return value


class PbcCircuit:
    """A circuit that owns its words.

    Threads may share a circuit: calls that add to it go one at a time, and a reader sees the circuit as it was when it was called.
    A circuit cannot be copied or pickled: references of one circuit would pass for references of the other.

    >>> circuit = PbcCircuit(2, 1)
    >>> x, z = circuit.single(0, 1), circuit.single(1, 3)
    >>> circuit.rotate(circuit.product(x, z), 1)
    >>> circuit
    <PbcCircuit: 2 qubits, 1 classical bits, 8 nodes, 1 operations, 0 measurements>
    """

    def __init__(self, num_qubits: int, num_cbits: int) -> None:
        qubits, cbits = number("num_qubits", num_qubits), number("num_cbits", num_cbits)
        images = 2 * min(qubits, MAX_QUBITS)
        self._start(words(NODE_WORDS * (1 + images)), words(0), words(images))
        _until_room(lambda answer: call("pbc_new", qubits, cbits, next(_owners), self._nodes, self._frame, self._header, answer), _no_growth)

    def _start(self, nodes, operations, frame):
        self._lock = threading.Lock()
        self._header = words(6, ctypes.c_uint64)
        self._nodes, self._operations, self._frame = nodes, operations, frame
        self._seen_nodes, self._seen_operations = words(0), words(0)
        self._read_nodes, self._read_operations = (), ()

    def __copy__(self):
        raise TypeError("a circuit cannot be copied: references of one would pass for references of the other")

    def __deepcopy__(self, memo):
        self.__copy__()

    def __reduce_ex__(self, protocol):
        raise TypeError("a circuit cannot be pickled: references of one would pass for references of the other")

    def __repr__(self) -> str:
        qubits, cbits, _, nodes, operations, measurements = self._header
        return (f"<PbcCircuit: {qubits} qubits, {cbits} classical bits, {nodes} nodes, {operations} operations, "
                f"{measurements} measurements>")

    def _grow(self, refusal):
        """More node words or operation words, if they cure the refusal."""
        name, most = {
            NO_NODES: ("_nodes", NODE_WORDS * MAX_NODES),
            NO_OPERATIONS: ("_operations", OPERATION_WORDS * MAX_OPERATIONS),
        }.get(refusal, ("_frame", 0))
        old = getattr(self, name)
        if len(old) >= most:
            return False
        setattr(self, name, resized(old, min(most, max(64, 2 * len(old)))))
        return True

    def _add(self, attempt):
        """A call that adds to the circuit, with no other beside it."""
        with self._lock:
            return _until_room(attempt, self._grow)

    def _seen(self):
        """Header, nodes and operations that no later call writes. A copy is made where there are more than at the last."""
        with self._lock:
            header = type(self._header).from_buffer_copy(self._header)
            if len(self._seen_nodes) < NODE_WORDS * header[3]:
                self._seen_nodes = resized(self._nodes, NODE_WORDS * header[3])
            if len(self._seen_operations) < OPERATION_WORDS * header[4]:
                self._seen_operations = resized(self._operations, OPERATION_WORDS * header[4])
            return header, self._seen_nodes, self._seen_operations

    def _walk(self, attempt, long=False):
        """A call that reads the circuit as it is now, with scratch and pool of its own; others may add to it meanwhile. The pool grows; that
        of a long walk has all that can be of use, so that it is not begun again with more."""
        header, nodes, operations = self._seen()
        first = min(POOL_WORDS, 3 * (1 + header[0] * header[3])) if long else _FIRST_POOL_WORDS
        scratch, pool = words(_SCRATCH_WORDS * header[3]), words(first)

        def grow(refusal):
            nonlocal pool
            if refusal != NO_POOL or len(pool) >= POOL_WORDS:
                return False
            pool = words(min(POOL_WORDS, 2 * len(pool)))
            return True

        return _until_room(lambda answer: attempt(header, nodes, operations, scratch, pool, answer), grow)

    @property
    def num_qubits(self) -> int:
        """The number of qubits."""
        return self._header[0]

    @property
    def num_cbits(self) -> int:
        """The number of classical bits."""
        return self._header[1]

    @property
    def owner(self) -> int:
        """A number that no other circuit of this process has."""
        return self._header[2]

    @property
    def measurement_count(self) -> int:
        """The number of measurements so far."""
        return self._header[5]

    def _reference(self, word):
        return PauliRef(self.owner, word)

    @property
    def identity(self) -> PauliRef:
        """The identity, node 0.

        >>> PbcCircuit(2, 0).identity.node_index
        0
        """
        return self._reference(0)

    def _node(self, first, second):
        return [None, (second, first // 4), (self._reference(first // 4), self._reference(second))][first % 4]

    def _operation(self, first, axis, measurement, target, gate):
        kind = first % 4
        return PbcOp(
            ["rotate", "measure", "conditional_rotate"][kind], self._reference(axis), None if kind == 1 else first // 4,
            None if kind == 0 else MeasId(self.owner, measurement), target - 1 if target else None, None if gate == _HAND else gate,
        )

    @property
    def pauli_nodes(self) -> tuple:
        """The nodes: None for the identity, (qubit, letter), or a pair of references for a product. Each is read once.

        >>> PbcCircuit(1, 0).pauli_nodes
        (None, (0, 1), (0, 3))
        """
        with self._lock:
            new = iter(self._nodes[NODE_WORDS * len(self._read_nodes):NODE_WORDS * self._header[3]])
            self._read_nodes += tuple(self._node(*node) for node in zip(new, new))
            return self._read_nodes

    @property
    def operations(self) -> tuple[PbcOp, ...]:
        """The operations, in order. Each is read once.

        >>> circuit = to_pbc(1, 1, [("h", 0), ("t", 0), ("measure", 0, 0)])
        >>> [(operation.kind, operation.angle, operation.target, operation.gate) for operation in circuit.operations]
        [('rotate', 1, None, 1), ('measure', None, 0, 2)]
        """
        with self._lock:
            new = iter(self._operations[OPERATION_WORDS * len(self._read_operations):OPERATION_WORDS * self._header[4]])
            self._read_operations += tuple(self._operation(*operation) for operation in zip(*[new] * OPERATION_WORDS))
            return self._read_operations

    @property
    def output_frame(self) -> tuple[list, list]:
        """The images of X by qubit, and of Z by qubit.

        >>> circuit = to_pbc(1, 0, [("h", 0)])
        >>> [[str(circuit.expand(image, 100)) for image in images] for images in circuit.output_frame]
        [['+Z'], ['+X']]
        """
        with self._lock:
            frame = list(self._frame)
        images = [self._reference(word) for word in frame]
        return images[:self.num_qubits], images[self.num_qubits:]

    def single(self, qubit: int, letter: int) -> PauliRef:
        """The letter on a qubit, as a new node; I is node 0.

        >>> circuit = PbcCircuit(2, 0)
        >>> str(circuit.expand(circuit.single(1, 2), 100))
        '+IY'
        """
        qubit, letter = number("qubit", qubit), number("letter", letter, Z)
        values = self._add(lambda answer: call("pbc_single", self._header, self._nodes, qubit, letter, answer))
        return self._reference(values[0])

    def product(self, left: PauliRef, right: PauliRef) -> PauliRef:
        """The product of two references, left times right; neither is expanded.

        >>> circuit = PbcCircuit(1, 0)
        >>> str(circuit.expand(circuit.product(circuit.single(0, 1), circuit.single(0, 3)), 100))
        '-iY'
        """
        left, right = _handle("left", left, PauliRef), _handle("right", right, PauliRef)
        values = self._add(lambda answer: call("pbc_product", self._header, self._nodes, *left, *right, answer))
        return self._reference(values[0])

    def rotate(self, axis: PauliRef, eighths: int) -> None:
        """The rotation exp(-i k pi/8 P), where k counts modulo 8. The axis should have the sign +1 or -1: hermitian_axis tells.

        >>> circuit = PbcCircuit(1, 0)
        >>> circuit.rotate(circuit.single(0, 1), -1)
        >>> circuit.operations[0].angle
        7
        """
        axis, eighths = _handle("axis", axis, PauliRef), operator.index(eighths)
        self._add(lambda answer: call("pbc_rotate", self._header, self._operations, *axis, eighths, answer))

    def measure(self, axis: PauliRef, target: Optional[int] = None) -> MeasId:
        """A measurement, into a classical bit or none. The axis as for rotate.

        >>> circuit = PbcCircuit(1, 1)
        >>> circuit.measure(circuit.single(0, 3), 0).index
        0
        """
        axis, bit = _handle("axis", axis, PauliRef), 0 if target is None else number("target", target) + 1
        values = self._add(lambda answer: call("pbc_measure", self._header, self._operations, *axis, bit, answer))
        return MeasId(self.owner, values[0])

    def conditional_rotate(self, axis: PauliRef, eighths: int, measurement: MeasId) -> None:
        """A rotation where a measurement gave 1. The axis as for rotate.

        >>> circuit = PbcCircuit(1, 0)
        >>> circuit.conditional_rotate(circuit.single(0, 1), 4, circuit.measure(circuit.single(0, 3)))
        >>> circuit.operations[1].measurement == circuit.operations[0].measurement
        True
        """
        axis, eighths, measurement = _handle("axis", axis, PauliRef), operator.index(eighths), _handle("measurement", measurement, MeasId)
        self._add(lambda answer: call("pbc_conditional_rotate", self._header, self._operations, *axis, eighths, *measurement, answer))

    def expand(self, reference: PauliRef, max_cells: int) -> ExpandedPauli:
        """The phase and letters of a reference, and whether the two factors of its product commute: an even number of qubits hold two
        different letters other than I. Yes if it is no product. The budget charges one cell a qubit plus the work.

        >>> circuit = to_pbc(2, 0, [("cnot", 0, 1), ("t", 1)])
        >>> print(circuit.expand(circuit.operations[0].axis, 100))
        +ZZ
        >>> product = circuit.product(circuit.single(0, 1), circuit.single(0, 3))
        >>> circuit.expand(product, 100).commute
        False
        """
        reference, max_cells = _handle("reference", reference, PauliRef), number("max_cells", max_cells, U64)
        letters = words(self.num_qubits, ctypes.c_uint8)
        values = self._walk(lambda header, nodes, operations, scratch, pool, answer: call(
            "pbc_expand", header, nodes, letters, scratch, pool, *reference, max_cells, answer))
        return ExpandedPauli(values[0], list(letters), values[1], values[2] == 1)

    def hermitian_axis(self, reference: PauliRef, limit: int) -> PauliRef:
        """The reference itself, if its sign is +1 or -1.

        >>> circuit = PbcCircuit(1, 0)
        >>> product = circuit.product(circuit.single(0, 1), circuit.single(0, 3))
        >>> circuit.hermitian_axis(product, 100)
        Traceback (most recent call last):
        pbc.PbcError: rotation and measurement axes must be Hermitian
        >>> axis = circuit.hermitian_axis(product.scaled(1), 100)
        """
        reference, limit = _handle("reference", reference, PauliRef), number("limit", limit, U64)
        self._walk(lambda header, nodes, operations, scratch, pool, answer: call(
            "pbc_hermitian_axis", header, nodes, scratch, pool, *reference, limit, answer))
        return reference

    def max_axis_weights(self, limit: int) -> MaxAxisWeights:
        """The largest weights of axes: of odd angles and measurements, and of Clifford rotations; 0 where there are none.

        >>> to_pbc(2, 0, [("cnot", 0, 1), ("t", 1)]).max_axis_weights(100)
        MaxAxisWeights(non_clifford=2, clifford=0, work=7)
        """
        return self._weights("pbc_max_axis_weights", limit)

    def max_axis_weights_by_kind(self, limit: int) -> MaxAxisWeights:
        """The same by the kinds of the axes: rotations of angle 0, conditional ones too, are in neither maximum. The work is that of
        max_axis_weights.

        >>> circuit = PbcCircuit(1, 0)
        >>> circuit.rotate(circuit.single(0, 1), 0)
        >>> circuit.max_axis_weights(100).clifford, circuit.max_axis_weights_by_kind(100).clifford
        (1, 0)
        """
        return self._weights("pbc_max_axis_weights_by_kind", limit)

    def _weights(self, name: str, limit: int) -> MaxAxisWeights:
        limit = number("limit", limit, U64)
        values = self._walk(lambda header, nodes, operations, scratch, pool, answer: call(
            name, header, nodes, operations, scratch, pool, limit, answer))
        return MaxAxisWeights(*values[:3])

    def axes(self, limit: int) -> list[ExpandedPauli]:
        """The axis of every operation, in order, in one walk: its work and its limit are those of max_axis_weights, and an axis has no
        work of its own.

        >>> circuit = to_pbc(2, 1, [("cnot", 0, 1), ("t", 1), ("measure", 0, 0)])
        >>> [str(axis) for axis in circuit.axes(100)]
        ['+ZZ', '+ZI']
        """
        limit = number("limit", limit, U64)
        rows = words(0, ctypes.c_uint8)

        def attempt(header, nodes, operations, scratch, pool, answer):
            nonlocal rows
            rows = words(header[4] * (header[0] + 1), ctypes.c_uint8)
            return call("pbc_expand_axes", header, nodes, operations, rows, scratch, pool, limit, answer)

        self._walk(attempt, long=True)
        # A row is a letter a qubit, then the phase.
        read, width = bytes(rows), self.num_qubits + 1
        return [ExpandedPauli(read[end], list(read[end - width + 1:end]), None) for end in range(width - 1, len(read), width)]

    def push_output_clifford(self, name: str, a: int, b: Optional[int] = None, c: Optional[int] = None) -> None:
        """One more Clifford gate (h, x, z, s, sdg, cnot, cz) on the output frame.

        >>> circuit = PbcCircuit(2, 0)
        >>> circuit.push_output_clifford("cnot", 0, 1)
        >>> str(circuit.expand(circuit.output_frame[0][0], 100))
        '+XX'
        """
        kind, first, second, _ = gate_words(name, [operand for operand in (a, b, c) if operand is not None])
        self._add(lambda answer: call("pbc_push_output_clifford", self._header, self._nodes, self._frame, kind, first, second, answer))


def to_pbc(num_qubits: int, num_cbits: int, gates: Iterable, max_weight: Optional[int] = None) -> PbcCircuit:
    """The circuit of a gate list, each gate a name and its operands.

    Under max_weight no axis of an odd angle or of a measurement has more letters other than I: pending Clifford gates are written
    as rotations before one would. Those have sign + and at most two letters, whatever the cap. Every axis has sign + or -, and without
    a cap no angle is even. So routing has nothing to test but operations added by hand, whose gate is None.

    >>> circuit = to_pbc(2, 0, [("cnot", 0, 1), ("t", 1)])
    >>> [str(axis) for axis in circuit.axes(100)]
    ['+ZZ']
    >>> capped = to_pbc(2, 0, [("cnot", 0, 1), ("t", 1)], max_weight=1)
    >>> [(str(axis), operation.angle) for operation, axis in zip(capped.operations, capped.axes(100))]
    [('+ZI', 2), ('+IX', 2), ('+ZX', 6), ('+IZ', 1)]

    A gate that is no gate is a ValueError with its index, whatever the circuit:

    >>> to_pbc(2, 0, [("h", 0), ("cnot", 1)])
    Traceback (most recent call last):
    ValueError: gate 1: cnot takes 2 operands, not 1
    """
    qubits, cbits = number("num_qubits", num_qubits), number("num_cbits", num_cbits)
    # No axis has more letters than a circuit can have qubits, so a greater cap is as good as the greatest of 32 bits.
    cap = _NO_CAP if max_weight is None else min(U32, number("max_weight", max_weight, U64))
    listed, counts = list_words(gates)
    given = (ctypes.c_uint32 * len(listed)).from_buffer(listed)
    small = min(qubits, MAX_QUBITS)
    nodes, operations = needs(small, counts, max_weight)
    planes = words(0 if max_weight is None else 4 * small * max(1, -(-small // 64)), ctypes.c_uint64)
    made = PbcCircuit.__new__(PbcCircuit)
    made._start(words(NODE_WORDS * min(nodes, MAX_NODES)), words(OPERATION_WORDS * min(operations, MAX_OPERATIONS)), words(2 * small))
    _until_room(lambda answer: call(
        "pbc_convert", qubits, cbits, next(_owners), cap, given, made._nodes, made._operations, made._frame, planes, made._header,
        answer), _no_growth, "gate {}: ")
    made._nodes = resized(made._nodes, NODE_WORDS * made._header[3])
    made._operations = resized(made._operations, OPERATION_WORDS * made._header[4])
    return made
