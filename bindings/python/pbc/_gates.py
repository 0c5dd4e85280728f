"""Gates as words of the library, and what they need."""
from array import array
from collections import Counter
from typing import NamedTuple

from ._library import number

GATE_WORDS = 4


class _Kind(NamedTuple):
    """A kind of gate: its number and operands; the nodes and operations that it writes; and those that a flush of it writes."""

    number: int
    operands: int
    nodes: int
    operations: int
    flushed_nodes: int
    flushed_operations: int


_KINDS = {
    "h": _Kind(0, 1, 0, 0, 0, 3),
    "x": _Kind(1, 1, 0, 0, 0, 1),
    "z": _Kind(2, 1, 0, 0, 0, 1),
    "s": _Kind(3, 1, 1, 0, 0, 1),
    "sdg": _Kind(4, 1, 1, 0, 0, 1),
    "t": _Kind(5, 1, 0, 1, 0, 0),
    "tdg": _Kind(6, 1, 0, 1, 0, 0),
    "cnot": _Kind(8, 2, 2, 0, 1, 3),
    "cx": _Kind(8, 2, 2, 0, 1, 3),
    "cz": _Kind(9, 2, 2, 0, 1, 3),
    "ccx": _Kind(10, 3, 4, 7, 0, 0),
    "ccz": _Kind(11, 3, 4, 7, 0, 0),
    "measure": _Kind(12, 2, 0, 1, 0, 0),
    "y": _Kind(15, 1, 0, 0, 0, 2),
    "sx": _Kind(16, 1, 1, 0, 0, 7),
    "swap": _Kind(19, 2, 6, 0, 3, 9),
    "cy": _Kind(20, 2, 4, 0, 1, 5),
}

#: Kinds of gates, by name; cx is another name of cnot. measure takes a classical bit after its qubit.
GATES = {name: kind.number for name, kind in _KINDS.items()}

# Under a cap of 1 or 2 these are written as gates of at most two qubits: the parts' nodes and operations, and those of a flush of them.
_IN_PARTS = {"ccx": _Kind(10, 3, 12, 7, 6, 24), "ccz": _Kind(11, 3, 12, 7, 6, 18)}

_NAMES = {kind.number: name for name, kind in reversed(_KINDS.items())}


def name_of(kind):
    """The name of a kind's number."""
    return _NAMES.get(kind, f"kind {kind}")


def gates_in(words):
    """The gates of so many words."""
    listed = iter(words)
    named = ((name_of(kind), operands) for kind, *operands in zip(*[listed] * GATE_WORDS))
    return [(name, *operands[:_KINDS[name].operands]) for name, operands in named]


def _kind_of(name, place):
    kind = _KINDS.get(name) if isinstance(name, str) else None
    if kind is None:
        raise ValueError(f"{place}no gate is named {name!r}")
    return kind


def gate_words(name, operands, place=""):
    """Kind and operands, then zeros: four words. A message starts with the place."""
    kind = _kind_of(name, place)
    if len(operands) != kind.operands:
        raise ValueError(f"{place}{name} takes {kind.operands} operand{'s' * (kind.operands > 1)}, not {len(operands)}")
    numbers = [number(f"{place}operand {i} of {name}", operand) for i, operand in enumerate(operands)]
    return [kind.number, *numbers, 0, 0][:GATE_WORDS]


def _gate_in_list(index, gate):
    place = f"gate {index}: "
    try:
        name, *operands = gate
    except (TypeError, ValueError):
        raise ValueError(f"{place}{gate!r} is not a name and its operands") from None
    return gate_words(name, operands, place)


def list_words(gates):
    """The words of a gate list, and how many gates there are of each name."""
    gates, listed, names = list(gates), [], []
    try:
        for name, *operands in gates:
            kind = _KINDS[name]
            if len(operands) != kind.operands:
                raise ValueError
            listed += (kind.number, *operands, 0, 0)[:GATE_WORDS]
            names.append(name)
        return array("I", listed), Counter(names)
    except (KeyError, OverflowError, TypeError, ValueError):
        for index, gate in enumerate(gates):
            _gate_in_list(index, gate)  # raises what names the first that is wrong
        raise


def needs(num_qubits, counts, cap):
    """The nodes and operations that suffice for a conversion; without a cap they are what it needs."""
    nodes, operations, capped = 1 + 2 * num_qubits, 0, cap is not None
    for name, count in counts.items():
        kind = _IN_PARTS[name] if cap in (1, 2) and name in _IN_PARTS else _KINDS[name]
        nodes += count * (kind.nodes + capped * kind.flushed_nodes)
        operations += count * (kind.operations + capped * kind.flushed_operations)
    return nodes, operations
