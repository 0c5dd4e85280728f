"""Tests of the module, its docstrings among them: python3 bindings/python/test_pbc.py, with pbc and its library to be found."""
import collections
import copy
import doctest
import faulthandler
import pathlib
import pickle
import random
import sys
import threading
import time
import unittest

import pbc
from pbc import _circuit, _gates, _library, _qasm, _values

NAMES = ["h", "x", "z", "s", "sdg", "t", "tdg", "cnot", "cz", "ccx", "ccz", "measure", "y", "sx", "swap", "cy"]


def random_gates(seed, qubits, count, names=NAMES):
    pick = random.Random(seed)
    gates = []
    for i in range(count):
        name = pick.choice(names)
        operands = pick.sample(range(qubits), 1 if name == "measure" else _gates._KINDS[name].operands)
        gates.append((name, *operands, i) if name == "measure" else (name, *operands))
    return gates


def in_threads(count, work):
    """Runs work(i) in so many threads that change often; what they raised."""
    raised = []

    def run(i):
        try:
            work(i)
        except BaseException as error:  # also a failed assertion
            raised.append(error)

    before = sys.getswitchinterval()
    sys.setswitchinterval(1e-6)
    try:
        threads = [threading.Thread(target=run, args=(i,)) for i in range(count)]
        for thread in threads:
            thread.start()
        for thread in threads:
            thread.join()
    finally:
        sys.setswitchinterval(before)
    return raised


class Threads(unittest.TestCase):
    def test_readers_of_one_circuit(self):
        # Axes so heavy that the pool grows, and a walk so long that the others run within it.
        circuit = pbc.to_pbc(128, 0, random_gates(1, 128, 12000, ["h", "s", "cnot", "t"]))
        axes = [operation.axis for operation in circuit.operations[-2000::400]]
        expected = [circuit.expand(axis, 10**8) for axis in axes]

        def read(i):
            for at in range(12):
                at = (at + 7 * i) % len(axes)
                assert circuit.expand(axes[at], 10**8) == expected[at], "an axis differs"
                assert circuit.hermitian_axis(axes[at], 10**8) == axes[at]

        self.assertEqual(in_threads(3, read), [])

    def test_calls_that_add_to_one_circuit(self):
        circuit, each = pbc.PbcCircuit(8, 0), 400

        def add(i):
            for at in range(each):
                reference = circuit.product(circuit.single(i, pbc.X), circuit.single(i + 4, pbc.Z))
                circuit.rotate(reference, i)
                assert str(circuit.expand(reference, 100)) == "+" + "".join("X" if q == i else "Z" if q == i + 4 else "I" for q in range(8))
                assert len(circuit.operations) > at

        self.assertEqual(in_threads(4, add), [])
        self.assertEqual((len(circuit.pauli_nodes), len(circuit.operations)), (17 + 12 * each, 4 * each))
        for operation in circuit.operations[:: each // 5]:
            self.assertIn(str(circuit.expand(operation.axis, 100))[1 + operation.angle:][:5], ["XIIIZ"])


class Axes(unittest.TestCase):
    def test_each_is_the_expansion_of_its_operation(self):
        for cap in (None, 3):
            circuit = pbc.to_pbc(5, 60, random_gates(4, 5, 60), cap)
            circuit.rotate(circuit.single(2, pbc.Y).scaled(pbc.MINUS_ONE), 3)
            axes = circuit.axes(10**6)
            each = [circuit.expand(operation.axis, 10**6) for operation in circuit.operations]
            self.assertEqual([axis[:2] for axis in axes], [axis[:2] for axis in each])
            self.assertEqual((str(axes[-1]), axes[-1].work, axes[-1].commute), ("-IIYII", None, None))

    def test_the_factors_of_a_product_commute_or_not(self):
        circuit = pbc.PbcCircuit(2, 0)
        x, z, far = circuit.single(0, pbc.X), circuit.single(0, pbc.Z), circuit.single(1, pbc.Z)
        clash, both = circuit.product(x, z), circuit.product(x, circuit.single(1, pbc.X))
        for reference, commute in [
            (x, True), (circuit.product(x, far), True), (clash, False), (clash.scaled(pbc.PLUS_I), False),
            (circuit.product(x, x.scaled(pbc.PLUS_I)), True), (circuit.product(both, circuit.product(z, far)), True),
            (circuit.product(both, z), False), (circuit.product(clash, clash), True),
        ]:
            self.assertIs(circuit.expand(reference, 100).commute, commute)

    def test_the_limit_is_that_of_the_weights(self):
        circuit = pbc.to_pbc(3, 0, [("h", 0), ("ccx", 0, 1, 2)])
        work = circuit.max_axis_weights(1000).work
        self.assertEqual(len(circuit.axes(work)), 7)
        with self.assertRaises(pbc.PbcError) as raised:
            circuit.axes(work - 1)
        self.assertEqual(raised.exception.name, "ExpansionLimit")
        for limit in (-1, 2**64):
            self.assertRaises(ValueError, circuit.axes, limit)

    def test_no_operations_and_no_qubits(self):
        self.assertEqual(pbc.PbcCircuit(3, 0).axes(0), [])
        circuit = pbc.PbcCircuit(0, 0)
        circuit.rotate(circuit.identity.scaled(pbc.MINUS_ONE), 1)
        circuit.rotate(circuit.identity, 1)
        self.assertEqual(circuit.axes(100), [(pbc.MINUS_ONE, [], None, None), (pbc.ONE, [], None, None)])

    def test_threads_add_meanwhile(self):
        circuit = pbc.PbcCircuit(3, 0)
        x = circuit.single(1, pbc.X)

        def work(i):
            for _ in range(200):
                if i < 2:
                    circuit.rotate(x, 1)
                else:
                    before = len(circuit.operations)
                    axes = circuit.axes(10**6)
                    assert before <= len(axes) <= len(circuit.operations) and {str(axis) for axis in axes} <= {"+IXI"}

        self.assertEqual(in_threads(4, work), [])
        self.assertEqual(len(circuit.axes(10**6)), 400)


class Gates(unittest.TestCase):
    def refused(self, gate, message):
        with self.assertRaises(ValueError) as raised:
            pbc.to_pbc(4, 1, [("h", 0), gate])
        self.assertEqual(str(raised.exception), "gate 1: " + message)

    def test_what_is_no_gate_names_its_index(self):
        self.refused(("cnot", 1), "cnot takes 2 operands, not 1")
        self.refused(("t",), "t takes 1 operand, not 0")
        self.refused(("ccx", 0, 1, 2, 9), "ccx takes 3 operands, not 4")
        self.refused(("measure", 1), "measure takes 2 operands, not 1")
        self.refused(("t", 2**32), "operand 0 of t is 4294967296, not a number from 0 to 4294967295")
        self.refused(("cz", 0, -1), "operand 1 of cz is -1, not a number from 0 to 4294967295")
        self.refused(("ch", 0, 1), "no gate is named 'ch'")
        self.refused((5, 0), "no gate is named 5")
        self.refused((["h"], 0), "no gate is named ['h']")
        self.refused((), "() is not a name and its operands")
        self.refused(7, "7 is not a name and its operands")
        with self.assertRaisesRegex(TypeError, "gate 1: operand 0 of h is 0.5, not an integer"):
            pbc.to_pbc(4, 1, [("h", 0), ("h", 0.5)])

    def test_cx_is_cnot(self):
        cx, cnot = (pbc.to_pbc(2, 0, [(name, 0, 1), ("t", 1)]) for name in ("cx", "cnot"))
        self.assertEqual(*(str(circuit.expand(circuit.operations[0].axis, 100)) for circuit in (cx, cnot)))
        self.assertEqual(pbc.GATES["cx"], pbc.GATES["cnot"])

    def test_numbers_are_not_cut(self):
        circuit = pbc.PbcCircuit(2, 1)
        x = circuit.single(0, pbc.X)
        for call in [
            lambda: circuit.measure(x, -1), lambda: circuit.measure(x, 2**32), lambda: circuit.single(2**32, pbc.X),
            lambda: circuit.single(0, 4), lambda: circuit.single(0, -1), lambda: circuit.expand(x, -1), lambda: circuit.expand(x, 2**64),
            lambda: circuit.push_output_clifford("cnot", 1), lambda: circuit.push_output_clifford("h", 0, 1),
            lambda: circuit.push_output_clifford("h", 2**32), lambda: circuit.push_output_clifford("hadamard", 0),
            lambda: pbc.PbcCircuit(-1, 0), lambda: pbc.PbcCircuit(2**32, 0), lambda: pbc.to_pbc(-1, 0, []), lambda: pbc.times(4, 0),
            lambda: pbc.to_pbc(2, 0, [], -1),
        ]:
            self.assertRaises(ValueError, call)
        self.assertEqual(len(circuit.operations), 0)
        self.assertEqual(circuit.measure(x).index, 0)

    def test_a_measurement_is_no_reference(self):
        circuit = pbc.PbcCircuit(1, 0)
        x, outcome = circuit.single(0, pbc.X), circuit.measure(circuit.identity)
        for call in [
            lambda: circuit.rotate(outcome, 1), lambda: circuit.expand(outcome, 10), lambda: circuit.product(x, outcome),
            lambda: circuit.conditional_rotate(x, 1, x), lambda: circuit.rotate((x.owner, x.word), 1),
        ]:
            self.assertRaises(TypeError, call)

    def test_a_cap_holds_for_odd_angles_and_measurements_alone(self):
        gates = [("cnot", 0, 1), ("t", 1)]
        weights = pbc.to_pbc(2, 0, gates, max_weight=1).max_axis_weights(100)
        self.assertEqual((weights.non_clifford, weights.clifford), (1, 2))
        for cap in (2**32, 2**64 - 1):
            self.assertEqual(len(pbc.to_pbc(2, 0, gates, max_weight=cap).operations), 1)


class Texts(unittest.TestCase):
    LINES = 'OPENQASM 2.0;\ninclude "qelib1.inc";\nqreg q[3];\ncreg c[2];\n'
    EXAMPLES = pathlib.Path(__file__).resolve().parent / "../../examples"

    def refused(self, text, place, line, column):
        with self.assertRaises(pbc.PbcError) as raised:
            pbc.read_qasm(text)
        refusal = raised.exception
        again = pickle.loads(pickle.dumps(refusal))
        for it in (refusal, again):
            self.assertEqual((it.number, it.name, it.index, it.operand), (20, "BadText", 0, place))
            self.assertEqual((it.place, it.line, it.column), (place, line, column))
            self.assertEqual(str(it), f"line {line}, column {column}: no statement of the subset begins here")

    def test_every_gate_is_read(self):
        text = self.LINES + """h q[0];x q[1];y q[2];z q[0];s q[1];sdg q[2];t q[0];tdg q[1];cx q[0],q[1];cy q[1],q[2];cz q[2],q[0];
            ccx q[2],q[1],q[0]; // all but the last
            measure q[2]->c[1];"""
        gates = [
            ("h", 0), ("x", 1), ("y", 2), ("z", 0), ("s", 1), ("sdg", 2), ("t", 0), ("tdg", 1), ("cnot", 0, 1), ("cy", 1, 2), ("cz", 2, 0),
            ("ccx", 2, 1, 0), ("measure", 2, 1),
        ]
        self.assertEqual(pbc.read_qasm(text), pbc.Program(3, 2, gates))
        self.assertEqual(pbc.read_qasm(text), (3, 2, gates))
        self.assertEqual(pbc.read_qasm(self.LINES).gates, [])

    def test_text_is_str_or_bytes(self):
        text = self.LINES + "h q[0];// \u03c0"
        self.assertEqual(pbc.read_qasm(text), pbc.read_qasm(text.encode()))
        self.assertEqual(pbc.read_qasm(self.LINES.encode() + b"h q[0];//\xff\0").gates, [("h", 0)])
        for other in (None, 7, ["OPENQASM"], pathlib.Path("adder.qasm")):
            self.assertRaisesRegex(TypeError, "not a str or bytes", pbc.read_qasm, other)

    def test_refusals_have_line_and_column(self):
        self.refused("", 0, 1, 1)
        self.refused(b"// nothing", 10, 1, 11)
        self.refused("OPENQASM2.0;", 0, 1, 1)
        self.refused('OPENQASM 2.0;include "qelib1.inc";qreg q[1]; // end', 51, 1, 52)
        self.refused(self.LINES + "h q[0];\n\t swap q[0],q[1];\n", 68, 6, 3)
        self.refused(self.LINES + "// \u03c0\nh q[0]; qreg r[1];", 72, 6, 9)
        self.refused(self.LINES.encode() + b"h q[0];\0", 65, 5, 8)
        self.refused(self.LINES + "h q[4294967295]; h q[4294967296];", 75, 5, 18)

    def test_other_refusals_have_none(self):
        with self.assertRaises(pbc.PbcError) as raised:
            pbc.PbcCircuit(1, 0).single(1, pbc.X)
        self.assertEqual((raised.exception.place, raised.exception.line, raised.exception.column), (None, None, None))

    def test_operands_are_the_conversions_to_refuse(self):
        program = pbc.read_qasm(self.LINES + "h q[0]; cx q[7],q[7];")
        self.assertEqual(program.gates, [("h", 0), ("cnot", 7, 7)])
        self.assertRaisesRegex(pbc.PbcError, "gate 1: qubit 7 is out of range", program.to_pbc)
        wide = pbc.read_qasm(self.LINES.replace("q[3]", "q[4294967295]"))
        self.assertRaisesRegex(pbc.PbcError, "over 256 qubits", wide.to_pbc)

    def test_long_texts_have_room(self):
        program = pbc.read_qasm(self.LINES + 70000 * "t q[0];")
        self.assertEqual(program.gates, 70000 * [("t", 0)])
        self.assertRaisesRegex(pbc.PbcError, "over 65,536 gates", program.to_pbc)

    def test_adders_convert_alike(self):
        # To what the command answers to their lines: sizes and measurements, then nodes, operations and frame, each with its number of words.
        for name in ("cuccaro-2", "cuccaro-4", "ladder-2", "ladder-4"):
            program = pbc.read_qasm_file(self.EXAMPLES / f"{name}.qasm")
            line = (self.EXAMPLES / f"{name}.pbc").read_text().split("\n")[0].split()
            answer = (self.EXAMPLES / f"{name}.out").read_text().split("\n")[0].split()
            listed = _gates.gates_in([int(word) for word in line[4:]])
            self.assertEqual((line[0], program), ("convert", pbc.Program(int(line[1]), int(line[2]), listed)))
            for circuit in (program.to_pbc(), pbc.to_pbc(*program), pbc.to_pbc(*program[:2], listed)):
                numbers = [circuit.num_qubits, circuit.num_cbits, circuit.measurement_count]
                for words in (circuit._nodes, circuit._operations, circuit._frame):
                    numbers += [len(words), *words]
                self.assertEqual(["ok", *map(str, numbers)], answer, name)

    def test_files(self):
        path = self.EXAMPLES / "ladder-2.qasm"
        self.assertEqual(pbc.read_qasm_file(str(path)), pbc.read_qasm(path.read_text()))
        self.assertRaises(FileNotFoundError, pbc.read_qasm_file, self.EXAMPLES / "none.qasm")


class Sources(unittest.TestCase):
    def named(self, *arguments):
        return [operation.gate for operation in pbc.to_pbc(*arguments).operations]

    def test_operations_name_their_gate(self):
        gates = [("h", 0), ("t", 0), ("x", 1), ("ccx", 0, 1, 2), ("measure", 2, 0)]
        self.assertEqual(self.named(3, 1, gates), [1] + 7 * [3] + [4])

    def test_a_flush_names_its_own_gates(self):
        # What is lowered too; the t, whose axis is light, stands before the gates that were pending then, and names itself.
        gates = [("h", 0), ("y", 0), ("sx", 0), ("swap", 0, 1), ("cy", 0, 1), ("cnot", 2, 3), ("t", 2), ("measure", 3, 0), ("tdg", 1)]
        flushed = 3 * [0] + 2 * [1] + 7 * [2] + 9 * [3] + 5 * [4] + 3 * [5]
        self.assertEqual(self.named(4, 1, gates, 1), [6] + flushed + [7, 8])

    def test_by_hand_there_is_no_gate(self):
        circuit = pbc.to_pbc(1, 1, [("t", 0)])
        z = circuit.single(0, pbc.Z)
        circuit.rotate(z, 1)
        circuit.conditional_rotate(z, 4, circuit.measure(z, 0))
        self.assertEqual([operation.gate for operation in circuit.operations], [0, None, None, None])


class Rooms(unittest.TestCase):
    def converted(self, *arguments):
        """A conversion, and how many calls it took."""
        names, call = [], _circuit.call
        _circuit.call = lambda name, *rest: names.append(name) or call(name, *rest)
        try:
            return pbc.to_pbc(*arguments), names.count("pbc_convert")
        finally:
            _circuit.call = call

    def test_one_call_converts(self):
        for cap in (None, 3, 8):
            circuit, calls = self.converted(16, 3000, random_gates(2, 16, 3000), cap)
            self.assertEqual(calls, 1)
            self.assertEqual((len(circuit._nodes), len(circuit._operations)), (2 * circuit._header[3], 5 * circuit._header[4]))

    def test_without_a_cap_the_rooms_are_exact(self):
        for name in NAMES:
            gates = random_gates(3, 3, 5, [name])
            circuit = pbc.to_pbc(3, 5, gates)
            self.assertEqual(_gates.needs(3, {name: 5}, None), (len(circuit.pauli_nodes), len(circuit.operations)), name)

    def test_under_a_cap_they_suffice(self):
        for name in ["h", "x", "z", "s", "sdg", "cnot", "cz", "y", "sx", "swap", "cy"]:
            # All is pending where the measurement of a heavy axis has it written.
            gates = [(name, *range(_gates._KINDS[name].operands)), ("cnot", 0, 1), ("measure", 1, 0)]
            circuit = pbc.to_pbc(2, 1, gates, 1)
            nodes, operations = _gates.needs(2, collections.Counter(gate[0] for gate in gates), 1)
            self.assertGreaterEqual(nodes, len(circuit.pauli_nodes))
            self.assertGreaterEqual(operations, len(circuit.operations))
            if circuit.max_axis_weights(1000).clifford:
                self.assertEqual(operations, len(circuit.operations), name)

    def test_toffolis_in_parts(self):
        for name, cap, written in [("ccz", 2, 19), ("ccx", 1, 25)]:
            gates = [("t", 0), (name, 0, 1, 2), ("t", 1)]
            alone, calls = self.converted(3, 0, gates[1:2], cap)
            self.assertEqual((len(alone.operations), calls), (written, 1))
            circuit, calls = self.converted(3, 0, gates, cap)
            self.assertEqual(calls, 1)
            self.assertEqual({operation.gate for operation in circuit.operations}, {0, 1, 2})
            self.assertLessEqual(circuit.max_axis_weights(10**4).non_clifford, cap)

    def test_one_target_has_one_measurement(self):
        with self.assertRaises(pbc.PbcError) as raised:
            pbc.to_pbc(2, 2, [("measure", 0, 1), ("t", 0), ("measure", 1, 1)])
        it = raised.exception
        self.assertEqual((it.number, it.name, it.index, it.operand), (24, "TargetTaken", 2, 1))
        self.assertEqual(str(it), "gate 2: classical bit 1 is taken")

    def test_limits_refuse(self):
        for gates, name in [([("swap", 0, 1)] * 65536, "NoNodes"), ([("h", 0)] * 65537, "BrokenGateList")]:
            with self.assertRaises(pbc.PbcError) as raised:
                pbc.to_pbc(2, 0, gates)
            self.assertEqual(raised.exception.name, name)
        gates = [("h", 0), ("t", 0)] * 32768
        operations = pbc.to_pbc(2, 0, gates).operations
        self.assertEqual((len(operations), operations[-1].gate), (32768, 65535))

    def test_a_circuit_grows_after_a_conversion(self):
        circuit = pbc.to_pbc(2, 1, [("t", 0)])
        for _ in range(100):
            circuit.rotate(circuit.single(1, pbc.Y), 1)
        self.assertEqual((len(circuit.operations), circuit.operations[100].axis.node_index), (101, 104))


class Reading(unittest.TestCase):
    def test_operations_are_read_once(self):
        circuit = pbc.to_pbc(2, 0, [("h", 0), ("t", 0)] * 32768)
        start = time.perf_counter()
        first = circuit.operations[0]
        once = time.perf_counter() - start
        start = time.perf_counter()
        for at in range(200):
            circuit.operations[at]
        self.assertLess(time.perf_counter() - start, 10 * once)
        self.assertIs(circuit.operations[0], first)
        self.assertIs(circuit.pauli_nodes, circuit.pauli_nodes)

    def test_what_was_read_stays(self):
        circuit = pbc.PbcCircuit(1, 0)
        x = circuit.single(0, pbc.X)
        circuit.rotate(x, 1)
        before = circuit.operations
        for operation in before:
            circuit.rotate(operation.axis, 3)
        self.assertEqual((len(before), [operation.angle for operation in circuit.operations]), (1, [1, 3]))

    def test_text(self):
        circuit = pbc.to_pbc(3, 1, [("cnot", 2, 0), ("t", 0), ("measure", 1, 0)])
        self.assertEqual(repr(circuit), "<PbcCircuit: 3 qubits, 1 classical bits, 9 nodes, 2 operations, 1 measurements>")
        self.assertEqual(str(circuit.expand(circuit.operations[0].axis, 100)), "+ZIZ")
        self.assertEqual([str(pbc.ExpandedPauli(phase, [0, 1, 2, 3], 0)) for phase in range(4)], ["+IXYZ", "+iIXYZ", "-IXYZ", "-iIXYZ"])

    def test_refusals_have_messages(self):
        circuit, other = pbc.PbcCircuit(1, 1), pbc.PbcCircuit(1, 1)
        for call, name, message in [
            (lambda: circuit.single(1, pbc.X), "QubitOutOfRange", "qubit 1 is out of range"),
            (lambda: circuit.rotate(other.identity, 1), "ForeignPauli", "Pauli reference belongs to another circuit"),
            (lambda: circuit.measure(circuit.identity, 1), "ClassicalBitOutOfRange", "classical bit 1 is out of range"),
            (lambda: circuit.push_output_clifford("ccx", 0, 1, 2), "NonCliffordFrameGate", "the output frame does not accept ccx"),
            (lambda: pbc.to_pbc(1, 0, [("h", 0), ("h", 7)]), "QubitOutOfRange", "gate 1: qubit 7 is out of range"),
            (lambda: pbc.to_pbc(1, 0, [], 0), "CapTooSmall", "the cap is 0"),
            (lambda: pbc.to_pbc(257, 0, []), "TooManyQubits", "over 256 qubits, or over 65,536 classical bits"),
        ]:
            with self.assertRaises(pbc.PbcError) as raised:
                call()
            self.assertEqual((raised.exception.name, str(raised.exception)), (name, message))
            again = pickle.loads(pickle.dumps(raised.exception))
            self.assertEqual((again.number, str(again)), (raised.exception.number, message))


class Owners(unittest.TestCase):
    def test_a_circuit_is_not_copied(self):
        circuit = pbc.PbcCircuit(1, 0)
        for call in [copy.copy, copy.deepcopy, pickle.dumps]:
            self.assertRaisesRegex(TypeError, "a circuit cannot be", call, circuit)
        self.assertRaises(TypeError, copy.deepcopy, [circuit])

    def test_a_reference_is_copied_and_not_pickled(self):
        circuit = pbc.PbcCircuit(1, 0)
        x, outcome = circuit.single(0, pbc.X), circuit.measure(circuit.identity)
        for handle in (x, outcome):
            self.assertIs(copy.copy(handle), handle)
            self.assertEqual(copy.deepcopy([handle]), [handle])
            for protocol in range(pickle.HIGHEST_PROTOCOL + 1):
                self.assertRaisesRegex(TypeError, "cannot be pickled", pickle.dumps, handle, protocol)

    def test_owners_differ(self):
        owners = []
        self.assertEqual(in_threads(4, lambda i: owners.extend(pbc.PbcCircuit(0, 0).owner for _ in range(300))), [])
        self.assertEqual(len(set(owners)), 1200)


def load_tests(loader, tests, pattern):
    for module in (pbc, _circuit, _gates, _library, _qasm, _values):
        tests.addTests(doctest.DocTestSuite(module))
    return tests


if __name__ == "__main__":
    faulthandler.dump_traceback_later(300, exit=True)
    unittest.main()
