//! Commands to answers. What the Rust does not carry is answered `?`: the operands of refusals 6 and 8, and the fifth word of a converted operation.
//! The fifth words of operations that were stored or added by hand are kept beside the Rust's circuit, which has four.
use crate::circuit::{Circuit, Gate, GateKind};
use crate::pbc::{AxisKind, ExpandedPauli, Pauli, PauliAngle, PauliNode, PauliRef, PbcCircuit, PbcError, PbcOp, Phase, to_pbc};
use std::collections::HashSet;
use std::fmt::Write as _;
use std::io::{BufRead, Write};
use std::num::NonZeroUsize;

/// The fifth word of an operation that was added by hand.
pub const HAND: u32 = u32::MAX;
/// Gate indices are below this.
const MAX_GATES: u32 = 65_536;

pub fn word(r: PauliRef) -> u32 {
    4 * r.node_index() as u32 + r.phase() as u32
}

/// A gate of these kinds, by number; None for a number that the Rust does not have.
pub fn gate(kind: u32, a: u32, b: u32, c: u32) -> Option<Gate> {
    let kind = *GateKind::ALL.get(kind as usize)?;
    let angle = || crate::angle::Angle::from_f64(0.3).unwrap();
    use GateKind::*;
    Some(match kind {
        H => Gate::h(a),
        X => Gate::x(a),
        Z => Gate::z(a),
        S => Gate::s(a),
        Sdg => Gate::sdg(a),
        T => Gate::t(a),
        Tdg => Gate::tdg(a),
        Rz => Gate::rz(angle(), a),
        Cx => Gate::cnot { control: a, target: b },
        Cz => Gate::cz { control: a, target: b },
        Ccx => Gate::ccx { control1: a, control2: b, target: c },
        Ccz => Gate::ccz { control1: a, control2: b, target: c },
        Measure => Gate::measure { qubit: a, cbit: b },
        Reset => Gate::reset(a),
        P => Gate::p(angle(), a),
        Y => Gate::y(a),
        Sx => Gate::sx(a),
        Rx => Gate::rx(angle(), a),
        Ry => Gate::ry(angle(), a),
        Swap => Gate::swap(a, b),
        Cy => Gate::cy { control: a, target: b },
        Cp => Gate::cp { lambda: angle(), control: a, target: b },
        Crx => Gate::crx { theta: angle(), control: a, target: b },
        Cry => Gate::cry { theta: angle(), control: a, target: b },
        Crz => Gate::crz { theta: angle(), control: a, target: b },
        Ch => Gate::ch { control: a, target: b },
        Cswap => Gate::cswap { control: a, first: b, second: c },
    })
}

fn refusal(error: &PbcError, index: usize) -> String {
    match error {
        PbcError::InvalidInput { index, cause } => refusal(cause, *index),
        PbcError::TooManyQubits => "err 1 0 0".into(),
        PbcError::ForeignPauli => "err 4 0 0".into(),
        PbcError::UnsupportedGate(kind) => format!("err 5 {index} {}", *kind as u32),
        PbcError::NonCliffordFrameGate => "err 6 0 ?".into(),
        PbcError::QubitOutOfRange(q) => format!("err 7 {index} {q}"),
        PbcError::RepeatedOperand => format!("err 8 {index} ?"),
        PbcError::ClassicalBitOutOfRange(b) => format!("err 9 {index} {b}"),
        PbcError::UnknownMeasurement => "err 10 0 0".into(),
        PbcError::ExpansionLimit => "err 17 0 0".into(),
        PbcError::NonHermitianAxis => "err 19 0 0".into(),
        other => format!("err ? {other:?}"),
    }
}

/// The circuit of four words a gate; a number that the Rust does not have ends the list.
pub fn circuit(n: usize, cbits: usize, words: &[u32]) -> (Circuit, Option<(usize, u32)>) {
    let mut circuit = Circuit::with_cbits(n, cbits);
    for (index, w) in words.chunks(4).enumerate() {
        match gate(w[0], w[1], w[2], w[3]) {
            Some(g) => circuit.gates.push(g),
            None => return (circuit, Some((index, w[0]))),
        }
    }
    (circuit, None)
}

/// The first record that measures into a bit of an earlier one: its place and the bit. The Rust takes it; here it is 24.
pub fn taken(words: &[u32]) -> Option<(usize, u32)> {
    let mut bits = HashSet::new();
    words.chunks(4).enumerate().find(|(_, w)| w[0] == 12 && !bits.insert(w[2])).map(|(index, w)| (index, w[2]))
}

/// What the Rust makes of a list. Under a cap of 1 or 2 it is given the parts of ccx and ccz, if it takes the list as it is.
pub fn converted(n: usize, cbits: usize, words: &[u32], cap: Option<u32>) -> Result<PbcCircuit, PbcError> {
    let (whole, _) = circuit(n, cbits, words);
    let cap = cap.map(|w| NonZeroUsize::new(w as usize).expect("the Rust has no cap 0"));
    if cap.is_none_or(|cap| cap.get() > 2) {
        return to_pbc(&whole, cap);
    }
    to_pbc(&whole, None)?;
    to_pbc(&circuit(n, cbits, &parts(words)).0, cap)
}

/// The words of a list in which each ccz is written as thirteen gates, and each ccx as the same between two h: E4 of document 02.
/// The Rust's own pass has another order (docs/DIFFERENCES.md).
fn parts(words: &[u32]) -> Vec<u32> {
    let (h, t, tdg, cnot) = (0, 5, 6, 8);
    let mut list = Vec::new();
    for w in words.chunks(4) {
        let &[kind @ (10 | 11), a, b, d] = w else {
            list.push([w[0], w[1], w[2], w[3]]);
            continue;
        };
        let ends = if kind == 10 { vec![[h, d, 0, 0]] } else { vec![] };
        list.extend(&ends);
        list.extend([[cnot, b, d, 0], [tdg, d, 0, 0], [cnot, a, d, 0], [t, d, 0, 0], [cnot, b, d, 0], [tdg, d, 0, 0], [cnot, a, d, 0]]);
        list.extend([[t, b, 0, 0], [t, d, 0, 0], [cnot, a, b, 0], [t, a, 0, 0], [tdg, b, 0, 0], [cnot, a, b, 0]]);
        list.extend(&ends);
    }
    list.concat()
}

fn node_words(node: &PauliNode) -> [u32; 2] {
    match *node {
        PauliNode::Identity => [0, 0],
        PauliNode::Single { qubit, pauli } => [1 + 4 * pauli as u32, qubit],
        PauliNode::Product(l, r) => [2 + 4 * word(l), word(r)],
    }
}

/// The first four words of an operation.
fn operation_words(op: &PbcOp) -> [u32; 4] {
    match *op {
        PbcOp::Rotate { axis, angle } => [4 * angle.eighths() as u32, word(axis.as_ref()), 0, 0],
        PbcOp::Measure { axis, outcome, target } => [1, word(axis.as_ref()), outcome.index() as u32, target.map_or(0, |b| b + 1)],
        PbcOp::ConditionalRotate { axis, angle, if_one } => [2 + 4 * angle.eighths() as u32, word(axis.as_ref()), if_one.index() as u32, 0],
    }
}

/// Nodes, operations with four words each, and frame.
pub fn words(c: &PbcCircuit) -> [Vec<u32>; 3] {
    let nodes = c.pauli_nodes().iter().flat_map(node_words).collect();
    let operations = c.operations().iter().flat_map(operation_words).collect();
    [nodes, operations, c.frame_roots().into_iter().map(word).collect()]
}

fn put(out: &mut String, words: &[u32]) {
    for w in words {
        write!(out, " {w}").unwrap();
    }
}

fn put_letters(out: &mut String, expanded: &ExpandedPauli) {
    for &l in &expanded.factors {
        write!(out, " {}", l as u32).unwrap();
    }
}

/// The first number of a list is how many follow that belong to it; they, and the rest.
fn counted(numbers: &[u32]) -> Option<(&[u32], &[u32])> {
    let (&count, rest) = numbers.split_first()?;
    rest.split_at_checked(count as usize)
}

fn unsigned(token: &str) -> Option<u32> {
    if token.bytes().all(|b| b.is_ascii_digit()) { token.parse().ok() } else { None }
}

fn signed(token: &str) -> Option<i64> {
    let digits = token.strip_prefix('-').unwrap_or(token);
    if !digits.is_empty() && digits.bytes().all(|b| b.is_ascii_digit()) { token.parse().ok() } else { None }
}

const LETTERS: [Pauli; 4] = [Pauli::I, Pauli::X, Pauli::Y, Pauli::Z];

pub struct Driver {
    pub circuit: PbcCircuit,
    /// The fifth word of each operation, if it is known: of those of a conversion it is not.
    fifths: Vec<Option<u32>>,
}

impl Driver {
    pub fn new() -> Self {
        Self { circuit: PbcCircuit::new(0, 0), fifths: Vec::new() }
    }

    fn handle(&self, f: u32, w: u32) -> PauliRef {
        self.circuit.handle(self.circuit.owner().wrapping_add(f as u64), w)
    }

    fn dump(&self) -> String {
        let c = &self.circuit;
        let [nodes, operations, frame] = words(c);
        let mut out = format!("ok {} {} {} {}", c.num_qubits(), c.num_cbits(), c.measurement_count(), nodes.len());
        put(&mut out, &nodes);
        write!(out, " {}", 5 * self.fifths.len()).unwrap();
        for (four, fifth) in operations.chunks(4).zip(&self.fifths) {
            put(&mut out, four);
            match fifth {
                Some(w) => put(&mut out, &[*w]),
                None => out.push_str(" ?"),
            }
        }
        write!(out, " {}", frame.len()).unwrap();
        put(&mut out, &frame);
        out
    }

    /// What was added since by hand is marked.
    fn mark(&mut self) {
        self.fifths.resize(self.circuit.operations().len(), Some(HAND));
    }

    /// Sound words as a circuit; the fifth word of an operation may be any.
    fn store(&mut self, numbers: &[u32]) -> Option<String> {
        let (&[n, cbits, measurements], lists) = numbers.split_first_chunk()?;
        let (nodes, rest) = counted(lists)?;
        let (operations, rest) = counted(rest)?;
        let (frame, rest) = counted(rest)?;
        if nodes.len() % 2 != 0 || operations.len() % 5 != 0 || frame.len() != 2 * n as usize || !rest.is_empty() {
            return None;
        }
        let mut c = PbcCircuit::new(n as usize, cbits as usize);
        let own = |w: u32| c.handle(c.owner(), w);
        let node = |w: &[u32]| match w[0] % 4 {
            0 => PauliNode::Identity,
            1 => PauliNode::Single { qubit: w[1], pauli: LETTERS[w[0] as usize / 4] },
            _ => PauliNode::Product(own(w[0] / 4), own(w[1])),
        };
        let operation = |w: &[u32]| {
            let (axis, angle, outcome) = (c.axis(own(w[1])), PauliAngle::new(i64::from(w[0] / 4)), c.outcome(c.owner(), w[2] as usize));
            match w[0] % 4 {
                0 => PbcOp::Rotate { axis, angle },
                1 => PbcOp::Measure { axis, outcome, target: w[3].checked_sub(1) },
                _ => PbcOp::ConditionalRotate { axis, angle, if_one: outcome },
            }
        };
        let nodes = nodes.chunks(2).map(node).collect();
        let images: Vec<_> = frame.iter().map(|&w| own(w)).collect();
        let stored = operations.chunks(5).map(operation).collect();
        c.store(nodes, stored, &images, measurements as usize);
        self.circuit = c;
        self.fifths = operations.chunks(5).map(|w| Some(w[4])).collect();
        Some("ok".into())
    }

    /// The work of the report, and each axis expanded by itself: the Rust does not read them all in one call. So the report's limit decides, and
    /// what comes of lent slices (16, 18) is not compared.
    fn rows(&self) -> String {
        let axes = self.circuit.axes();
        let mut out = format!("ok {}", self.circuit.work(&axes, usize::MAX).unwrap());
        for axis in axes {
            let expanded = self.circuit.expand(axis, usize::MAX).unwrap();
            write!(out, " {}", expanded.phase as u32).unwrap();
            put_letters(&mut out, &expanded);
        }
        out
    }

    /// Whether an operation has a fifth word that is no gate's index and not the mark.
    fn malformed(&self) -> bool {
        self.fifths.iter().flatten().any(|&w| w >= MAX_GATES && w != HAND)
    }

    /// The answer of one line, or None for a line of spaces.
    pub fn line(&mut self, line: &str) -> Option<String> {
        let tokens: Vec<&str> = line.split(' ').filter(|t| !t.is_empty()).collect();
        let (&name, rest) = tokens.split_first()?;
        let answer = self.command(name, rest);
        self.mark();
        Some(answer.unwrap_or_else(|| "bad".into()))
    }

    fn command(&mut self, name: &str, rest: &[&str]) -> Option<String> {
        match name {
            "convert" => return self.convert(rest),
            "angle" => {
                let [k] = rest else { return None };
                return Some(format!("ok {}", PauliAngle::new(signed(k)?).eighths()));
            }
            "rotate" => {
                let [f, w, k] = rest else { return None };
                let (r, k) = (self.handle(unsigned(f)?, unsigned(w)?), PauliAngle::new(signed(k)?));
                let axis = self.circuit.axis(r);
                return Some(self.circuit.rotate(axis, k).map_or_else(|e| refusal(&e, 0), |_| "ok".into()));
            }
            "cond" => {
                let [f, w, k, g, m] = rest else { return None };
                let (r, k) = (self.handle(unsigned(f)?, unsigned(w)?), PauliAngle::new(signed(k)?));
                let owner = self.circuit.owner().wrapping_add(unsigned(g)? as u64);
                let outcome = self.circuit.outcome(owner, unsigned(m)? as usize);
                let axis = self.circuit.axis(r);
                return Some(self.circuit.conditional_rotate(axis, k, outcome).map_or_else(|e| refusal(&e, 0), |_| "ok".into()));
            }
            _ => {}
        }
        let numbers: Vec<u32> = rest.iter().map(|t| unsigned(t)).collect::<Option<_>>()?;
        self.numbers(name, &numbers)
    }

    fn numbers(&mut self, name: &str, numbers: &[u32]) -> Option<String> {
        let c = &mut self.circuit;
        let own = c.owner();
        Some(match (name, numbers) {
            ("new", &[n, cbits]) => {
                self.circuit = PbcCircuit::new(n as usize, cbits as usize);
                self.fifths.clear();
                self.dump()
            }
            ("store", numbers) => return self.store(numbers),
            ("dump", []) => self.dump(),
            ("kinds", []) => {
                let mut out = String::from("ok");
                for op in c.operations() {
                    let k = match AxisKind::of(op) {
                        None => 0,
                        Some(AxisKind::Pi8) => 1,
                        Some(AxisKind::Clifford) => 2,
                        Some(AxisKind::Measurement) => 3,
                    };
                    write!(out, " {k}").unwrap();
                }
                out
            }
            ("single", &[q, l]) if l < 4 => {
                c.single(q, LETTERS[l as usize]).map_or_else(|e| refusal(&e, 0), |a| format!("ok {}", word(a.as_ref())))
            }
            ("product", &[f, w, g, v]) => {
                let (l, r) = (self.handle(f, w), self.handle(g, v));
                self.circuit.product(l, r).map_or_else(|e| refusal(&e, 0), |r| format!("ok {}", word(r)))
            }
            ("measure", &[f, w, b]) => {
                let r = self.handle(f, w);
                let axis = self.circuit.axis(r);
                let target = b.checked_sub(1);
                self.circuit.measure(axis, target).map_or_else(|e| refusal(&e, 0), |m| format!("ok {}", m.index()))
            }
            ("fgate", &[kind, a, b, third]) => match gate(kind, a, b, third) {
                Some(g) => c.push_output_clifford(g).map_or_else(|e| refusal(&e, 0), |_| "ok".into()),
                None => "err 6 0 ?".into(),
            },
            ("expand", &[f, w, cells]) => {
                let r = self.handle(f, w);
                match self.circuit.expand(r, cells as usize) {
                    Err(e) => refusal(&e, 0),
                    Ok(p) => {
                        let work = self.circuit.work(&[r], usize::MAX).unwrap();
                        let mut out = format!("ok {} {work}", p.phase as u32);
                        put_letters(&mut out, &p);
                        out
                    }
                }
            }
            ("commutes", &[f, w, cells]) => {
                let r = self.handle(f, w);
                match self.circuit.expand(r, cells as usize) {
                    Err(e) => refusal(&e, 0),
                    Ok(_) => {
                        let work = self.circuit.work(&[r], usize::MAX).unwrap();
                        format!("ok {} {work}", u32::from(self.circuit.factors_commute(r)))
                    }
                }
            }
            ("herm", &[f, w, limit]) => {
                let r = self.handle(f, w);
                match self.circuit.hermitian_axis(r, limit as usize) {
                    Err(e) => refusal(&e, 0),
                    Ok(a) => format!("ok {} {}", word(a.as_ref()), self.circuit.work(&[r], usize::MAX).unwrap()),
                }
            }
            ("report" | "report2" | "rows", &[_]) if self.malformed() => "err 3 0 0".into(),
            ("report", &[limit]) => match self.circuit.max_axis_weights(limit as usize) {
                Err(e) => refusal(&e, 0),
                Ok(m) => {
                    let work = self.circuit.work(&self.circuit.axes(), usize::MAX).unwrap();
                    format!("ok {} {} {work}", m.non_clifford, m.clifford)
                }
            },
            ("report2", &[limit]) => match self.circuit.axis_weight_summary(limit as usize) {
                Err(e) => refusal(&e, 0),
                Ok(m) => {
                    let work = self.circuit.work(&self.circuit.axes(), usize::MAX).unwrap();
                    format!("ok {} {} {work}", m.pi8.max.max(m.measurements.max), m.clifford.max)
                }
            },
            ("rows", &[limit]) => self.circuit.max_axis_weights(limit as usize).map_or_else(|e| refusal(&e, 0), |_| self.rows()),
            ("times", &[a, b]) if a < 4 && b < 4 => {
                let (p, l) = LETTERS[a as usize].times(LETTERS[b as usize]);
                format!("ok {} {}", p as u32, l as u32)
            }
            _ => return None,
        })
    }

    fn convert(&mut self, rest: &[&str]) -> Option<String> {
        let (head, words) = rest.split_at_checked(3)?;
        let (n, cbits) = (unsigned(head[0])?, unsigned(head[1])?);
        let cap = if head[2] == "-1" { None } else { Some(unsigned(head[2])?) };
        let words: Vec<u32> = words.iter().map(|t| unsigned(t)).collect::<Option<_>>()?;
        if words.len() % 4 != 0 {
            return Some("err 2 0 0".into());
        }
        let repeated = taken(&words);
        let read = repeated.map_or(words.len(), |(index, _)| 4 * index + 4);
        let (_, stop) = circuit(n as usize, cbits as usize, &words[..read]);
        Some(match (converted(n as usize, cbits as usize, &words[..read], cap), stop, repeated) {
            (Err(e), ..) => refusal(&e, 0),
            (Ok(_), Some((index, kind)), _) => format!("err 5 {index} {kind}"),
            (Ok(_), None, Some((index, bit))) => format!("err 24 {index} {bit}"),
            (Ok(c), None, None) => {
                self.fifths = vec![None; c.operations().len()];
                self.circuit = c;
                self.dump()
            }
        })
    }
}

pub fn answer() {
    let input = std::io::stdin().lock();
    let mut output = std::io::BufWriter::new(std::io::stdout().lock());
    let mut driver = Driver::new();
    for line in input.lines() {
        if let Some(answer) = driver.line(&line.unwrap()) {
            writeln!(output, "{answer}").unwrap();
        }
    }
}
