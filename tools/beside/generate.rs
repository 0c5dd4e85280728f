//! Commands for both sides. The limits of the walks are taken from the Rust: the work that a walk needs, and one less.
use crate::driver::{Driver, HAND, circuit, word};
use crate::pbc::PauliRef;
use std::collections::HashSet;
use std::io::Write;

pub struct Random(pub u64);

impl Random {
    pub fn next(&mut self) -> u64 {
        self.0 ^= self.0 << 13;
        self.0 ^= self.0 >> 7;
        self.0 ^= self.0 << 17;
        self.0
    }
    pub fn below(&mut self, n: u32) -> u32 {
        (self.next() >> 33) as u32 % n.max(1)
    }
    pub fn one_in(&mut self, n: u32) -> bool {
        self.below(n) == 0
    }
}

/// The kinds that both convert; those of the output frame are among the first nine.
pub const KINDS: [u32; 16] = [0, 1, 2, 3, 4, 5, 6, 8, 9, 10, 11, 12, 15, 16, 19, 20];

/// Its qubits.
pub fn arity(kind: u32) -> u32 {
    match kind {
        8 | 9 | 19 | 20 => 2,
        10 | 11 => 3,
        _ => 1,
    }
}

/// Different qubits, as many as the gate has, if there are so many.
fn operands(random: &mut Random, kind: u32, n: u32) -> Option<[u32; 3]> {
    let k = arity(kind);
    if n < k {
        return None;
    }
    let mut out = [0, 0, 0];
    for i in 0..k as usize {
        loop {
            out[i] = random.below(n);
            if !out[..i].contains(&out[i]) {
                break;
            }
        }
    }
    Some(out)
}

/// Sound gates of these kinds. In one list of four measurements may go into one bit twice.
pub fn gates(random: &mut Random, n: u32, cbits: u32, count: u32) -> Vec<u32> {
    let (mut words, mut bits, again) = (Vec::new(), HashSet::new(), random.one_in(4));
    for _ in 0..count {
        let kind = KINDS[random.below(16) as usize];
        if kind == 12 && cbits == 0 {
            continue;
        }
        if let Some(mut q) = operands(random, kind, n) {
            if kind == 12 {
                q[1] = random.below(cbits);
                if !bits.insert(q[1]) && !again {
                    continue;
                }
            }
            words.extend([kind, q[0], q[1], q[2]]);
        }
    }
    words
}

/// One word of the list is made wrong.
fn damage(random: &mut Random, words: &mut Vec<u32>, n: u32) {
    if words.is_empty() {
        return;
    }
    let k = random.below(words.len() as u32) as usize;
    words[k] = match random.below(4) {
        0 => n,
        1 => random.below(30),
        2 => u32::MAX,
        _ => words[k / 4 * 4 + 1],
    };
}

struct Writer<W: Write> {
    driver: Driver,
    out: W,
    lines: u64,
}

impl<W: Write> Writer<W> {
    fn say(&mut self, line: &str) {
        self.driver.line(line);
        writeln!(self.out, "{line}").unwrap();
        self.lines += 1;
    }

    fn convert(&mut self, n: u32, cbits: u32, cap: Option<u32>, words: &[u32]) {
        let cap = cap.map_or("-1".to_string(), |c| c.to_string());
        let mut line = format!("convert {n} {cbits} {cap}");
        for w in words {
            line.push_str(&format!(" {w}"));
        }
        self.say(&line);
    }

    /// A walk with more than enough, with exactly enough, and with one less; f gives the line for a limit.
    fn walk(&mut self, roots: &[PauliRef], more: usize, f: impl Fn(usize) -> String) {
        let need = self.driver.circuit.work(roots, usize::MAX).unwrap() + more;
        self.say(&f(need + 1000));
        self.at_limit(need, f);
    }

    fn at_limit(&mut self, need: usize, f: impl Fn(usize) -> String) {
        self.say(&f(need));
        if need > 0 {
            self.say(&f(need - 1));
        }
    }

    /// The report and the rows of all axes.
    fn read_axes(&mut self) {
        let axes = self.driver.circuit.axes();
        self.walk(&axes, 0, |limit| format!("report {limit}"));
        self.walk(&axes, 0, |limit| format!("report2 {limit}"));
        let need = self.driver.circuit.work(&axes, usize::MAX).unwrap();
        self.at_limit(need, |limit| format!("rows {limit}"));
    }

    fn walks(&mut self, random: &mut Random) {
        self.say("kinds");
        self.read_axes();
        let n = self.driver.circuit.num_qubits();
        let nodes = self.driver.circuit.pauli_nodes().len() as u32;
        for _ in 0..3 {
            let w = random.below(4 * nodes);
            let root = [self.driver.circuit.handle(self.driver.circuit.owner(), w)];
            self.walk(&root, n, |cells| format!("expand 0 {w} {cells}"));
            self.walk(&root, n, |cells| format!("commutes 0 {w} {cells}"));
            self.walk(&root, 0, |limit| format!("herm 0 {w} {limit}"));
        }
    }

    fn later(&mut self, random: &mut Random, cbits: u32) {
        let n = self.driver.circuit.num_qubits() as u32;
        let nodes = self.driver.circuit.pauli_nodes().len() as u32;
        let given = self.driver.circuit.measurement_count() as u32;
        let f = u32::from(random.one_in(12));
        let w = if random.one_in(12) { 4 * nodes + random.below(4) } else { random.below(4 * nodes) };
        let v = random.below(4 * nodes);
        let k = random.next() as i64;
        let past = u32::from(random.one_in(8));
        let (q, t) = (random.below(n + past), random.below(n + past));
        let line = match random.below(7) {
            0 => format!("single {q} {}", random.below(4)),
            1 => format!("product {f} {w} 0 {v}"),
            2 => format!("rotate {f} {w} {k}"),
            3 => format!("measure {f} {w} {}", random.below(cbits + 2)),
            4 => format!("cond {f} {w} {k} {} {}", u32::from(random.one_in(12)), random.below(given + 1)),
            _ => {
                let kind = if random.one_in(6) { random.below(30) } else { KINDS[random.below(9) as usize] };
                format!("fgate {kind} {q} {t} 0")
            }
        };
        self.say(&line);
    }
}

fn cap(random: &mut Random, n: u32) -> Option<u32> {
    match random.below(8) {
        0..=1 => None,
        2 => Some(1),
        3 => Some(2),
        4 => Some(3),
        5 => Some(n.max(1)),
        6 => Some(n + 1 + random.below(3)),
        _ => Some(1 + random.below(n.max(1))),
    }
}

fn seeded(seed: u64) -> Random {
    Random(seed.wrapping_mul(0x9e37_79b9_7f4a_7c15) | 1)
}

pub fn generate(seed: u64, lines: u64) {
    let mut random = seeded(seed);
    let out = std::io::BufWriter::new(std::io::stdout().lock());
    let mut w = Writer { driver: Driver::new(), out, lines: 0 };
    for a in 0..4 {
        for b in 0..4 {
            w.say(&format!("times {a} {b}"));
        }
    }
    for k in [0, -1, 8, 7, -8, i64::MIN, i64::MAX] {
        w.say(&format!("angle {k}"));
    }
    const WIDE: [u32; 9] = [62, 63, 64, 65, 127, 128, 129, 255, 256];
    while w.lines < lines {
        let n = if random.one_in(60) { WIDE[random.below(9) as usize] } else { random.below(9) };
        let cbits = random.below(4);
        let cap = cap(&mut random, n);
        let count = if n > 8 { random.below(200) } else { random.below(24) };
        let mut words = gates(&mut random, n, cbits, count);
        if random.one_in(6) {
            damage(&mut random, &mut words, n);
        }
        w.convert(n, cbits, cap, &words);
        w.walks(&mut random);
        for _ in 0..random.below(12) {
            w.later(&mut random, cbits);
        }
        w.say("dump");
        w.walks(&mut random);
    }
}

/// A node at this place: the identity, a letter on a qubit, or a product of nodes before it.
fn node(random: &mut Random, n: u32, place: u32) -> [u32; 2] {
    match random.below(10) {
        1..6 if n > 0 => [1 + 4 * (1 + random.below(3)), random.below(n)],
        6.. if place > 0 => [2 + 4 * random.below(4 * place), random.below(4 * place)],
        _ => [0, 0],
    }
}

/// Where an operation came from: a gate's index or the mark, or neither where `damaged`.
fn fifth(random: &mut Random, damaged: bool) -> u32 {
    match random.below(if damaged { 6 } else { 4 }) {
        0 => random.below(20),
        1 => random.below(65_536),
        2 => 65_535,
        3 => HAND,
        4 => 65_536,
        _ => HAND - 1 - random.below(2) * random.below(HAND - 65_537),
    }
}

/// Five words; what kind it is, angle, measurement and bit are sound.
fn operation(random: &mut Random, nodes: u32, cbits: u32, measurements: u32, damaged: bool) -> [u32; 5] {
    let (kind, angle, axis) = (random.below(if measurements > 0 { 3 } else { 1 }), random.below(8), random.below(4 * nodes));
    let (measurement, target) = (random.below(measurements), random.below(cbits + 1));
    let fifth = fifth(random, damaged);
    match kind {
        0 => [4 * angle, axis, 0, 0, fifth],
        1 => [1, axis, measurement, target, fifth],
        _ => [2 + 4 * angle, axis, measurement, 0, fifth],
    }
}

/// Circuits as their words, made by no call, with later calls and walks. One in four has fifth words that a report refuses.
pub fn stores(seed: u64, lines: u64) {
    let mut random = seeded(seed);
    let out = std::io::BufWriter::new(std::io::stdout().lock());
    let mut w = Writer { driver: Driver::new(), out, lines: 0 };
    while w.lines < lines {
        let (n, cbits, nodes, count) = (random.below(6), random.below(4), 1 + random.below(16), random.below(10));
        let (measurements, damaged) = (random.below(count + 1), random.one_in(4));
        let lists: [Vec<u32>; 3] = [
            (0..nodes).flat_map(|place| node(&mut random, n, place)).collect(),
            (0..count).flat_map(|_| operation(&mut random, nodes, cbits, measurements, damaged)).collect(),
            (0..2 * n).map(|_| random.below(4 * nodes)).collect(),
        ];
        let mut line = format!("store {n} {cbits} {measurements}");
        for list in &lists {
            line.push_str(&format!(" {}", list.len()));
            line.extend(list.iter().map(|word| format!(" {word}")));
        }
        w.say(&line);
        w.walks(&mut random);
        for _ in 0..random.below(8) {
            w.later(&mut random, cbits);
        }
        w.say("dump");
        w.walks(&mut random);
    }
}

/// Every list of so many gates over so few qubits, without a cap and with caps 1 to 3.
pub fn exhaust(qubits: u64, count: u64) {
    let n = qubits as u32;
    let mut all = Vec::new();
    for kind in KINDS {
        let k = arity(kind);
        for a in 0..n {
            if k == 1 {
                all.push([kind, a, 0, 0]);
                continue;
            }
            for b in (0..n).filter(|&b| b != a) {
                if k == 2 {
                    all.push([kind, a, b, 0]);
                    continue;
                }
                for c in (0..n).filter(|&c| c != a && c != b) {
                    all.push([kind, a, b, c]);
                }
            }
        }
    }
    let out = std::io::BufWriter::new(std::io::stdout().lock());
    let mut w = Writer { driver: Driver::new(), out, lines: 0 };
    let mut places = vec![0usize; count as usize];
    loop {
        let words: Vec<u32> = places.iter().flat_map(|&p| all[p]).collect();
        for cap in [None, Some(1), Some(2), Some(3)] {
            w.convert(n, 1, cap, &words);
            w.read_axes();
        }
        let Some(k) = (0..places.len()).rev().find(|&k| places[k] + 1 < all.len()) else { return };
        places[k] += 1;
        places[k + 1..].fill(0);
    }
}
