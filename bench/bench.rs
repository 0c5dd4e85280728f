//! The library and the Rust in one process, on the same inputs, both optimised. Prints for each workload both times, their ratio, the time per gate,
//! how both grow as the work doubles, and how many times as long as writing its words once (one copy of them) a conversion takes; at the end, for
//! each kind of workload, how many meet the ratio that it is to have, the median and those that miss it.
//! A random workload is run twice: on one list again and again, and on sixteen lists in turn, so that none is learnt by heart; its time is then
//! the mean over the lists. Times are the least of several rounds, of each list by itself. The library's buffers are made before timing and not
//! cleared between runs; the Rust makes its own at each call, with an allocator that keeps its pages, and dropping them is not timed.
//! `crate` is the time of `to_pbc` of bindings/rust, which owns its buffers, as the Rust does.
//! A report or expansion clears the scratch and the pool that it is lent. It is lent what a caller who keeps buffers would have after growing
//! them as they are needed: four words of scratch a used node, and the least power of two of records, from 1,024 on, with which all calls are accepted.
//! usage: bench FOLDER [WORD]   (the adders' folder; only workloads are run whose names, as printed, contain the word)
#![allow(dead_code, unused_imports, unused_variables)]

mod angle;
mod angle_stats;
mod circuit;
mod decompose;
mod driver;
mod generate;
mod operands;
mod pass;
mod pbc;
mod qasm;
mod synthesis;

use circuit::Circuit;
use generate::Random;
use pbc::{PbcCircuit, to_pbc};
use std::hint::black_box;
use std::num::{NonZeroU32, NonZeroUsize};
use std::time::{Duration, Instant};

#[link(name = "exports", kind = "static")]
unsafe extern "C" {
    fn pbc_convert(
        qubits: u32, cbits: u32, owner: u64, cap: u64, gates: *const u32, gates_len: usize, nodes: *mut u32, nodes_len: usize,
        operations: *mut u32, operations_len: usize, frame: *mut u32, frame_len: usize, planes: *mut u64, planes_len: usize,
        header: *mut u64, header_len: usize, answer: *mut u64, answer_len: usize,
    ) -> u32;
    fn pbc_expand(
        header: *mut u64, header_len: usize, nodes: *const u32, nodes_len: usize, letters: *mut u8, letters_len: usize,
        scratch: *mut u32, scratch_len: usize, pool: *mut u32, pool_len: usize, owner: u64, word: u32, max_cells: u64,
        answer: *mut u64, answer_len: usize,
    ) -> u32;
    fn pbc_expand_axes(
        header: *mut u64, header_len: usize, nodes: *const u32, nodes_len: usize, operations: *const u32, operations_len: usize,
        rows: *mut u8, rows_len: usize, scratch: *mut u32, scratch_len: usize, pool: *mut u32, pool_len: usize, limit: u64,
        answer: *mut u64, answer_len: usize,
    ) -> u32;
    fn pbc_max_axis_weights(
        header: *mut u64, header_len: usize, nodes: *const u32, nodes_len: usize, operations: *const u32, operations_len: usize,
        scratch: *mut u32, scratch_len: usize, pool: *mut u32, pool_len: usize, limit: u64, answer: *mut u64, answer_len: usize,
    ) -> u32;
}

// The C library's: how its allocator behaves.
unsafe extern "C" {
    fn mallopt(what: i32, value: i32) -> i32;
}

/// From here on the allocator keeps what it was given, so that no time goes into pages given back and asked for again.
fn keep_pages() {
    const TRIM_THRESHOLD: i32 = -1;
    const TOP_PAD: i32 = -2;
    const MMAP_MAX: i32 = -4;
    unsafe {
        assert!(mallopt(TRIM_THRESHOLD, i32::MAX) == 1 && mallopt(TOP_PAD, 1 << 26) == 1 && mallopt(MMAP_MAX, 0) == 1);
    }
}

/// The library has so many words an operation; the Rust has what the first four say.
const OPERATION_WORDS: usize = 5;

struct Buffers {
    nodes: Vec<u32>,
    operations: Vec<u32>,
    frame: Vec<u32>,
    planes: Vec<u64>,
    scratch: Vec<u32>,
    pool: Vec<u32>,
    letters: Vec<u8>,
    rows: Vec<u8>,
    header: [u64; 6],
    answer: [u64; 4],
}

impl Buffers {
    fn new() -> Self {
        Self {
            nodes: vec![0; 131072],
            operations: vec![0; OPERATION_WORDS * 65_536],
            frame: vec![0; 512],
            planes: vec![0; 4096],
            scratch: Vec::new(),
            pool: Vec::new(),
            letters: vec![0; 256],
            rows: Vec::new(),
            header: [0; 6],
            answer: [0; 4],
        }
    }

    fn convert(&mut self, w: &Workload, list: usize) -> u32 {
        let cap = w.cap.map_or(u64::MAX, |c| c as u64);
        let words = &w.lists[list];
        unsafe {
            pbc_convert(
                w.qubits, w.cbits, 1, cap, words.as_ptr(), words.len(), self.nodes.as_mut_ptr(), self.nodes.len(),
                self.operations.as_mut_ptr(), self.operations.len(), self.frame.as_mut_ptr(), self.frame.len(),
                self.planes.as_mut_ptr(), self.planes.len(), self.header.as_mut_ptr(), 6, self.answer.as_mut_ptr(), 4,
            )
        }
    }

    fn report(&mut self) -> u32 {
        unsafe {
            pbc_max_axis_weights(
                self.header.as_mut_ptr(), 6, self.nodes.as_ptr(), self.nodes.len(), self.operations.as_ptr(), self.operations.len(),
                self.scratch.as_mut_ptr(), self.scratch.len(), self.pool.as_mut_ptr(), self.pool.len(), u64::MAX >> 1,
                self.answer.as_mut_ptr(), 4,
            )
        }
    }

    /// Every axis in turn; the number of refusals.
    fn expand_all(&mut self) -> u32 {
        let mut refused = 0;
        for k in 0..self.header[4] as usize {
            let word = self.operations[OPERATION_WORDS * k + 1];
            let number = unsafe {
                pbc_expand(
                    self.header.as_mut_ptr(), 6, self.nodes.as_ptr(), self.nodes.len(), self.letters.as_mut_ptr(), self.letters.len(),
                    self.scratch.as_mut_ptr(), self.scratch.len(), self.pool.as_mut_ptr(), self.pool.len(), 1, word, u64::MAX >> 1,
                    self.answer.as_mut_ptr(), 4,
                )
            };
            refused += u32::from(number != 0);
        }
        refused
    }

    /// All axes in one walk.
    fn axes(&mut self) -> u32 {
        unsafe {
            pbc_expand_axes(
                self.header.as_mut_ptr(), 6, self.nodes.as_ptr(), self.nodes.len(), self.operations.as_ptr(), self.operations.len(),
                self.rows.as_mut_ptr(), self.rows.len(), self.scratch.as_mut_ptr(), self.scratch.len(), self.pool.as_mut_ptr(),
                self.pool.len(), u64::MAX >> 1, self.answer.as_mut_ptr(), 4,
            )
        }
    }

    /// Rows, scratch and pool for the readers of the circuit at hand; the pool's records.
    fn fit(&mut self, expand: bool) -> usize {
        self.scratch = vec![0; 4 * self.header[3] as usize];
        self.rows = vec![0; (self.header[0] as usize + 1) * self.header[4] as usize];
        let mut records = 1024;
        loop {
            self.pool = vec![0; 3 * records];
            if self.report() == 0 && (!expand || self.expand_all() == 0) {
                return records;
            }
            records *= 2;
            assert!(records <= 65_536, "refused with every pool");
        }
    }
}

struct Workload {
    family: &'static str,
    /// The name without the size that doubles.
    form: String,
    name: String,
    qubits: u32,
    cbits: u32,
    cap: Option<u32>,
    /// Run in turn.
    lists: Vec<Vec<u32>>,
}

impl Workload {
    fn gates(&self) -> usize {
        self.lists[0].len() / 4
    }

    fn named(&self, what: What) -> String {
        let cap = self.cap.map_or("none".into(), |c| c.to_string());
        let lists = if self.lists.len() == 1 { String::new() } else { format!(", {} lists,", self.lists.len()) };
        format!("{} {}{lists} cap {cap}", what.name(), self.name)
    }
}

/// A line of the command pbc as a workload.
fn line(form: &str, size: u32, text: &str, cap: Option<u32>) -> Workload {
    let numbers: Vec<i64> = text.split_whitespace().skip(1).map(|t| t.parse().unwrap()).collect();
    Workload {
        family: "adders",
        form: form.into(),
        name: format!("{form} adder {size}"),
        qubits: numbers[0] as u32,
        cbits: numbers[1] as u32,
        cap,
        lists: vec![numbers[3..].iter().map(|&w| w as u32).collect()],
    }
}

/// Clifford+T: of a hundred gates fifty t and tdg, ten h, ten s and sdg, ten x and z, fifteen cnot and cz, five measurements.
fn random_list(r: &mut Random, qubits: u32, gates: usize) -> Vec<u32> {
    let mut words = Vec::new();
    for i in 0..gates {
        let a = r.below(qubits);
        let b = (a + 1 + r.below(qubits - 1)) % qubits;
        words.extend(match r.below(100) {
            0..25 => [5, a, 0, 0],
            25..50 => [6, a, 0, 0],
            50..60 => [0, a, 0, 0],
            60..65 => [3, a, 0, 0],
            65..70 => [4, a, 0, 0],
            70..75 => [1, a, 0, 0],
            75..80 => [2, a, 0, 0],
            80..90 => [8, a, b, 0],
            90..95 => [9, a, b, 0],
            _ => [12, a, i as u32, 0],
        });
    }
    words
}

fn random(qubits: u32, gates: usize, lists: usize, cap: Option<u32>) -> Workload {
    let mut r = Random(0x9e37_79b9_7f4a_7c15 ^ gates as u64 ^ (qubits as u64) << 32);
    let lists = (0..lists).map(|_| random_list(&mut r, qubits, gates)).collect();
    let form = format!("random {qubits} qubits");
    Workload { family: "random circuits", name: format!("{form} {gates} gates"), form, qubits, cbits: 65536, cap, lists }
}

/// Each thing is run in turn, in some rounds after one that is not counted: the mean over the things of each one's least time.
fn best_of<T>(things: &[T], mut run: impl FnMut(&T) -> Duration) -> f64 {
    for thing in things {
        run(thing);
    }
    let mut least = vec![f64::MAX; things.len()];
    let (begun, mut rounds) = (Instant::now(), 0);
    while rounds < 5 && begun.elapsed() < Duration::from_secs(2) || begun.elapsed() < Duration::from_millis(300) && rounds < 2000 {
        for (thing, least) in things.iter().zip(&mut least) {
            *least = least.min(run(thing).as_secs_f64());
        }
        rounds += 1;
    }
    least.iter().sum::<f64>() / things.len() as f64
}

fn best(mut run: impl FnMut() -> Duration) -> f64 {
    best_of(&[()], |_| run())
}

fn timed<T>(f: impl FnOnce() -> T) -> (Duration, T) {
    let begun = Instant::now();
    let x = f();
    (begun.elapsed(), x)
}

#[derive(Clone, Copy, PartialEq)]
enum What {
    Convert,
    Report,
    Axes,
    Expand,
}

impl What {
    fn name(self) -> &'static str {
        match self {
            What::Convert => "convert",
            What::Report => "report",
            What::Axes => "axes",
            What::Expand => "expand",
        }
    }
}

/// A workload to be run; a reader's pool is one with which every axis can be expanded too, where `each` says so.
struct Job {
    what: What,
    each: bool,
    workload: Workload,
}

/// What was measured of a job, in seconds.
struct Row {
    ours: f64,
    rust: f64,
    bound: Option<f64>,
    copy: Option<f64>,
    note: String,
}

fn rust_circuit(w: &Workload, list: usize) -> (Circuit, Option<NonZeroUsize>) {
    let (c, stop) = driver::circuit(w.qubits as usize, w.cbits as usize, &w.lists[list]);
    assert!(stop.is_none());
    (c, w.cap.and_then(|c| NonZeroUsize::new(c as usize)))
}

/// Both convert each list to the same words; no for a refusal.
fn agree(b: &mut Buffers, w: &Workload) -> bool {
    (0..w.lists.len()).rev().all(|list| {
        let number = b.convert(w, list);
        if number != 0 {
            println!("{:56} skipped: refused with {number}", w.named(What::Convert));
            return false;
        }
        let (c, cap) = rust_circuit(w, list);
        let rust = to_pbc(&c, cap).unwrap();
        let [nodes, operations, frame] = used(b);
        let four: Vec<u32> = operations.chunks(OPERATION_WORDS).flat_map(|words| &words[..4]).copied().collect();
        let same = driver::words(&rust) == [nodes.to_vec(), four, frame.to_vec()] && rust.measurement_count() as u64 == b.header[5];
        assert!(same, "{} cap {:?}: the words differ", w.name, w.cap);
        true
    })
}

/// The words in use of nodes, operations and frame.
fn used(b: &Buffers) -> [&[u32]; 3] {
    let [n, _, _, nodes, operations, _] = b.header.map(|x| x as usize);
    [&b.nodes[..2 * nodes], &b.operations[..OPERATION_WORDS * operations], &b.frame[..2 * n]]
}

/// One copy of the words that the conversion wrote.
fn copied(b: &Buffers) -> f64 {
    let words = used(b).concat();
    let mut to = vec![0u32; words.len()];
    best(|| timed(|| black_box(&mut to).copy_from_slice(black_box(&words))).0)
}

fn bound_gates(words: &[u32]) -> Vec<bound::Gate> {
    use bound::Gate::*;
    words
        .chunks(4)
        .map(|g| match g[0] {
            0 => H(g[1]),
            1 => X(g[1]),
            2 => Z(g[1]),
            3 => S(g[1]),
            4 => Sdg(g[1]),
            5 => T(g[1]),
            6 => Tdg(g[1]),
            8 => Cnot(g[1], g[2]),
            9 => Cz(g[1], g[2]),
            10 => Ccx(g[1], g[2], g[3]),
            _ => Measure(g[1], g[2]),
        })
        .collect()
}

impl Job {
    fn name(&self) -> String {
        self.workload.named(self.what)
    }

    /// Its kind, and the ratio that it is to meet; none for expansions one by one.
    fn bar(&self) -> (String, Option<f64>) {
        let w = &self.workload;
        let lists = if w.lists.len() == 1 { "" } else { ", lists in turn" };
        match (self.what, w.cap) {
            (What::Convert, None) => (format!("conversion without a cap, {}{lists}", w.family), Some(0.5)),
            (What::Convert, Some(_)) => (format!("conversion with a cap, {}{lists}", w.family), Some(0.7)),
            (What::Report, _) => (format!("report, {}", w.family), Some(0.5)),
            (What::Axes, _) => (format!("all axes in one walk, {}", w.family), Some(0.5)),
            (What::Expand, _) => ("all axes, one by one".into(), None),
        }
    }

    fn rust(&self) -> f64 {
        let circuits: Vec<_> = (0..self.workload.lists.len()).map(|list| rust_circuit(&self.workload, list)).collect();
        if self.what == What::Convert {
            return best_of(&circuits, |(c, cap)| timed(|| black_box(to_pbc(black_box(c), *cap).unwrap())).0);
        }
        let circuit = to_pbc(&circuits[0].0, circuits[0].1).unwrap();
        if self.what == What::Report {
            return best(|| timed(|| black_box(circuit.max_axis_weights(usize::MAX).unwrap())).0);
        }
        let axes = circuit.axes();
        best(|| timed(|| axes.iter().map(|&a| circuit.expand(a, usize::MAX).unwrap().factors.len()).sum::<usize>()).0)
    }

    /// The crate's conversion, which owns what it makes.
    fn bound(&self) -> f64 {
        let w = &self.workload;
        let lists: Vec<_> = w.lists.iter().map(|list| bound_gates(list)).collect();
        let cap = w.cap.and_then(NonZeroU32::new);
        best_of(&lists, |gates| timed(|| black_box(bound::to_pbc(w.qubits, w.cbits, black_box(gates), cap).unwrap())).0)
    }

    /// Nothing where the conversion is refused.
    fn run(&self, b: &mut Buffers) -> Option<Row> {
        let w = &self.workload;
        if !agree(b, w) {
            return None;
        }
        let mut row = Row { ours: 0.0, rust: 0.0, bound: None, copy: None, note: String::new() };
        if self.what == What::Convert {
            let lists: Vec<usize> = (0..w.lists.len()).collect();
            row.copy = Some(copied(b));
            row.ours = best_of(&lists, |&list| timed(|| black_box(b.convert(black_box(w), list))).0);
            row.bound = Some(self.bound());
        } else {
            row.note = format!("pool {} records", b.fit(self.each));
            self.reads_alike(b);
            row.ours = match self.what {
                What::Report => best(|| timed(|| black_box(b.report())).0),
                What::Axes => best(|| timed(|| black_box(b.axes())).0),
                _ => best(|| timed(|| black_box(b.expand_all())).0),
            };
        }
        row.rust = self.rust();
        Some(row)
    }

    /// Both readers of all axes say what the Rust says.
    fn reads_alike(&self, b: &mut Buffers) {
        let (c, cap) = rust_circuit(&self.workload, 0);
        let rust = to_pbc(&c, cap).unwrap();
        let m = rust.max_axis_weights(usize::MAX).unwrap();
        assert!(b.report() == 0 && b.answer[0] == m.non_clifford as u64 && b.answer[1] == m.clifford as u64);
        assert!(b.axes() == 0);
        let n = self.workload.qubits as usize;
        for (row, axis) in b.rows.chunks(n + 1).zip(rust.axes()) {
            let expanded = rust.expand(axis, usize::MAX).unwrap();
            let letters = expanded.factors.iter().map(|&letter| letter as u8);
            assert!(letters.eq(row[..n].iter().copied()) && expanded.phase as u8 == row[n]);
        }
    }
}

/// The jobs of one kind that were run: how many, their ratios, and those above the bar.
struct Kind {
    name: String,
    bar: Option<f64>,
    ratios: Vec<f64>,
    missed: Vec<(f64, String)>,
}

fn count(kinds: &mut Vec<Kind>, job: &Job, row: &Row) {
    let (name, bar) = job.bar();
    let place = kinds.iter().position(|k| k.name == name).unwrap_or_else(|| {
        kinds.push(Kind { name, bar, ratios: Vec::new(), missed: Vec::new() });
        kinds.len() - 1
    });
    let (kind, ratio) = (&mut kinds[place], row.ours / row.rust);
    kind.ratios.push(ratio);
    if bar.is_some_and(|bar| ratio > bar) {
        kind.missed.push((ratio, job.name()));
    }
}

fn print(job: &Job, row: &Row, growth: &str) {
    let gates = job.workload.gates().max(1) as f64;
    let bound = row.bound.map_or(String::new(), |t| format!("  crate {:8.1} us {:6.3}", t * 1e6, t / row.rust));
    let copies = row.copy.map_or(String::new(), |t| format!("  copies {:5.1}", row.ours / t));
    println!(
        "{:56} ours {:10.1} us  rust {:10.1} us {:6.3}{bound}{copies}  {:7.1} ns a gate  {growth}{}",
        job.name(), row.ours * 1e6, row.rust * 1e6, row.ours / row.rust, row.ours * 1e9 / gates, row.note
    );
}

fn summary(kinds: &mut [Kind]) {
    println!();
    for Kind { name, bar, ratios, missed } in kinds {
        ratios.sort_by(f64::total_cmp);
        let (least, median, most) = (ratios[0], ratios[ratios.len() / 2], ratios[ratios.len() - 1]);
        let met = bar.map_or("no bar".into(), |bar| format!("{} of {} within {bar}", ratios.len() - missed.len(), ratios.len()));
        println!("{name}: {met}; least {least:.3}, median {median:.3}, most {most:.3}");
        for (ratio, job) in missed {
            println!("    {ratio:.3} {job}");
        }
    }
}

const CAPS: [Option<u32>; 4] = [None, Some(3), Some(8), Some(32)];
const SIZES: [usize; 7] = [1000, 2000, 4000, 8000, 16000, 32000, 65536];

fn jobs(folder: &str) -> Vec<Job> {
    let adder = |form: &str, n: u32, cap| {
        let text = std::fs::read_to_string(format!("{folder}/{form}-{n}.pbc")).unwrap();
        line(form, n, &text, cap)
    };
    let mut jobs = Vec::new();
    let mut convert = |workload| jobs.push(Job { what: What::Convert, each: false, workload });
    for (form, cap) in ["cuccaro", "ladder"].into_iter().flat_map(|form| CAPS.map(|cap| (form, cap))) {
        for n in [4, 8, 16, 32, 64, 120] {
            convert(adder(form, n, cap));
        }
    }
    for (qubits, cap) in [16, 64, 256].into_iter().flat_map(|qubits| CAPS.map(|cap| (qubits, cap))) {
        for (lists, gates) in [1, 16].into_iter().flat_map(|lists| SIZES.map(|gates| (lists, gates))) {
            convert(random(qubits, gates, lists, cap));
        }
    }
    let mut read = |each: bool, w: &dyn Fn() -> Workload| {
        let mut job = |what| jobs.push(Job { what, each, workload: w() });
        job(What::Report);
        job(What::Axes);
        if each {
            job(What::Expand);
        }
    };
    for (form, n) in ["cuccaro", "ladder"].into_iter().flat_map(|form| [8, 32, 120].map(|n| (form, n))) {
        for cap in [None, Some(3), Some(8)] {
            read(true, &|| adder(form, n, cap));
        }
    }
    for (qubits, cap) in [16, 64, 256].into_iter().flat_map(|qubits| CAPS.map(|cap| (qubits, cap))) {
        read(false, &|| random(qubits, 4000, 1, cap));
    }
    read(true, &|| random(16, 1000, 1, None));
    read(false, &|| random(64, 32000, 1, Some(8)));
    jobs
}

/// How much longer than the conversion before it takes, ours and the Rust's, for twice the gates, where that is the same but for its size.
fn growth(last: Option<(&Job, &Row)>, job: &Job, row: &Row) -> String {
    let doubled = |j: &Job| {
        let (a, b) = (&j.workload, &job.workload);
        j.what == What::Convert && job.what == What::Convert && a.form == b.form && a.cap == b.cap && a.lists.len() == b.lists.len() && a.gates() < b.gates()
    };
    match last {
        Some((j, r)) if doubled(j) => {
            let half = (2 * j.workload.gates()) as f64 / job.workload.gates() as f64;
            format!("growth {:.2} rust {:.2}", row.ours / r.ours * half, row.rust / r.rust * half)
        }
        _ => String::new(),
    }
}

fn main() {
    let mut words = std::env::args().skip(1);
    let folder = words.next().expect("the folder of the adders");
    let word = words.next().unwrap_or_default();
    let mut jobs = jobs(&folder);
    jobs.retain(|job| job.name().contains(&word));
    if jobs.is_empty() {
        eprintln!("no workload's name contains {word:?}; names are as 'convert cuccaro adder 8 cap none', 'report random 64 qubits 4000 gates cap 8'");
        std::process::exit(2);
    }
    println!("a report or expansion is lent the least pool that serves, a power of two of records from 1,024 on, and four words of scratch a used node");
    keep_pages();
    let mut buffers = Buffers::new();
    let (mut kinds, mut last) = (Vec::new(), None);
    for job in &jobs {
        let Some(row) = job.run(&mut buffers) else { continue };
        print(job, &row, &growth(last.as_ref().map(|(j, r)| (*j, r)), job, &row));
        count(&mut kinds, job, &row);
        last = Some((job, row));
    }
    summary(&mut kinds);
}
