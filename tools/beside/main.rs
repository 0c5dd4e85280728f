//! The Rust of the stage behind the lines of the command pbc.
//!
//!     beside answer                reads commands, writes answers
//!     beside generate SEED LINES   writes commands: circuits, later calls and walks, with the exact limit of each walk and one below
//!     beside stores SEED LINES     writes commands: stored circuits with fifth words of all sorts, calls on them and walks
//!     beside exhaust QUBITS GATES  writes every gate list of so many gates over so few qubits, with its walks
#![allow(dead_code, unused_imports, unused_variables)]

mod angle;
mod angle_stats;
mod circuit;
mod decompose;
mod driver;
mod generate;
mod operands;
mod pass;
mod pbc;
mod qasm;
mod synthesis;

fn main() {
    let words: Vec<String> = std::env::args().skip(1).collect();
    let number = |k: usize| words.get(k).and_then(|w| w.parse().ok());
    match (words.first().map(String::as_str), number(1), number(2)) {
        (Some("answer"), None, None) => driver::answer(),
        (Some("generate"), Some(seed), Some(lines)) => generate::generate(seed, lines),
        (Some("stores"), Some(seed), Some(lines)) => generate::stores(seed, lines),
        (Some("exhaust"), Some(qubits), Some(gates)) => generate::exhaust(qubits, gates),
        _ => {
            eprintln!("usage: beside answer | generate SEED LINES | stores SEED LINES | exhaust QUBITS GATES");
            std::process::exit(2);
        }
    }
}
