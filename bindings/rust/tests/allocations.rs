//! A conversion and a text's reading allocate their words once, and keep those in use.

use pbc::{Gate, Gate::*, read_qasm, to_pbc};
use std::alloc::{GlobalAlloc, Layout, System};
use std::cell::Cell;
use std::num::NonZeroU32;

/// Allocations below this are of other things.
const LARGE: usize = 4096;

struct Counting;

// Of this thread: the test harness has others.
thread_local! {
    static MADE: Cell<usize> = const { Cell::new(0) };
    static GROWN: Cell<usize> = const { Cell::new(0) };
    static HELD: Cell<usize> = const { Cell::new(0) };
}

fn count(made: bool, grown: bool, more: usize, less: usize) {
    MADE.set(MADE.get() + usize::from(made));
    GROWN.set(GROWN.get() + usize::from(grown));
    HELD.set(HELD.get().wrapping_add(more).wrapping_sub(less));
}

unsafe impl GlobalAlloc for Counting {
    unsafe fn alloc(&self, layout: Layout) -> *mut u8 {
        count(layout.size() >= LARGE, false, layout.size(), 0);
        unsafe { System.alloc(layout) }
    }

    unsafe fn alloc_zeroed(&self, layout: Layout) -> *mut u8 {
        count(layout.size() >= LARGE, false, layout.size(), 0);
        unsafe { System.alloc_zeroed(layout) }
    }

    unsafe fn dealloc(&self, words: *mut u8, layout: Layout) {
        count(false, false, 0, layout.size());
        unsafe { System.dealloc(words, layout) }
    }

    unsafe fn realloc(&self, words: *mut u8, layout: Layout, size: usize) -> *mut u8 {
        count(false, size >= LARGE && size > layout.size(), size, layout.size());
        unsafe { System.realloc(words, layout, size) }
    }
}

#[global_allocator]
static COUNTING: Counting = Counting;

#[test]
fn a_conversion_allocates_once() {
    let mut gates: Vec<Gate> = (0..3_000).map(|i| [H(i % 64), Cnot(i % 64, (i + 7) % 64), T((i + 3) % 64)][i as usize % 3]).collect();
    gates.extend([Ccx(0, 1, 2), Swap(3, 4), Measure(5, 0)]);
    for cap in [None, NonZeroU32::new(8)] {
        let (made, grown, held) = (MADE.get(), GROWN.get(), HELD.get());
        let circuit = to_pbc(64, 1, &gates, cap).unwrap();
        // The gates' words, the nodes and the operations; the planes and the frame are small.
        assert_eq!((MADE.get() - made, GROWN.get() - grown), (3, 0));
        let in_use = 8 * circuit.pauli_nodes().len() + 20 * circuit.operations().len() + 4 * 128;
        assert_eq!(HELD.get().wrapping_sub(held), in_use);
    }
}

#[test]
fn a_text_is_read_at_once() {
    let text = format!("OPENQASM 2.0;include \"qelib1.inc\";qreg q[2];creg c[1];{}", "cx q[0],q[1];\n".repeat(1_000));
    let (made, grown, held) = (MADE.get(), GROWN.get(), HELD.get());
    let program = read_qasm(&text).unwrap();
    // The gates' words, and the gates.
    assert_eq!((MADE.get() - made, GROWN.get() - grown), (2, 0));
    assert_eq!(HELD.get().wrapping_sub(held), 1_000 * size_of::<Gate>());
    drop(program);
}
