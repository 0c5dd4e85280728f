//! The functions of libexports.a, as bindings/c/pbc.h describes them: each takes slices, and answers its values or its refusal.
//!
//! What the library asks of its caller is that each pointer leads to as many words as the length beside it says, and that slices which
//! it may write overlap no other. Borrowed slices are so, and nowhere else are they taken apart.

use crate::error::PbcError;

/// The values of an accepted call, then zeros.
pub type Answer = Result<[u64; 4], PbcError>;

/// Declares functions of the library. A slice passes as a pointer and a length, and the answer's words come last.
/// The lists in brackets grow by one argument at a time: what Rust takes, what C declares, what is passed on.
macro_rules! library {
    ($(fn $name:ident($($arguments:tt)*);)*) => {
        $(library!(@ $name [] [] [] $($arguments)*,);)*
    };
    (@ $name:ident [$($taken:tt)*] [$($declared:tt)*] [$($passed:tt)*] $slice:ident: &mut [$word:ty], $($rest:tt)*) => {
        library!(@ $name [$($taken)* $slice: &mut [$word],] [$($declared)* _: *mut $word, _: usize,]
            [$($passed)* $slice.as_mut_ptr(), $slice.len(),] $($rest)*);
    };
    (@ $name:ident [$($taken:tt)*] [$($declared:tt)*] [$($passed:tt)*] $slice:ident: &[$word:ty], $($rest:tt)*) => {
        library!(@ $name [$($taken)* $slice: &[$word],] [$($declared)* _: *const $word, _: usize,]
            [$($passed)* $slice.as_ptr(), $slice.len(),] $($rest)*);
    };
    (@ $name:ident [$($taken:tt)*] [$($declared:tt)*] [$($passed:tt)*] $number:ident: $type:ty, $($rest:tt)*) => {
        library!(@ $name [$($taken)* $number: $type,] [$($declared)* _: $type,] [$($passed)* $number,] $($rest)*);
    };
    (@ $name:ident [$($taken:tt)*] [$($declared:tt)*] [$($passed:tt)*]) => {
        #[allow(clippy::too_many_arguments)]
        pub fn $name($($taken)*) -> Answer {
            unsafe extern "C" {
                fn $name($($declared)* _: *mut u64, _: usize) -> u32;
            }
            let mut answer = [0; 4];
            match unsafe { $name($($passed)* answer.as_mut_ptr(), answer.len()) } {
                0 => Ok(answer),
                number => Err(PbcError::of(number, answer)),
            }
        }
    };
}

unsafe extern "C" {
    pub safe fn pbc_angle(eighths: i64) -> u32;
    pub safe fn pbc_times(a: u32, b: u32) -> u32;
}

library! {
    fn pbc_new(qubits: u32, cbits: u32, owner: u64, nodes: &mut [u32], frame: &mut [u32], header: &mut [u64]);
    fn pbc_single(header: &mut [u64], nodes: &mut [u32], qubit: u32, letter: u32);
    fn pbc_product(header: &mut [u64], nodes: &mut [u32], left_owner: u64, left: u32, right_owner: u64, right: u32);
    fn pbc_rotate(header: &mut [u64], operations: &mut [u32], owner: u64, word: u32, angle: i64);
    fn pbc_measure(header: &mut [u64], operations: &mut [u32], owner: u64, word: u32, target: u64);
    fn pbc_conditional_rotate(
        header: &mut [u64], operations: &mut [u32], owner: u64, word: u32, angle: i64, measurement_owner: u64, measurement: u32
    );
    fn pbc_expand(
        header: &[u64], nodes: &[u32], letters: &mut [u8], scratch: &mut [u32], pool: &mut [u32], owner: u64, word: u32, max_cells: u64
    );
    fn pbc_hermitian_axis(
        header: &[u64], nodes: &[u32], scratch: &mut [u32], pool: &mut [u32], owner: u64, word: u32, limit: u64
    );
    fn pbc_max_axis_weights(
        header: &[u64], nodes: &[u32], operations: &[u32], scratch: &mut [u32], pool: &mut [u32], limit: u64
    );
    fn pbc_max_axis_weights_by_kind(
        header: &[u64], nodes: &[u32], operations: &[u32], scratch: &mut [u32], pool: &mut [u32], limit: u64
    );
    fn pbc_expand_axes(
        header: &[u64], nodes: &[u32], operations: &[u32], rows: &mut [u8], scratch: &mut [u32], pool: &mut [u32], limit: u64
    );
    fn pbc_read_qasm(text: &[u8], gates: &mut [u32]);
    fn pbc_text_position(text: &[u8], place: u64);
    fn pbc_push_output_clifford(header: &mut [u64], nodes: &mut [u32], frame: &mut [u32], kind: u32, a: u32, b: u32);
    fn pbc_convert(
        qubits: u32, cbits: u32, owner: u64, cap: u64, gates: &[u32], nodes: &mut [u32], operations: &mut [u32], frame: &mut [u32],
        planes: &mut [u64], header: &mut [u64]
    );
}
