//! OpenQASM 2 text.

use crate::circuit::PbcCircuit;
use crate::convert::{Gate, to_pbc};
use crate::error::PbcError;
use crate::ffi;
use std::num::NonZeroU32;

/// The four words of a gate.
const GATE_WORDS: usize = 4;

/// What a text says: the sizes of its two registers, and its gates.
#[derive(Clone, Debug, PartialEq, Eq)]
pub struct Program {
    /// The size of the `qreg`.
    pub qubits: u32,
    /// The size of the `creg`.
    pub cbits: u32,
    /// The gates, in order.
    pub gates: Vec<Gate>,
}

impl Program {
    /// The circuit of these gates, as [`to_pbc`] makes it.
    ///
    /// # Errors
    ///
    /// As `to_pbc`.
    pub fn to_pbc(&self, max_weight: Option<NonZeroU32>) -> Result<PbcCircuit, PbcError> {
        to_pbc(self.qubits, self.cbits, &self.gates, max_weight)
    }
}

/// Reads OpenQASM 2 text, of this subset: `OPENQASM 2.0;`, `include "qelib1.inc";`, one `qreg` and then one `creg`, then h, x, y, z, s, sdg,
/// t, tdg, cx, cy, cz, ccx on bits of the first, and `measure` from one of them to one of the second; comments begin with `//`.
/// Whether operands are in range and differ is tested by the conversion. O(text).
///
/// ```
/// use pbc::{Gate, PbcError, read_qasm};
///
/// let text = r#"OPENQASM 2.0;
/// include "qelib1.inc";
/// qreg q[2];
/// creg c[1];
/// cx q[0],q[1]; t q[1];
/// measure q[0] -> c[0];
/// "#;
/// let program = read_qasm(text)?;
/// assert_eq!((program.qubits, program.cbits), (2, 1));
/// assert_eq!(program.gates, [Gate::Cnot(0, 1), Gate::T(1), Gate::Measure(0, 0)]);
/// let circuit = program.to_pbc(None)?;
/// assert_eq!(circuit.axes(100)?[0].to_string(), "+ZZ");
///
/// let refusal = read_qasm(text.replace(" t ", " rx(0.5) ")).unwrap_err();
/// assert_eq!(refusal, PbcError::BadText { place: 72, line: 5, column: 15 });
/// assert_eq!(refusal.to_string(), "line 5, column 15: no statement of the subset begins here");
/// # Ok::<(), PbcError>(())
/// ```
///
/// # Errors
///
/// `BadText`, with the place of the first statement outside the subset, or the text's length where it ends before the `creg`.
pub fn read_qasm(text: impl AsRef<[u8]>) -> Result<Program, PbcError> {
    let text = text.as_ref();
    // A gate ends with a semicolon of its own.
    let most = text.iter().filter(|&&byte| byte == b';').count();
    let mut words = vec![0; GATE_WORDS * most];
    let [count, qubits, cbits, _] = ffi::pbc_read_qasm(text, &mut words).map_err(|refusal| refusal.located(text))?;
    let gates = words.chunks_exact(GATE_WORDS).take(count as usize).map(Gate::read).collect();
    Ok(Program { qubits: qubits as u32, cbits: cbits as u32, gates })
}
