//! Logical Pauli-based circuits with shared, exact Pauli expressions, over a library that is proved.
//!
//! Every call checks what it is given and answers `Err` with the library's refusal; a refused call changes nothing. The buffers that
//! the library asks its caller to lend are owned here and grow as they are needed, up to the library's limits.
//! Rotation angles use `exp(-i k π/8 P)`, unlike QASM's half-angle convention.
//!
//! A circuit is built call by call ([`PbcCircuit`]), or converted from a list of gates ([`to_pbc`]) or from OpenQASM 2 text ([`read_qasm`]).
//!
//! # Threads
//!
//! Every type here is `Send` and `Sync`: the library has no state of its own, and a walk has scratch of its own. Threads may read one
//! circuit at once; what adds to it wants `&mut`.
//!
//! # Later versions
//!
//! Gates, refusals, operations, nodes and kinds of axes may become more: a match over them has an arm for the rest.
//!
//! ```compile_fail
//! fn is_clifford(kind: pbc::AxisKind) -> bool {
//!     match kind {
//!         pbc::AxisKind::Clifford => true,
//!         pbc::AxisKind::Pi8 | pbc::AxisKind::Measurement => false,
//!     }
//! }
//! ```
//!
//! # Panics
//!
//! [`CliffordFrame::x`] and [`CliffordFrame::z`] panic past the last qubit. Nothing else here panics, but for memory that runs out.
//!
//! ```
//! use pbc::{Pauli, PauliAngle, PbcCircuit};
//! let mut circuit = PbcCircuit::new(2, 1)?;
//! let x = circuit.single(0, Pauli::X)?;
//! let z = circuit.single(1, Pauli::Z)?;
//! let product = circuit.product(x.as_ref(), z.as_ref())?;
//! let axis = circuit.hermitian_axis(product, 1024)?;
//! circuit.rotate(axis, PauliAngle::new(1))?;
//! let outcome = circuit.measure(z, Some(0))?;
//! circuit.conditional_rotate(x, PauliAngle::new(4), outcome)?;
//! assert_eq!(circuit.operations().len(), 3);
//! # Ok::<(), pbc::PbcError>(())
//! ```

#![deny(missing_docs)]

mod circuit;
mod convert;
mod error;
mod ffi;
mod letters;
mod op;
mod qasm;
mod readers;
mod reference;

pub use circuit::{CliffordFrame, PbcCircuit};
pub use convert::{Gate, to_pbc};
pub use error::PbcError;
pub use letters::{Pauli, PauliAngle, Phase};
pub use op::{AxisKind, MeasId, PbcOp};
pub use qasm::{Program, read_qasm};
pub use readers::{ExpandedPauli, MaxAxisWeights};
pub use reference::{PauliAxis, PauliNode, PauliRef};

/// A circuit has at most so many qubits.
pub const MAX_QUBITS: u32 = 256;
/// A circuit has at most so many classical bits.
pub const MAX_CBITS: u32 = 65_536;
/// A circuit has at most so many nodes.
pub const MAX_NODES: usize = 65_536;
/// A circuit has at most so many operations.
pub const MAX_OPERATIONS: usize = 65_536;
