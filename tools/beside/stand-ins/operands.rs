//! `qubit_operands` is named by the files but stands in none of them: the operands in declared order, of a measurement its qubit alone.
use crate::circuit::{Gate, Qubit};

pub fn qubit_operands(gate: &Gate) -> (usize, [Qubit; 3]) {
    match *gate {
        Gate::x(q)
        | Gate::h(q)
        | Gate::s(q)
        | Gate::sdg(q)
        | Gate::z(q)
        | Gate::t(q)
        | Gate::tdg(q)
        | Gate::rz(_, q)
        | Gate::p(_, q)
        | Gate::rx(_, q)
        | Gate::ry(_, q)
        | Gate::y(q)
        | Gate::sx(q)
        | Gate::reset(q)
        | Gate::measure { qubit: q, .. } => (1, [q, 0, 0]),
        Gate::cnot { control, target }
        | Gate::cz { control, target }
        | Gate::cy { control, target }
        | Gate::ch { control, target }
        | Gate::cp { control, target, .. }
        | Gate::crx { control, target, .. }
        | Gate::cry { control, target, .. }
        | Gate::crz { control, target, .. } => (2, [control, target, 0]),
        Gate::swap(a, b) => (2, [a, b, 0]),
        Gate::ccx { control1, control2, target } | Gate::ccz { control1, control2, target } => {
            (3, [control1, control2, target])
        }
        Gate::cswap { control, first, second } => (3, [control, first, second]),
    }
}
