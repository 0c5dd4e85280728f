//! Stand-in: a pass from a circuit to a result.
use crate::circuit::Circuit;

pub trait Pass<T = Circuit> {
    fn name(&self) -> &str;
    fn run(&self, circuit: &Circuit) -> T;
}
