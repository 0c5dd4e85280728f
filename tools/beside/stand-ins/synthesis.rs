//! Stand-in: no rotation is synthesized.
use crate::angle::Angle;
use crate::circuit::Gate;

#[derive(Clone, Copy, PartialEq)]
pub enum Scale {
    Half,
    NegativeHalf,
}

pub fn verify_controlled(_gate: &Gate, _gates: &[Gate], _epsilon: f64) -> Result<(), String> {
    Err("not synthesized".into())
}
pub fn synthesize(_theta: &Angle, _epsilon: f64) -> Result<Vec<char>, String> {
    Err("not synthesized".into())
}
pub fn synthesize_scaled(_theta: &Angle, _scale: Scale, _epsilon: f64) -> Result<Vec<char>, String> {
    Err("not synthesized".into())
}
