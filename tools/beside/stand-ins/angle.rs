//! Stand-in: angles that are no quarter turn, so that no gate with an angle is converted.
use std::fmt;

#[derive(Clone, Debug, PartialEq)]
pub struct Angle(f64);

#[derive(Clone, Debug, PartialEq)]
pub struct AngleError;

#[derive(PartialEq)]
pub enum Proof {
    Proven,
    Open,
}

pub enum RotationPeriod {
    TwoPi,
    FourPi,
}

impl Angle {
    pub fn from_f64(theta: f64) -> Result<Self, AngleError> {
        Ok(Self(theta))
    }
    pub fn projective_quarters(&self) -> Option<u8> {
        None
    }
    pub fn try_emit(&self, _q: u32, _emit: &mut dyn FnMut(crate::circuit::Gate) -> bool) -> bool {
        false
    }
    pub fn prove_identity(&self, _period: RotationPeriod) -> Proof {
        Proof::Open
    }
    pub fn checked_half(&self) -> Result<Self, AngleError> {
        Err(AngleError)
    }
    pub fn literal_neg(&self) -> Result<Self, AngleError> {
        Err(AngleError)
    }
    pub fn literal_eq(&self, other: &Self) -> bool {
        self == other
    }
    pub fn rotation_gates(&self, _q: u32) -> Vec<crate::circuit::Gate> {
        Vec::new()
    }
}

impl fmt::Display for Angle {
    fn fmt(&self, f: &mut fmt::Formatter<'_>) -> fmt::Result {
        self.0.fmt(f)
    }
}

impl fmt::Display for AngleError {
    fn fmt(&self, f: &mut fmt::Formatter<'_>) -> fmt::Result {
        f.write_str("no angle")
    }
}
