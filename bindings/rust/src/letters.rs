//! Letters, phases and angles.

use crate::ffi;
use std::fmt;
use std::ops::{Add, Mul, Neg};

/// Exact phase multiplying a Pauli expression, distinct from a rotation angle. Ordered by the power of i.
///
/// ```
/// use pbc::Phase;
/// assert_eq!(Phase::I * Phase::I, Phase::MinusOne);
/// assert_eq!(Phase::MinusI.to_string(), "-i");
/// ```
#[derive(Clone, Copy, Debug, Default, PartialEq, Eq)]
pub enum Phase {
    /// 1.
    #[default]
    One,
    /// i.
    I,
    /// -1.
    MinusOne,
    /// -i.
    MinusI,
}

impl Phase {
    /// The power of i with this number, modulo 4.
    pub(crate) fn power(number: u32) -> Self {
        [Self::One, Self::I, Self::MinusOne, Self::MinusI][number as usize % 4]
    }
}

impl Mul for Phase {
    type Output = Self;

    // The powers of i add up.
    #[allow(clippy::suspicious_arithmetic_impl)]
    fn mul(self, rhs: Self) -> Self {
        Self::power(self as u32 + rhs as u32)
    }
}

impl fmt::Display for Phase {
    fn fmt(&self, f: &mut fmt::Formatter<'_>) -> fmt::Result {
        f.write_str(["+", "+i", "-", "-i"][*self as usize])
    }
}

/// A Pauli matrix of one qubit, or the identity.
#[derive(Clone, Copy, Debug, PartialEq, Eq)]
pub enum Pauli {
    /// The identity.
    I,
    /// The bit flip.
    X,
    /// i times X times Z.
    Y,
    /// The phase flip.
    Z,
}

impl Pauli {
    pub(crate) fn of(number: u32) -> Self {
        [Self::I, Self::X, Self::Y, Self::Z][number as usize % 4]
    }

    /// The product `self` times `other`, as a phase and a letter.
    ///
    /// ```
    /// use pbc::{Pauli, Phase};
    /// assert_eq!(Pauli::X.times(Pauli::Y), (Phase::I, Pauli::Z));
    /// ```
    pub fn times(self, other: Self) -> (Phase, Self) {
        let product = ffi::pbc_times(self as u32, other as u32);
        (Phase::power(product / 4), Self::of(product % 4))
    }
}

impl fmt::Display for Pauli {
    fn fmt(&self, f: &mut fmt::Formatter<'_>) -> fmt::Result {
        f.write_str(["I", "X", "Y", "Z"][*self as usize])
    }
}

/// Exact multiples of π/8 modulo π, ignoring global phase.
///
/// ```
/// use pbc::PauliAngle;
/// let angle = PauliAngle::new(-1) + PauliAngle::new(3);
/// assert_eq!((angle.eighths(), angle.to_string().as_str()), (2, "pi/4"));
/// assert_eq!((-angle).signed_eighths(), -2);
/// ```
#[derive(Clone, Copy, Debug, Default, PartialEq, Eq)]
pub struct PauliAngle(u8);

impl PauliAngle {
    /// The Euclidean remainder by 8.
    pub fn new(eighths: i64) -> Self {
        Self(ffi::pbc_angle(eighths) as u8)
    }

    /// The angle as `k π/8` with `0 <= k < 8`.
    pub fn eighths(self) -> u8 {
        self.0
    }

    /// The angle as `k π/8` with `-3 <= k <= 4`.
    pub fn signed_eighths(self) -> i8 {
        let k = self.0 as i8;
        if k > 4 { k - 8 } else { k }
    }
}

impl Add for PauliAngle {
    type Output = Self;

    fn add(self, rhs: Self) -> Self {
        Self::new(i64::from(self.0) + i64::from(rhs.0))
    }
}

impl Neg for PauliAngle {
    type Output = Self;

    fn neg(self) -> Self {
        Self::new(-i64::from(self.0))
    }
}

impl fmt::Display for PauliAngle {
    fn fmt(&self, f: &mut fmt::Formatter<'_>) -> fmt::Result {
        f.write_str(["0", "pi/8", "pi/4", "3pi/8", "pi/2", "-3pi/8", "-pi/4", "-pi/8"][self.0 as usize])
    }
}
