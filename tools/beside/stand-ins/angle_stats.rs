//! Stand-in: nothing is counted.
pub fn certified_synthesis(_epsilon: f64) {}
pub fn certification_failure() {}
