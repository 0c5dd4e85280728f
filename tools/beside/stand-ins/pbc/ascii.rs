//! Stand-in: no drawing.
pub struct AsciiOptions;
