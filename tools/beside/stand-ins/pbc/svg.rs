//! Stand-in: no drawing.
pub struct SvgOptions;
