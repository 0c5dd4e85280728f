//! Stand-in: no text form.
pub struct TextOptions;
