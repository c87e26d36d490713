/// A location in a segmented memory model.
#[derive(Clone, Copy, Debug, PartialEq, Eq, Hash)]
pub struct Address {
    /// The segment, in units of sixteen bytes.
    pub segment: u16,
    /// The offset within the segment.
    pub offset: u16,
}

impl Address {
    /// The location at an offset of a segment.
    #[must_use]
    pub fn new(segment: u16, offset: u16) -> Self {
        Self { segment, offset }
    }
}
