/// The bytes of a slice in order, with a count of those taken.
pub struct Counted<'a> {
    bytes: &'a [u8],
    pub taken: usize,
}

impl<'a> Counted<'a> {
    pub fn new(bytes: &'a [u8]) -> Self {
        Self { bytes, taken: 0 }
    }
}

impl Iterator for Counted<'_> {
    type Item = u8;

    fn next(&mut self) -> Option<u8> {
        let byte = *self.bytes.get(self.taken)?;
        self.taken += 1;
        Some(byte)
    }
}
