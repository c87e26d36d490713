use crate::{boundary, Reading};

/// What a page call wrote.
#[derive(Clone, Copy, Debug, PartialEq, Eq, Hash)]
#[must_use]
#[non_exhaustive]
pub struct Page {
    /// The bytes written: whole lines, each with its LF.
    pub length: usize,
    /// The bytes of the image that these lines account for. The next line starts behind them.
    pub taken: usize,
}

/// Writes listing lines, as many whole ones as fit, to the front of `out`, and no byte behind them.
///
/// Both counts are 0, and nothing is written, where no line starts at the position, where the image has more than
/// [`LONGEST_IMAGE`](crate::LONGEST_IMAGE) bytes, and where the first line has no room. [`line`](crate::line) says which of
/// these it is. A buffer of [`LONGEST_LINE`](crate::LONGEST_LINE) bytes has room for every line.
///
/// ```
/// let mut out = [0; 100];
/// let page = mrc::page(&[0xF3, 0xA4, 0x60, 0x90], 0, &mut out);
/// let text = "0000  F3 A4                  REPE MOVSB\n0002  60                     DB 60\n";
/// assert_eq!(&out[..page.length], text.as_bytes());
/// assert_eq!(page.taken, 3);
/// ```
pub fn page(image: &[u8], position: usize, out: &mut [u8]) -> Page {
    Reading::One.page(image, position, out)
}

impl Reading {
    /// Writes listing lines in this reading, as [`page`] does in the first.
    pub fn page(self, image: &[u8], position: usize, out: &mut [u8]) -> Page {
        let answer = boundary::page(image, position, self.number(), out);
        Page {
            length: (answer & 0xFFFF_FFFF) as usize,
            taken: (answer >> 32) as usize,
        }
    }
}
