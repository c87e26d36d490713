use crate::{boundary, DecodeError, Reading, Result};
use std::fmt::{self, Display, Formatter};
use std::iter::FusedIterator;

/// The most bytes that an image has: one for each offset.
pub const LONGEST_IMAGE: usize = 65_536;
/// The most bytes that a line has, its LF included.
pub const LONGEST_LINE: usize = 93;

/// What a line call wrote.
#[derive(Clone, Copy, Debug, PartialEq, Eq, Hash)]
#[non_exhaustive]
pub struct Written {
    /// The bytes written, the LF included.
    pub length: usize,
    /// The bytes of the image that the line accounts for. The next line starts behind them.
    pub taken: usize,
}

/// Writes the listing line at a position, with its LF, to the front of `out`, and no byte behind it. It has room for every
/// line where it has [`LONGEST_LINE`] bytes.
///
/// Refused are, in this order, an image that is too long, a position beyond its end, the position at its end, and a buffer
/// with no room for the line. A refused call changes no byte of `out`. Its refusal carries the byte 0, has taken no byte of
/// the image, and has read no prefix.
///
/// ```
/// let mut out = [0; mrc::LONGEST_LINE];
/// let written = mrc::line(&[0x90, 0xF3, 0xA4], 1, &mut out)?;
/// assert_eq!(&out[..written.length], b"0001  F3 A4                  REPE MOVSB\n");
/// assert_eq!(written.taken, 2);
/// # mrc::Result::Ok(())
/// ```
pub fn line(image: &[u8], position: usize, out: &mut [u8]) -> Result<Written> {
    Reading::One.line(image, position, out)
}

/// A listing line, as the line call writes it, with its LF.
#[derive(Clone, Debug, PartialEq, Eq, Hash)]
#[non_exhaustive]
pub struct Line {
    /// The offset in the image at which the line starts.
    pub start: usize,
    /// The bytes of the image that the line accounts for.
    pub taken: usize,
    /// The line's text.
    pub text: String,
}

impl Display for Line {
    fn fmt(&self, f: &mut Formatter<'_>) -> fmt::Result {
        f.write_str(&self.text)
    }
}

/// The lines of an image, from its first byte to its last. An image of more than [`LONGEST_IMAGE`] bytes is refused.
///
/// ```
/// let listing: Vec<String> = mrc::lines(&[0xF3, 0xA4, 0x60])?.map(|line| line.text).collect();
/// assert_eq!(listing[0], "0000  F3 A4                  REPE MOVSB\n");
/// assert_eq!(listing[1], "0002  60                     DB 60\n");
/// # mrc::Result::Ok(())
/// ```
pub fn lines(image: &[u8]) -> Result<Lines<'_>> {
    Reading::One.lines(image)
}

impl Reading {
    /// Writes the listing line at a position in this reading, as [`line`] does in the first.
    #[inline]
    pub fn line(self, image: &[u8], position: usize, out: &mut [u8]) -> Result<Written> {
        let answer = boundary::line(image, position, self.number(), out);
        match (answer >> 32) as u8 {
            0 => Ok(Written {
                length: usize::from(answer as u16),
                taken: usize::from((answer >> 16) as u16),
            }),
            number => Err(DecodeError::from_number(number, 0)),
        }
    }

    /// The lines of an image in this reading, as [`lines`] has them in the first.
    pub fn lines(self, image: &[u8]) -> Result<Lines<'_>> {
        match self.line(image, image.len(), &mut []) {
            Err(DecodeError::ImageTooLong) => Err(DecodeError::ImageTooLong),
            _ => Ok(Lines {
                reading: self,
                image,
                start: 0,
            }),
        }
    }
}

/// The iterator of [`lines`].
#[derive(Clone, Debug)]
#[must_use = "an iterator lists nothing until it is asked"]
pub struct Lines<'a> {
    reading: Reading,
    image: &'a [u8],
    start: usize,
}

impl Iterator for Lines<'_> {
    type Item = Line;

    fn next(&mut self) -> Option<Line> {
        let mut out = [0; LONGEST_LINE];
        let written = match self.reading.line(self.image, self.start, &mut out) {
            Ok(written) => written,
            Err(DecodeError::EndOfInput) => return None,
            Err(refusal) => panic!("a line within the image is refused: {refusal}"),
        };
        let start = self.start;
        self.start += written.taken;
        Some(Line {
            start,
            taken: written.taken,
            text: String::from_utf8_lossy(&out[..written.length]).into_owned(),
        })
    }
}

impl FusedIterator for Lines<'_> {}
