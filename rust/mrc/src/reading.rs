/// How bytes are read. The functions of this crate that decode or list read as [`Reading::One`]; each is also a method here.
///
/// ```
/// use mrc::Reading;
///
/// let image = [0x83, 0xC0, 0xFF, 0x26, 0xA4, 0xFF, 0x67, 0x00];
/// let text = |reading: Reading| -> mrc::Result<Vec<String>> {
///     Ok(reading.lines(&image)?.map(|line| line.text[29..].to_string()).collect())
/// };
/// assert_eq!(text(Reading::One)?, ["ADD AX, 00FF\n", "DB 26\n", "MOVSB\n", "JMP WORD DS:[BX]\n"]);
/// assert_eq!(text(Reading::Two)?, ["ADD AX, FFFF\n", "ES: MOVSB\n", "JMP WORD DS:[BX+00]\n"]);
/// # mrc::Result::Ok(())
/// ```
#[derive(Clone, Copy, Debug, Default, PartialEq, Eq, Hash)]
pub enum Reading {
    /// As mrc_decoder reads.
    #[default]
    One,
    /// As Intel's manual reads: 83 extends the sign of its byte; memory through BP is in SS unless an override says
    /// otherwise; D2 and D3 count in CL; C2 has an immediate; ESC has the ModRM's operand, a word; and an override before
    /// MOVS, CMPS, LODS or XLATB is kept. Its lines have a displacement of 0 that was written, `[BX+00]` or `[BX+0000]`, where
    /// the others have `[BX]`. All else is as in the other reading.
    Two,
}

impl Reading {
    /// The reading's number at the boundary.
    #[inline]
    pub(crate) fn number(self) -> u8 {
        match self {
            Self::One => 1,
            Self::Two => 2,
        }
    }
}
