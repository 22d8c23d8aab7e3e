//! A text that is read once: words are cut and numbers taken where the reading is.

/// A text and how far it is read.
pub struct Text<'a> {
    bytes: &'a [u8],
    at: usize,
    /// Whether quantities have units, as in the second form of the language.
    pub has_units: bool,
}

/// The units of what a place counts: each by its word, with the power of ten that it is.
pub type Units = [(&'static [u8], u32)];
pub const MICROMETRES: &Units = &[(b"m", 6), (b"cm", 4), (b"mm", 3), (b"um", 0)];
pub const MILLIMETRES: &Units = &[(b"m", 3), (b"cm", 1), (b"mm", 0)];
pub const MILLISECONDS: &Units = &[(b"s", 3), (b"ms", 0)];

/// Eight bytes that are all this one.
const fn eight(byte: u8) -> u64 {
    u64::from_le_bytes([byte; 8])
}

impl<'a> Text<'a> {
    pub fn new(bytes: &'a [u8]) -> Text<'a> {
        Text { bytes, at: 0, has_units: false }
    }

    /// The next byte. The end of the text reads as a line feed.
    fn peek(&self) -> u8 {
        self.bytes.get(self.at).copied().unwrap_or(b'\n')
    }

    pub fn is_done(&self) -> bool {
        self.at >= self.bytes.len()
    }

    /// Takes the next byte.
    pub fn byte(&mut self) -> u8 {
        let byte = self.peek();
        self.at += 1;
        byte
    }

    fn skip_blanks(&mut self) {
        while matches!(self.peek(), b' ' | b'\t' | b'\r') {
            self.at += 1;
        }
    }

    /// The next word of the line, or no bytes where the line has no more.
    pub fn word(&mut self) -> &'a [u8] {
        self.skip_blanks();
        let rest = &self.bytes[self.at.min(self.bytes.len())..];
        let length = rest.iter().position(|b| !matches!(b, b'!' | b'"' | b'$'..=b'~')).unwrap_or(rest.len());
        self.at += length;
        &rest[..length]
    }

    /// Steps over the end of the line, and a comment before it.
    pub fn end_line(&mut self) {
        self.skip_blanks();
        if self.peek() == b'#' {
            while matches!(self.peek(), b'\t' | b'\r' | b' '..=b'~') {
                self.at += 1;
            }
        }
        assert!(self.peek() == b'\n', "the end of a line");
        self.at += 1;
    }

    /// The eight bytes that come next, the first one in the lowest place, and 0 where the text has ended.
    fn eight_bytes(&self) -> u64 {
        match self.bytes.get(self.at..).and_then(|rest| rest.first_chunk()) {
            Some(bytes) => u64::from_le_bytes(*bytes),
            None => self.last_bytes(),
        }
    }

    #[cold]
    fn last_bytes(&self) -> u64 {
        let rest = self.bytes.get(self.at..).unwrap_or_default();
        rest.iter().rev().fold(0, |sum, byte| sum << 8 | u64::from(*byte))
    }

    /// Takes the digits that come next, at most eight, as a number, with how many they are. Bytes that aren't digits
    /// are shifted out of eight bytes, and pairs, fours and eights of digits become numbers side by side.
    #[inline(always)]
    fn digits(&mut self) -> (u64, u32) {
        let values = self.eight_bytes() ^ eight(b'0');
        let others = (values.wrapping_add(eight(0x76)) | values) & eight(0x80);
        let count = others.trailing_zeros() / 8;
        self.at += count as usize;
        let digits = values.wrapping_shl(64 - 8 * count);
        let pairs = digits.wrapping_mul(10).wrapping_add(digits >> 8) & 0x00FF_00FF_00FF_00FF;
        let fours = (pairs.wrapping_mul(100) + (pairs >> 16)) & 0x0000_FFFF_0000_FFFF;
        ((fours.wrapping_mul(10_000) + (fours >> 32)) & 0xFFFF_FFFF, count)
    }

    /// Takes the digits after eight, which are this number.
    #[cold]
    fn long_number(&mut self, size: u64) -> (u64, u32) {
        let (more, count) = self.digits();
        (size * 10_u64.pow(count) + more, 8 + count)
    }

    /// The next word as a whole number between two others, of at most twelve digits.
    #[inline(always)]
    pub fn number(&mut self, low: i64, high: i64) -> i64 {
        self.skip_blanks();
        let is_negative = self.peek() == b'-';
        self.at += usize::from(is_negative);
        let (mut size, mut count) = self.digits();
        if count == 8 && self.peek().is_ascii_digit() {
            (size, count) = self.long_number(size);
        }
        assert!(1 <= count && count <= 12 && matches!(self.peek(), b' ' | b'\n' | b'\t' | b'\r' | b'#'), "a number");
        let value = if is_negative { -(size as i64) } else { size as i64 };
        assert!(low <= value && value <= high, "a number in its bounds");
        value
    }

    /// The next word as a quantity between two others: a whole number, or one with a unit.
    #[inline(always)]
    pub fn quantity(&mut self, low: i64, high: i64, units: &Units) -> i64 {
        if !self.has_units {
            return self.number(low, high);
        }
        let value = self.measured(units);
        assert!(low <= value && value <= high, "a quantity in its bounds");
        value
    }

    /// The next word as a decimal number with a unit. Zero needs none.
    fn measured(&mut self, units: &Units) -> i64 {
        self.skip_blanks();
        let is_negative = self.peek() == b'-';
        self.at += usize::from(is_negative);
        let (whole, _) = self.digits();
        let has_point = self.peek() == b'.';
        self.at += usize::from(has_point);
        let (rest, places) = if has_point { self.digits() } else { (0, 0) };
        let unit = self.word();
        let power = units.iter().find(|(word, _)| *word == unit).map_or(0, |(_, power)| *power);
        assert!((power >= places && !unit.is_empty()) || whole + rest == 0, "a quantity");
        let size = whole * 10_u64.pow(power) + rest * 10_u64.pow(power.saturating_sub(places));
        if is_negative { -(size as i64) } else { size as i64 }
    }
}
