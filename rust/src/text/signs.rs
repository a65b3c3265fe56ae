//! The signs of a text, one after the other, and the numbers in them.

use super::{Outside, LINE_END};

/// What of a text has not been read yet.
pub struct Signs<'a> {
    text: &'a [u8],
    /// Where the next sign begins; the text's length where there is none.
    place: usize,
    /// The bytes that stand there.
    next: &'a [u8],
}

impl<'a> Signs<'a> {
    /// All signs of a text.
    pub fn of(text: &'a [u8]) -> Signs<'a> {
        Signs::from(text, 0)
    }

    /// The signs from this place on. "Spaces or line ends may stand between signs and at both
    /// ends."
    fn from(text: &'a [u8], place: usize) -> Signs<'a> {
        let rest = &text[place..];
        let gap = count_while(rest, is_gap);
        let rest = &rest[gap..];
        Signs {
            text,
            place: place + gap,
            next: &rest[..sign_len(rest)],
        }
    }

    /// The bytes of the next sign, or those that stand in its place; none at the end of the text.
    pub fn next(&self) -> &'a [u8] {
        self.next
    }

    /// Goes on to the sign after the next.
    pub fn pass(&mut self) {
        *self = Signs::from(self.text, self.place + self.next.len());
    }

    /// No text goes on with the next sign.
    pub fn fault(&self) -> Outside {
        Outside::At(self.place)
    }

    /// Takes the next sign by what it means, if it means something here.
    pub fn take_as<T>(&mut self, meaning: impl Fn(&[u8]) -> Option<T>) -> Result<T, Outside> {
        let meant = meaning(self.next).ok_or(self.fault())?;
        self.pass();
        Ok(meant)
    }

    /// Takes the next sign, which must be this one.
    pub fn take(&mut self, sign: &[u8]) -> Result<(), Outside> {
        self.take_as(|next| (next == sign).then_some(()))
    }

    pub fn number(&mut self) -> Result<u16, Outside> {
        self.take_as(number_in)
    }

    /// The number of the variable that comes next, as a file has it.
    pub fn variable(&mut self) -> Result<u8, Outside> {
        self.take_as(|sign| subject_in(b"v", sign))
    }

    /// The number of the clock that comes next, as a file has it.
    pub fn clock(&mut self) -> Result<u8, Outside> {
        self.take_as(|sign| subject_in(b"c", sign))
    }
}

/// How many bytes of the front are one sign. Letters and digits that stand together are no more
/// than one: a gap must stand where a letter or digit would follow a word or a number.
fn sign_len(bytes: &[u8]) -> usize {
    match bytes {
        [] => 0,
        [b'!' | b'>', b'=', ..] => 2,
        [first, ..] if is_letter_or_digit(*first) => count_while(bytes, is_letter_or_digit),
        _ => 1,
    }
}

/// "Numbers in decimal up to 65535 without leading zeros", which is as far as 16 bits go.
fn number_in(sign: &[u8]) -> Option<u16> {
    let is_decimal = sign.iter().all(u8::is_ascii_digit);
    let has_leading_zero = sign.len() > 1 && sign[0] == b'0';
    if !is_decimal || has_leading_zero {
        return None;
    }
    std::str::from_utf8(sign).ok()?.parse().ok()
}

/// The number behind a letter. A larger one than a byte can hold is no variable or clock of any
/// program, and neither is the largest that it can hold, so that this one stands for all of them.
fn subject_in(letter: &[u8], sign: &[u8]) -> Option<u8> {
    let number = number_in(sign.strip_prefix(letter)?)?;
    Some(u8::try_from(number).unwrap_or(u8::MAX))
}

fn is_gap(byte: u8) -> bool {
    byte == b' ' || byte == LINE_END
}

fn is_letter_or_digit(byte: u8) -> bool {
    byte.is_ascii_lowercase() || byte.is_ascii_digit()
}

/// How many bytes at the front are such ones.
fn count_while(bytes: &[u8], is_such: fn(u8) -> bool) -> usize {
    bytes.iter().take_while(|&&byte| is_such(byte)).count()
}
