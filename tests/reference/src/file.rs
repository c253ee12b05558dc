//! Document 01, "Cycle file", "Reading a cycle" and "Writing a cycle"; document 02, Req 01: bytes after the last pair.

use crate::{Pair, Refusal};

/// What is left of a file that is read from its front.
struct Rest<'a>(&'a [u8]);

impl Rest<'_> {
    /// The next byte; 18 if there is none.
    fn byte(&mut self) -> Result<u8, Refusal> {
        let (&byte, rest) = self.0.split_first().ok_or(18u32)?;
        self.0 = rest;
        Ok(byte)
    }

    /// The next 2-byte number; 18 if it is cut.
    fn number(&mut self) -> Result<u16, Refusal> {
        Ok(u16::from_be_bytes([self.byte()?, self.byte()?]))
    }

    /// The next field, if its bit stands.
    fn field(&mut self, stands: bool) -> Result<Option<u16>, Refusal> {
        if stands {
            self.number().map(Some)
        } else {
            Ok(None)
        }
    }
}

/// Reads a cycle file for a list of `places` places.
pub fn read(file: &[u8], places: usize) -> Result<Vec<Pair>, Refusal> {
    let mut rest = Rest(file);
    let count = rest.number()? as usize;
    if count == 0 || count > 512 {
        return Err(12);
    }
    if places < count {
        return Err(20);
    }
    let mut pairs: Vec<Pair> = vec![];
    for _ in 0..count {
        let pair = read_pair(&mut rest, pairs.last())?;
        pairs.push(pair);
    }
    if rest.0.is_empty() {
        Ok(pairs)
    } else {
        Err(21)
    }
}

fn read_pair(rest: &mut Rest, before: Option<&Pair>) -> Result<Pair, Refusal> {
    let map = rest.byte()?;
    if map & 0b1111_1100 != 0 || (before.is_none() && map != 0b11) {
        return Err(17);
    }
    let gap = rest.field(map & 1 != 0)?;
    let size = rest.field(map & 2 != 0)?;
    let Some(before) = before else {
        return Ok(Pair { gap: gap.unwrap(), size: size.unwrap() });
    };
    if gap == Some(before.gap) || size == Some(before.size) {
        return Err(19);
    }
    Ok(Pair { gap: gap.unwrap_or(before.gap), size: size.unwrap_or(before.size) })
}

/// The file of a cycle, for `room` lent bytes.
pub fn write(pairs: &[Pair], room: usize) -> Result<Vec<u8>, Refusal> {
    if pairs.is_empty() || pairs.len() > 512 {
        return Err(12);
    }
    let mut file = (pairs.len() as u16).to_be_bytes().to_vec();
    for (i, pair) in pairs.iter().enumerate() {
        let before = (i > 0).then(|| pairs[i - 1]);
        let gap = (before.map(|b| b.gap) != Some(pair.gap)).then_some(pair.gap);
        let size = (before.map(|b| b.size) != Some(pair.size)).then_some(pair.size);
        file.push(u8::from(gap.is_some()) + 2 * u8::from(size.is_some()));
        for number in [gap, size].into_iter().flatten() {
            file.extend(number.to_be_bytes());
        }
    }
    if room < file.len() {
        Err(20)
    } else {
        Ok(file)
    }
}
