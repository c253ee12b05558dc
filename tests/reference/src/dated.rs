//! Document 02, Req 13: "The carrier now puts a 2-byte issue day, high byte first, before a cycle file. We lend two such files and want back
//! the cycle part of the one in force."

use crate::{file, Refusal};
use std::cmp::Ordering;

/// A file that can be read: its issue day, and the cycle file behind it.
pub struct Dated<'a> {
    day: u16,
    part: &'a [u8],
}

/// "judged with 512 places", "18 where there is no whole day"
pub fn read(file: &[u8]) -> Result<Dated<'_>, Refusal> {
    let [high, low, part @ ..] = file else { return Err(18) };
    file::read(part, 512)?;
    Ok(Dated { day: u16::from_be_bytes([*high, *low]), part })
}

/// Which file is in force, 1 or 2, and its cycle part. "A file that can't be read .. gives way to one that can"; "Two unreadable ones give
/// the first file's number".
fn chosen<'a>(first: &'a [u8], second: &'a [u8]) -> Result<(u32, &'a [u8]), Refusal> {
    match (read(first), read(second)) {
        (Ok(one), Ok(other)) => match one.day.cmp(&other.day) {
            // "Of two readable ones the later day counts"
            Ordering::Greater => Ok((1, one.part)),
            Ordering::Less => Ok((2, other.part)),
            // "equal files, the first"; "29 when both can be read, have the same day and differ"
            Ordering::Equal if first == second => Ok((1, one.part)),
            Ordering::Equal => Err(29),
        },
        (Ok(one), Err(_)) => Ok((1, one.part)),
        (Err(_), Ok(other)) => Ok((2, other.part)),
        (Err(refusal), Err(_)) => Err(refusal),
    }
}

/// "One call tells which file or the number"
pub fn in_force(first: &[u8], second: &[u8]) -> Result<u32, Refusal> {
    chosen(first, second).map(|(which, _)| which)
}

/// "a second hands back the part, empty at a refusal"
pub fn part<'a>(first: &'a [u8], second: &'a [u8]) -> &'a [u8] {
    chosen(first, second).map_or(&[], |(_, part)| part)
}
