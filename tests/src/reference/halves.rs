//! Document 02, Ask 7: "one operation that fills in and one that pads".

use super::{
    check_lines_and_speed, check_row_and_column, fill_in, pad_count, require, split_padding, write,
    write_with_pads, Padding, Position, Refusal, OUT_OF_RANGE,
};

/// "What goes between them holds the delay, its star and the finished bytes apart, so that a leading
/// digit can't be read as padding again." The delay is in tenths, before its star.
#[derive(Clone, Debug, PartialEq, Eq)]
pub struct Finished {
    pub delay: u64,
    pub star: bool,
    pub bytes: Vec<u8>,
}

/// The first half. "12 for row and column, 13, the body's faults": lines and speed are not known yet.
pub fn finish(command: &[u8], position: Position) -> Result<Finished, Refusal> {
    check_row_and_column(position.row, position.column)?;
    let (padding, body) = split_padding(command)?;
    let bytes = fill_in(body, position)?;
    Ok(Finished { delay: padding.tenths, star: padding.starred, bytes })
}

/// The first half into a buffer: 9 where the finished bytes don't fit.
pub fn fill(command: &[u8], position: Position, out: &mut [u8]) -> Result<Finished, Refusal> {
    let finished = finish(command, position)?;
    write(&finished.bytes, out)?;
    Ok(finished)
}

/// The pads of the second half. "Handed to the second half, a delay over 99,999 tenths before its
/// star is 12 as well."
pub fn pads(delay: u64, star: bool, lines: u64, speed: u64) -> Result<u64, Refusal> {
    require(delay <= 99_999, OUT_OF_RANGE)?;
    check_lines_and_speed(lines, speed)?;
    Ok(pad_count(Padding { tenths: delay, starred: star }, lines, speed))
}

/// The second half: the bytes go out as they stand.
pub fn pad(
    finished: &Finished,
    lines: u64,
    speed: u64,
    pad: u8,
    out: &mut [u8],
) -> Result<usize, Refusal> {
    let pads = pads(finished.delay, finished.star, lines, speed)?;
    write_with_pads(&finished.bytes, pads, pad, out)
}
