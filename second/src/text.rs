//! The two calls of the written form: a table read from a text, and a text printed from a table.
//! Each answers how many bytes it wrote at the start of its room.

use crate::instant;
use crate::layout::Layout;
use crate::table::Refusal;
use crate::ways;

/// The bytes of the longest table.
const LONGEST: usize = 32_778;

/// Reads a text: refusals 21, 22, then 1 to 8 on its table.
pub fn read(text: &[u8], room: &mut [u8]) -> Result<usize, Refusal> {
    let pieces = ways::read(text).map_err(|offset| Refusal::new(21, offset))?;
    let layout = Layout::new(pieces);
    if layout.length() > room.len().min(LONGEST) {
        return Err(Refusal::new(22, 0));
    }
    let table = layout.bytes();
    instant::check(&table)?;
    room[..table.len()].copy_from_slice(&table);
    Ok(table.len())
}

/// Prints a table: refusals 1 to 8, then 24.
pub fn print(table: &[u8], room: &mut [u8]) -> Result<usize, Refusal> {
    let (program, _) = instant::load(table)?;
    let text = program.root.to_string();
    room.get_mut(..text.len()).ok_or(Refusal::new(24, 0))?.copy_from_slice(text.as_bytes());
    Ok(text.len())
}
