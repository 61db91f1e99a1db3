//! The text of the listing.

use super::memory;
use crate::convert::hex;
use crate::lent::Lent;
use crate::tally::Tally;
use dayunglipo::TEXT_BYTES;

pub fn listing(tally: &mut Tally, bytes: &[u8], room: usize) {
    let bytes: Box<[u8]> = bytes.into();
    let mut text = Lent::<u8>::new(room, true);
    let mut text_wanted = text.clone();
    let got = dayunglipo::listing(&bytes, text.part());
    let (refusal, wanted) = expected(&bytes, text_wanted.part());
    let line = || format!("{} room {room}", hex(&bytes));
    tally.count("listing", refusal);
    tally.same("listing", &got, &wanted, line);
    memory(tally, "listing", &text, &text_wanted, line);
}

/// The second program's text and what becomes of the memory; the refusal
/// number, or 11 where the buffer is too short, and the length.
fn expected(bytes: &[u8], text: &mut [u8]) -> (u32, usize) {
    if text.len() < TEXT_BYTES {
        return (11, 0);
    }
    let refusal = second::read(bytes).err().unwrap_or(0);
    let wanted = second::listing(bytes);
    text[..wanted.len()].copy_from_slice(&wanted);
    (refusal, wanted.len())
}
