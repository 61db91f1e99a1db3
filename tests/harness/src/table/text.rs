//! The listing that document 01 shows.

use super::g;
use crate::convert::bytes_of;
use crate::tally::Tally;
use dayunglipo::{listing, TEXT_BYTES};

const SHOWN: &str = "k 4 L 4\nt 1 4 4 0\nt 2 2 1 1\nt 3 1 1 0\nt 4 1 1 0\n\
                     l 1 4 4 0\nl 2 2 1 1\nl 3 1 1 0\nl 4 1 1 0\nsum 1 1\nME no\n";

pub fn check(tally: &mut Tally) {
    let mut text = vec![0; TEXT_BYTES];
    let length = listing(&bytes_of(&g(1)), &mut text);
    tally.same("listing", &text[..length], SHOWN.as_bytes(), || "the example".into());
    let length = listing(&[], &mut text);
    tally.same("listing", &text[..length], &b"refused 1\n"[..], || "no bytes".into());
}
