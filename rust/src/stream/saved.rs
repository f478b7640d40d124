// Made by rust/erase.py of crates/komihash/src, where changes belong.
//! The saved text of a stream, part by part: four bytes that describe it, the eight lanes in their
//! order, and the pending bytes.

use crate::padding::has_two;
use crate::pending::Pending;
use crate::rounds::{Lanes, from_order, in_order};
use crate::utils::{read_whole_words, write_words};

const LANES_AT: usize = 4;

const PENDING_AT: usize = 68;

/// The length of the longest saved text, in bytes: 68, and 63 pending ones.
pub const LONGEST_TEXT: usize = PENDING_AT + 63;

/// Writes the first four bytes: the version, the two flags, and the number of pending bytes.
#[inline(always)]
pub(crate) fn write_head<const V: u8>(
    had_block: bool,
    top_bit: bool,
    pending_len: usize,
    out: &mut [u8],
) {
    out[0] = V;
    out[1] = u8::from(had_block);
    out[2] = u8::from(top_bit);
    out[3] = pending_len as u8;
}

/// Writes the lanes after the first four bytes.
#[inline(always)]
pub(crate) fn write_lanes(lanes: &Lanes, out: &mut [u8]) {
    let words = in_order(lanes);
    write_words(&words, &mut out[LANES_AT..PENDING_AT]);
}

/// Writes the pending bytes after the lanes, and returns where they end.
#[inline(always)]
pub(crate) fn write_pending(pending: &Pending, out: &mut [u8]) -> usize {
    let end = PENDING_AT + pending.len();
    pending.write_to(&mut out[PENDING_AT..end]);
    end
}

// Returns whether the first four bytes may begin a text of version V.
#[inline(always)]
fn is_head<const V: u8>(bytes: &[u8]) -> bool {
    bytes[0] == V
        && bytes[1] < 2
        && bytes[2] <= (if has_two::<V>() { bytes[1] } else { 0 })
        && bytes[3] < 64
}

/// Returns whether bytes are the text of a state of version V.
#[inline(always)]
pub(crate) fn is_text<const V: u8>(bytes: &[u8]) -> bool {
    bytes.len() >= PENDING_AT
        && is_head::<V>(bytes)
        && bytes.len() == PENDING_AT + usize::from(bytes[3])
}

#[inline(always)]
pub(crate) fn read_lanes(bytes: &[u8]) -> Lanes {
    let mut lanes = [0; 8];
    read_whole_words(&bytes[LANES_AT..PENDING_AT], &mut lanes);
    from_order(&lanes)
}

#[inline(always)]
pub(crate) fn read_pending(bytes: &[u8]) -> Pending {
    let mut pending = Pending::new();
    // Here this takes fewer instructions than `append_to_none`.
    pending.append(&bytes[PENDING_AT..]);
    pending
}
