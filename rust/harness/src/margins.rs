//! Room for a call: what is lent to the library lies between margins, and all of it is looked at after the call.

use std::ops::Range;

use crate::Outcome;

/// Bytes before and after what is lent; an odd number, so that a trace's own cells are not aligned either.
const MARGIN: usize = 61;
/// Numbers before and after the room for an answer.
const OUT_MARGIN: usize = 4;
/// What the margins and the room for an answer hold before the call.
pub const PATTERN: u64 = 0xa5a5_5a5a_c3c3_3c3c;

/// Bytes to lend, between others that are not lent.
pub struct Lent {
    room: Vec<u8>,
    as_it_was: Vec<u8>,
    lent: Range<usize>,
}

impl Lent {
    /// Bytes between margins.
    pub fn new(bytes: &[u8]) -> Lent {
        Lent::followed_by(bytes, &[])
    }

    /// Bytes between margins, the second of which starts with what a reader would like to find there.
    pub fn followed_by(bytes: &[u8], rest: &[u8]) -> Lent {
        let [margin, ..] = PATTERN.to_be_bytes();
        let room = [&[margin; MARGIN], bytes, rest, &[margin; MARGIN]].concat();
        Lent { as_it_was: room.clone(), room, lent: MARGIN..MARGIN + bytes.len() }
    }

    /// What is lent.
    pub fn bytes(&mut self) -> &mut [u8] {
        &mut self.room[self.lent.clone()]
    }

    /// Nothing was written into what is lent, or beside it.
    pub fn untouched(&self) -> Outcome<()> {
        self.untouched_from(0)
    }

    /// Nothing was written into what is lent from a place on, or beside it.
    pub fn untouched_from(&self, place: usize) -> Outcome<()> {
        let may_change = self.lent.start..self.lent.start + place;
        let stays = |part: Range<usize>| self.room[part.clone()] == self.as_it_was[part];
        if stays(0..may_change.start) && stays(may_change.end..self.room.len()) {
            Ok(())
        } else {
            Err("the library wrote where it must not, into what it was lent or beside it".into())
        }
    }
}

/// The numbers that a call writes into its room for them, if it writes nothing beside it.
pub fn answered<const N: usize>(call: impl FnOnce(&mut [u64; N])) -> Outcome<[u64; N]> {
    answered_over(PATTERN, call)
}

/// The same if `old` is what the room and the margins hold before the call.
pub fn answered_over<const N: usize>(old: u64, call: impl FnOnce(&mut [u64; N])) -> Outcome<[u64; N]> {
    let mut out = vec![old; OUT_MARGIN + N + OUT_MARGIN];
    let (before, rest) = out.split_at_mut(OUT_MARGIN);
    let (answer, after) = rest.split_first_chunk_mut().expect("there is room for the answer");
    call(answer);
    if before.iter().chain(after.iter()).any(|&number| number != old) {
        return Err("the library wrote beside its answer".into());
    }
    Ok(*answer)
}
