//! A random list, right or damaged, put to both fillers with counts of empty rows and buffers of all kinds, and questions
//! about the trace that comes of it.

use reference::fill::{MAX_LIST, rows_of};
use reference::list::instruction::NOT_OF_THE_FORM;
use reference::list::walk;
use reference::list_vectors::PLAIN;
use reference::{MAX_ROWS, ROW_BYTES, Refusal};

use crate::Outcome;
use crate::fill::filling::{Order, compare};
use crate::fill::read_back::read_back;
use crate::trials::cast::MOST_CYCLES;
use crate::trials::list_damage::damaged;
use crate::trials::list_story::tell;
use crate::trials::questions::ask_some;
use crate::trials::random::Random;
use crate::trials::tally::{Call, Met, Source, Tally};

/// One in so many lists is too long.
const TOO_LONG_ONCE_IN: usize = 600;
/// One in so many lists is repeated until its rows are about as many as there may be.
const REPEATED_ONCE_IN: usize = 2_000;
/// One in so many traces has about as many empty rows as there may be.
const FULL_ONCE_IN: usize = 2_000;
/// One in so many lists has some damage.
const DAMAGED_ONCE_IN: usize = 5;
/// All claims of one in so many lists are read back.
const READ_BACK_ONCE_IN: usize = 16;
/// So many bytes of a list are shown where the fillers differ.
const SHOWN: usize = 5_000;

/// Compares on a list.
pub fn compare_one(random: &mut Random, tally: &mut Tally) -> Outcome<()> {
    let text = some_text(random, tally);
    let kept = if random.once_in(20) { random.below(text.len() + 1) } else { text.len() };
    let (list, behind) = text.split_at(kept);
    let empty_rows = some_empty_rows(list, random);
    let room = some_room(list, empty_rows, random);
    compare_order(&Order { list, behind, empty_rows, room }, random, tally)
        .map_err(|error| format!("{error}\nthe list: {}", list[..kept.min(SHOWN)].escape_ascii()))
}

/// Both fillers must come to the same; what they write is put to the calls over a trace.
fn compare_order(order: &Order, random: &mut Random, tally: &mut Tally) -> Outcome<()> {
    let trace = match compare(order)? {
        Ok(trace) => trace,
        Err(Refusal { number, .. }) => {
            tally.enter(Met::Refusal(Call::Fill, number));
            if number == NOT_OF_THE_FORM {
                tally.enter(Met::Stop(character_at_stop(order.list)));
            }
            return Ok(());
        }
    };
    tally.enter(Met::Answer(Call::Fill));
    let claims = order.claims()?;
    tally.enter_claims(Source::Lists, &claims);
    if claims.len() <= MOST_CYCLES && random.once_in(READ_BACK_ONCE_IN) {
        read_back(&trace, &claims)?;
    }
    ask_some(&trace, random, tally)
}

/// The character at which a list leaves the form, or none where it ends too early.
fn character_at_stop(list: &[u8]) -> Option<u8> {
    walk(list).last().and_then(|answer| list.get(answer.stop)).copied()
}

/// A list as it is told, some with damage, and few that are too long or fill about as many rows as there may be.
fn some_text(random: &mut Random, tally: &mut Tally) -> Vec<u8> {
    let text = tell(random);
    if random.once_in(TOO_LONG_ONCE_IN) {
        let size = MAX_LIST + random.between(1, 200);
        let mut text = if text.is_empty() { PLAIN.into() } else { text };
        text = text.repeat(size.div_ceil(text.len()));
        text.truncate(size);
        return text;
    }
    if random.once_in(REPEATED_ONCE_IN) {
        return match rows_of(&text, 1) {
            Ok(rows) if rows > 1 => text.repeat(MAX_ROWS / (rows - 1) + random.below(2)),
            _ => text,
        };
    }
    if random.once_in(DAMAGED_ONCE_IN) { damaged(text, random, tally) } else { text }
}

/// A count of empty rows: mostly few, sometimes none, more than there may be, or about as many as leave the list room.
fn some_empty_rows(list: &[u8], random: &mut Random) -> u64 {
    let few = 1 + random.below(5) as u64;
    if random.once_in(FULL_ONCE_IN) {
        let more = random.below(2) as u64;
        return rows_of(list, 1).map_or(few, |rows| (MAX_ROWS + 1 - rows) as u64 + more);
    }
    let any = random.next() >> random.below(64);
    let many = MAX_ROWS as u64 + 1 + any % 100;
    // One bit that a narrow number would lose.
    let few_by_their_low_bits = few + (1 << (17 + random.below(47)));
    match random.below(80) {
        0 => 0,
        1 => many,
        2 => any.max(many),
        3 => u64::MAX - any % 100,
        4 => few_by_their_low_bits,
        _ => few,
    }
}

/// The bytes of a buffer: mostly about as many as the trace has.
fn some_room(list: &[u8], empty_rows: u64, random: &mut Random) -> usize {
    let any = random.below(30 * ROW_BYTES);
    let Ok(rows) = rows_of(list, empty_rows) else { return any };
    let exact = rows * ROW_BYTES;
    match random.below(16) {
        0 => exact - 1,
        1 => random.below(exact),
        2 => exact + 1,
        3 => exact + ROW_BYTES,
        4..8 => exact + any,
        _ => exact,
    }
}
