//! A block of calls: contexts that call others and return, numbered as they are opened, each instruction in the
//! innermost of those that are open.

use reference::list::Fields;

use crate::program::Program;
use crate::random::Random;

/// At most so many contexts are open at a time.
const DEEPEST: usize = 64;
/// Before one instruction in so many the innermost context calls,
const CALL_ONCE_IN: u64 = 14;
/// and before one in so many others it returns; a little less often than it calls, so that calls go deep.
const RETURN_ONCE_IN: u64 = 15;

/// The open contexts of a block, the innermost last.
pub struct Block {
    open: Vec<Program>,
    /// How many have been opened so far; the next has the next number.
    opened: u32,
}

impl Block {
    /// A block whose outermost context is open.
    pub fn new() -> Block {
        Block { open: vec![Program::new(1)], opened: 1 }
    }

    /// The next instruction: of a context that is opened for it, of the one to which the innermost returns, or else of
    /// the innermost itself.
    pub fn step(&mut self, random: &mut Random) -> Fields {
        if random.below(CALL_ONCE_IN) == 0 {
            if self.open.len() < DEEPEST {
                self.opened += 1;
                self.open.push(Program::new(self.opened));
            }
        } else if random.below(RETURN_ONCE_IN) == 0 && self.open.len() > 1 {
            self.open.pop();
        }
        self.open.last_mut().expect("the outermost context stays open").step(random)
    }
}

#[cfg(test)]
mod tests {
    use super::*;
    use std::collections::HashSet;

    /// A context is new, or innermost, or an outer one that is gone back to; the innermost ones are then closed.
    #[test]
    fn contexts_are_numbered_as_they_open_and_closed_ones_stay_closed() {
        let (mut block, random) = (Block::new(), &mut Random::new(7));
        let (mut open, mut opened, mut closed) = (vec![1], 1, HashSet::new());
        let mut deepest = 0;
        for _ in 0..20_000 {
            let cn = block.step(random).cn;
            assert!(!closed.contains(&cn), "context {cn} is closed");
            match open.iter().position(|&other| other == cn) {
                Some(place) => closed.extend(open.drain(place + 1..)),
                None => {
                    assert_eq!(cn, opened + 1);
                    opened = cn;
                    open.push(cn);
                }
            }
            deepest = deepest.max(open.len());
        }
        assert_eq!(deepest, DEEPEST);
        assert!(closed.len() > 1_000 && opened as usize == open.len() + closed.len());
    }
}
