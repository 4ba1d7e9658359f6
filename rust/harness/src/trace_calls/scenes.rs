//! Small right traces with all that can be read off them, stated by hand: where each instruction is, what it claims, and
//! how each context stands at the end and how far back that is.

use reference::list::claims;
use reference::list_vectors::SAMPLE;
use reference::{BOUND, Claim, Draft, Wide};

use crate::Outcome;
use crate::trace_calls::asked::Asked;
use crate::trace_calls::question::Question;

/// An instruction and the rows that it takes.
type Cycle = (Claim, usize);

/// A context, its MEMN and COSTN at the end, and the place of its last cycle from the end.
type Standing = (u32, u64, u64, u64);

/// A trace and what is meant to be read off it.
pub struct Scene {
    /// What it shows.
    pub name: &'static str,
    /// How many empty rows it has.
    pub empty: usize,
    cycles: Vec<Cycle>,
    standings: Vec<Standing>,
}

/// All scenes.
pub fn all() -> Vec<Scene> {
    let scene =
        |name, empty, cycles, standings: &[Standing]| Scene { name, empty, cycles, standings: standings.into() };
    vec![
        scene("an empty row", 1, vec![], &[]),
        scene("two empty rows", 2, vec![], &[]),
        scene("18 empty rows", 18, vec![], &[]),
        scene("an instruction", 1, vec![near(9, 1, 0)], &[(9, 1, 3, 1)]),
        scene("an instruction out of bounds", 1, vec![far(9, BOUND, Wide::ZERO)], &[(9, 0, 0, 1)]),
        scene("the sample of the document", 1, sample(), &[(1, 705, 70, 3), (2, 64, 6, 1)]),
        scene("out of bounds in the middle", 2, far_in_the_middle(), &[(1, 0x12_3456, 2_826_735, 1), (2, 0, 0, 2)]),
        scene("both kinds in turn", 5, both_in_turn(), &[(7, 33, 6, 2), (8, 704, 66, 1)]),
        scene("contexts alike in some bytes", 1, alike(), &ALIKE),
        scene("all memory reached", 1, greedy(), &[(1, 0xff_ffff, 538_443_776, 2), (u32::MAX, 1, 3, 1)]),
    ]
}

/// Puts everything about each scene to both; answers how many answers there were.
pub fn compare_all() -> Outcome<usize> {
    let mut answers = 0;
    for scene in all() {
        answers += scene.compare().map_err(|error| format!("scene {}: {error}", scene.name))?;
    }
    Ok(answers + halves_by_hand()?)
}

/// An instruction in bounds.
fn near(cn: u32, end1: u32, end2: u32) -> Cycle {
    (Claim::small(cn, end1, end2), 3)
}

/// An instruction out of bounds.
fn far(cn: u32, end1: Wide, end2: Wide) -> Cycle {
    (Claim { cn, end1, end2 }, 17)
}

/// An end out of bounds with bytes that all differ, from one on.
fn bytes_from(byte: u8) -> Wide {
    Wide::from_be_bytes(std::array::from_fn(|place| byte + place as u8))
}

/// The claims of document 01's own list.
fn sample() -> Vec<Cycle> {
    claims(SAMPLE.as_bytes()).flatten().zip([3, 3, 3, 3, 3, 17]).collect()
}

fn far_in_the_middle() -> Vec<Cycle> {
    vec![near(1, 2_571, 300), far(2, 7u8.into(), bytes_from(0x11)), near(1, 0x12_3456, 0x06_5432)]
}

/// Two contexts, each of which goes out of bounds and comes back or stays there.
fn both_in_turn() -> Vec<Cycle> {
    vec![
        far(7, bytes_from(0xa1), bytes_from(0x31)),
        near(7, 32, 33),
        near(8, 0, 0),
        far(8, Wide::ZERO, Wide::MAX),
        near(8, 704, 704),
        far(7, BOUND, BOUND),
        far(8, Wide::power_of_two(128), 1u8.into()),
    ]
}

/// Contexts that agree in some bytes, each twice; the second time they reach 600, 700, 800, 900 and 1,000 bytes.
fn alike() -> Vec<Cycle> {
    let contexts = ALIKE.map(|(cn, ..)| cn).repeat(2);
    contexts.into_iter().zip(1..).map(|(cn, step)| near(cn, step * 100, 7)).collect()
}

/// They stand at 19, 22, 25, 29 and 32 words.
const ALIKE: [Standing; 5] = [
    (1, 600, 57, 5),
    (0x0100_0001, 700, 66, 4),
    (0x0001_0001, 800, 76, 3),
    (0x0101, 900, 88, 2),
    (u32::MAX, 1_000, 98, 1),
];

/// The last instruction of context 1 stays within what was reached and pays nothing.
fn greedy() -> Vec<Cycle> {
    vec![near(1, 1, 0), near(1, 0, 0xff_ffff), near(1, 5, 0xff_fffe), near(u32::MAX, 0, 1)]
}

/// The parts of ends number by number: 2^128 times the first, 2^64 times the second and the third.
fn halves_by_hand() -> Outcome<usize> {
    let bytes = Draft::new(1, &[far(0x0102_0304, bytes_from(0x11), bytes_from(0xa1)).0]).to_bytes();
    let end1 = [0x11, 0x1213_1415_1617_1819, 0x1a1b_1c1d_1e1f_2021];
    let end2 = [0xa1, 0xa2a3_a4a5_a6a7_a8a9, 0xaaab_acad_aeaf_b0b1];
    let meant = [&[0, 0, 0, 0x0102_0304][..], &end1, &end2].concat();
    let mut asked = Asked::new(&bytes);
    asked.expect(Question::Claim { k: 1 }, &meant)?;
    Ok(asked.answers())
}

impl Scene {
    /// The bytes of the trace.
    pub fn bytes(&self) -> Vec<u8> {
        Draft::new(self.empty, &self.cycles.iter().map(|&(claim, _)| claim).collect::<Vec<_>>()).to_bytes()
    }

    /// How many instructions it has.
    pub fn instructions(&self) -> u64 {
        self.cycles.len() as u64
    }

    /// Puts everything about the scene to both.
    fn compare(&self) -> Outcome<usize> {
        let bytes = self.bytes();
        let mut asked = Asked::new(&bytes);
        self.every_instruction(&mut asked)?;
        self.every_context(&mut asked)?;
        self.every_step(&mut asked)?;
        asked.expect_walk(self.empty, self.cycles.iter().map(|&(_, rows)| rows))?;
        Ok(asked.answers())
    }

    /// Each instruction, and numbers that are none: 0, past the last, and such as a narrow number would take for one.
    fn every_instruction(&self, asked: &mut Asked) -> Outcome<()> {
        let mut first = self.empty;
        for (k, (claim, rows)) in (1..).zip(&self.cycles) {
            asked.expect_instruction(k, claim, first, *rows)?;
            first += rows;
        }
        let last = self.instructions();
        let past = (1..=20).map(|more| last + more);
        let wrapped = (0..=last).flat_map(|k| (8..64).map(move |bit| k + (1 << bit)));
        for k in [0, u64::MAX - 1, u64::MAX].into_iter().chain(past).chain(wrapped) {
            asked.expect_refusal(Question::Rows { k }, 12)?;
            asked.expect_refusal(Question::Claim { k }, 12)?;
        }
        Ok(())
    }

    /// Each context that is there, others that are not, and context 0, at every limit.
    fn every_context(&self, asked: &mut Asked) -> Outcome<()> {
        let all = self.instructions();
        let present = |cn: u32| self.standings.iter().any(|&(there, ..)| there == cn);
        let alike = self.standings.iter().flat_map(|&(cn, ..)| (0..32).map(move |bit| cn ^ 1 << bit));
        let others = [1, 2, 3, 0x0100_0000, u32::MAX].into_iter().chain(alike).filter(|&cn| cn != 0 && !present(cn));
        let absent = others.map(|cn| (cn, 0, 0, all));
        for (cn, mem, cost, looked) in self.standings.iter().copied().chain(absent) {
            for limit in limits(all, looked) {
                let question = Question::LastState { cn, limit };
                if limit < looked {
                    asked.expect_refusal(question, 14)?;
                } else {
                    asked.expect(question, &[0, 0, 0, mem, cost, looked])?;
                }
            }
        }
        limits(all, all).try_for_each(|limit| asked.expect_refusal(Question::LastState { cn: 0, limit }, 13))
    }

    /// A step from every row, not only from the first of a cycle, and from past the end.
    fn every_step(&self, asked: &mut Asked) -> Outcome<()> {
        let kinds = self.cycles.iter().flat_map(|&(_, rows)| vec![rows; rows]);
        let takes: Vec<usize> = vec![3; self.empty].into_iter().chain(kinds).collect();
        for (next, &rows) in takes.iter().enumerate() {
            asked.expect_step(next, rows)?;
        }
        let past = (0..40).map(|more| takes.len() as u64 + more);
        past.chain([u64::MAX]).try_for_each(|next| asked.expect_no_step(next))
    }
}

/// Every limit up to two past all cycles, and such as a narrow number would take for one that is too low.
fn limits(all: u64, looked: u64) -> impl Iterator<Item = u64> {
    let wrapped = [8, 16, 32, 63].map(|bit| (1 << bit) + looked.saturating_sub(1));
    (0..=all + 2).chain(wrapped).chain([u64::MAX - 1, u64::MAX])
}
