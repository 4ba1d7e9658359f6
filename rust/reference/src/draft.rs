//! A trace that is open to edits, so that wrong traces can be made from right ones.

use std::ops::Range;

use crate::claim::Claim;
use crate::cycle::State;
use crate::make::{make_cycle, make_rows, pay};
use crate::price::Price;
use crate::row::{Column, Row, to_bytes};
use crate::sum::{Sum, sum_up};
use crate::wide::Wide;

/// The rows of a trace, right or wrong. Rows count from 0, instructions from 1.
#[derive(Clone, Debug)]
pub struct Draft {
    /// The rows.
    pub rows: Vec<Row>,
}

impl Draft {
    /// The trace that meets the constraints.
    pub fn new(empty_rows: usize, claims: &[Claim]) -> Draft {
        Draft { rows: make_rows(empty_rows, claims) }
    }

    /// The bytes of the trace.
    pub fn to_bytes(&self) -> Vec<u8> {
        to_bytes(&self.rows)
    }

    /// Where the rows of an instruction stand.
    pub fn cycle(&self, instruction: u32) -> Range<usize> {
        let of_it = |row: &Row| row.stamp == instruction;
        let start = self.rows.iter().position(of_it);
        let start = start.expect("the instruction is in the trace");
        let rest = self.rows[start..].iter();
        start..start + rest.take_while(|row| of_it(row)).count()
    }

    /// Adds a cycle that goes on from `state`, whatever its context has reached.
    pub fn then(mut self, claim: &Claim, state: State) -> Draft {
        let stamp = self.rows.last().map_or(0, |row| row.stamp);
        self.rows.extend(make_cycle(stamp + 1, claim, state));
        self
    }

    /// Puts a number into one cell.
    pub fn set(mut self, row: usize, column: Column, number: impl Into<Wide>) -> Draft {
        self.rows[row].set(column, number.into());
        self
    }

    /// Puts a number into the cells of a column in some rows.
    pub fn set_in(self, rows: Range<usize>, column: Column, number: impl Into<Wide>) -> Draft {
        let number = number.into();
        rows.fold(self, |draft, row| draft.set(row, column, number))
    }

    /// Puts a number into the cells of a column in all rows of an instruction.
    pub fn set_all(self, instruction: u32, column: Column, number: impl Into<Wide>) -> Draft {
        let rows = self.cycle(instruction);
        self.set_in(rows, column, number)
    }

    /// Changes one cell.
    pub fn change(mut self, row: usize, column: Column, change: impl Fn(Wide) -> Wide) -> Draft {
        let row = &mut self.rows[row];
        row.set(column, change(row.get(column)));
        self
    }

    /// Lets the bytes of an instruction's cycle sum up to a number.
    pub fn sum(mut self, instruction: u32, sum: Sum, total: impl Into<Wide>) -> Draft {
        let rows = self.cycle(instruction);
        sum_up(&mut self.rows[rows], sum, total.into());
        self
    }

    /// Lets an instruction pay a price.
    pub fn pay(mut self, instruction: u32, price: &Price) -> Draft {
        let rows = self.cycle(instruction);
        pay(&mut self.rows[rows], price);
        self
    }

    /// Leaves only some rows.
    pub fn keep(mut self, rows: Range<usize>) -> Draft {
        self.rows = self.rows[rows].to_vec();
        self
    }

    /// Puts a row in before another.
    pub fn insert(mut self, at: usize, row: Row) -> Draft {
        self.rows.insert(at, row);
        self
    }
}
