//! The claims of a list, line by line, without anything kept of the lines before.

use super::instruction::Instruction;
use crate::claim::Claim;
use crate::refusal::Refusal;

/// The claims of the lines that are left of a list; a line that is refused is the last.
pub struct Claims<'a> {
    list: &'a [u8],
    at: usize,
    line: u64,
}

/// The claims of the lines of a list.
pub fn claims(list: &[u8]) -> Claims<'_> {
    Claims { list, at: 0, line: 0 }
}

impl Iterator for Claims<'_> {
    type Item = Result<Claim, Refusal>;

    fn next(&mut self) -> Option<Self::Item> {
        if self.at == self.list.len() {
            return None;
        }
        self.line += 1;
        let read = Instruction::read(self.list, self.at);
        self.at = read.map_or(self.list.len(), |(_, next)| next);
        let refused = |number| Refusal { number, line: self.line };
        Some(read.map(|(instruction, _)| instruction.claim()).map_err(|fault| refused(fault.number)))
    }
}

#[cfg(test)]
mod tests {
    use super::*;

    #[test]
    fn lines_give_claims_up_to_one_that_is_refused() {
        let list = b"\
cn=7 op=51 at1=20 len1=0 at2=0 len2=0
cn=8 op=f1 at1=0 len1=1 at2=10 len2=2
cn=7 op=59 at1=0 len1=1 at2=0 len2=0
cn=9 op=59 at1=0 len1=0 at2=0 len2=0
";
        let read: Vec<_> = claims(list).collect();
        let refusal = Refusal { number: 6, line: 3 };
        assert_eq!(read, [Ok(Claim::small(7, 64, 0)), Ok(Claim::small(8, 1, 18)), Err(refusal)]);
    }

    #[test]
    fn a_list_of_none_has_no_claims() {
        assert_eq!(claims(b"").next(), None);
    }

    #[test]
    fn a_last_line_without_its_newline_is_refused() {
        let read: Vec<_> = claims(b"cn=7 op=59 at1=0 len1=0 at2=0 len2=0\ncn=7").collect();
        assert_eq!(read, [Ok(Claim::small(7, 0, 0)), Err(Refusal { number: 3, line: 2 })]);
    }
}
