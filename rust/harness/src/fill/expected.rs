//! The list vectors: files of lists, and the answers that are kept for them, of which the claims and the refusals are
//! what the filler and the calls over a trace show.

use std::collections::{BTreeMap, BTreeSet};
use std::fs;
use std::path::Path;

use reference::{Claim, Refusal, Wide};

use crate::Outcome;

/// What a list is expected to give: the claims of its lines, or the refusal of one.
pub type Expected = Result<Vec<Claim>, Refusal>;

/// The numbers that an answer may name beside those that are shown: where a line stops or ends, and what it says.
const NOT_SHOWN: [&str; 8] = ["stop", "next", "op", "ranges", "at1", "len1", "at2", "len2"];

/// The names of the list files in a folder, which must hold some.
pub fn lists_in(folder: &Path) -> Outcome<BTreeSet<String>> {
    let told = |error: std::io::Error| format!("{}: {error}", folder.display());
    let mut names = BTreeSet::new();
    for entry in fs::read_dir(folder).map_err(told)? {
        let path = entry.map_err(told)?.path();
        if path.extension().is_some_and(|extension| extension == "list") {
            names.extend(path.file_stem().map(|stem| stem.to_string_lossy().into_owned()));
        }
    }
    if names.is_empty() { Err(format!("{} holds no lists", folder.display())) } else { Ok(names) }
}

/// The list with a name in a folder.
pub fn list_of(folder: &Path, name: &str) -> Outcome<Vec<u8>> {
    fs::read(folder.join(name).with_extension("list")).map_err(|error| error.to_string())
}

/// What is kept for each list of a folder.
pub fn expected_in(folder: &Path) -> Outcome<BTreeMap<String, Expected>> {
    let path = folder.join("expected.txt");
    let text = fs::read_to_string(&path).map_err(|error| format!("{}: {error}", path.display()))?;
    let expected = read_answers(&text).map_err(|error| format!("{}: {error}", path.display()))?;
    if expected.keys().cloned().collect::<BTreeSet<_>>() == lists_in(folder)? {
        Ok(expected)
    } else {
        Err(format!("{}: the lists are not those that expected.txt names", folder.display()))
    }
}

/// One line of the answers of a list.
enum Answer {
    Claim(Claim),
    Refused(Refusal),
    End,
}

/// The answers of each list, line by line: claims up to the end of the list or to a refusal.
fn read_answers(text: &str) -> Outcome<BTreeMap<String, Expected>> {
    let mut open: BTreeMap<String, Vec<Claim>> = BTreeMap::new();
    let mut expected = BTreeMap::new();
    for line in text.lines().filter(|line| !line.starts_with('#')) {
        let answer = line.split_once('\t').and_then(|(name, answer)| Some((name, read_answer(answer)?)));
        let (name, answer) = answer.ok_or_else(|| format!("no such answer: '{line}'"))?;
        match answer {
            Answer::Claim(claim) => open.entry(name.into()).or_default().push(claim),
            Answer::Refused(refusal) => {
                open.remove(name);
                expected.insert(name.into(), Err(refusal));
            }
            Answer::End => {
                let claims = open.remove(name).unwrap_or_default();
                expected.insert(name.into(), Ok(claims));
            }
        }
    }
    match open.keys().next() {
        Some(name) => Err(format!("the answers of {name} do not end")),
        None => Ok(expected),
    }
}

/// The answer that a text says; a number that is not named is 0.
fn read_answer(text: &str) -> Option<Answer> {
    if text == "end" {
        return Some(Answer::End);
    }
    let mut claim = Claim { cn: 0, end1: Wide::ZERO, end2: Wide::ZERO };
    let mut refusal = Refusal { number: 0, line: 0 };
    for word in text.split(' ') {
        match word.split_once('=')? {
            ("refused", number) => refusal.number = number.parse().ok()?,
            ("line", number) => refusal.line = number.parse().ok()?,
            ("cn", digits) => claim.cn = u32::from_str_radix(digits, 16).ok()?,
            ("end1", digits) => claim.end1 = wide(digits)?,
            ("end2", digits) => claim.end2 = wide(digits)?,
            (name, _) if NOT_SHOWN.contains(&name) => {}
            _ => return None,
        }
    }
    Some(if refusal.number == 0 { Answer::Claim(claim) } else { Answer::Refused(refusal) })
}

/// The number that hex digits write.
fn wide(digits: &str) -> Option<Wide> {
    let digits = format!("{digits:0>width$}", width = 2 * Wide::BYTES);
    digits.as_bytes().chunks(2).try_fold(Wide::ZERO, |number, pair| {
        let byte = u8::from_str_radix(str::from_utf8(pair).ok()?, 16).ok()?;
        number.checked_append(byte)
    })
}

#[cfg(test)]
mod tests {
    use super::*;

    fn one(answers: &str) -> Option<Expected> {
        read_answers(answers).ok()?.remove("x")
    }

    #[test]
    fn claims_end_in_the_end_of_the_list_or_in_a_refusal() {
        let far = Claim { cn: 2, end1: Wide::ZERO, end2: Wide::power_of_two(128).wrapping_add(1u8.into()) };
        let line = "x\tnext=37 cn=1 op=52 ranges=1 len1=20 end1=20\n";
        let last = format!("x\tcn=2 end2=1{:032x}\n", 1);
        assert_eq!(one(&format!("# x\n{line}{last}x\tend\n")), Some(Ok(vec![Claim::small(1, 32, 0), far])));
        let refusal = Refusal { number: 3, line: 2 };
        assert_eq!(one(&format!("{line}x\trefused=3 line=2 stop=40\n")), Some(Err(refusal)));
        assert_eq!(one("x\tend\n"), Some(Ok(vec![])));
    }

    #[test]
    fn other_answers_are_not_taken() {
        let no_end = "x\tcn=1";
        let too_wide = format!("x\tend1=1{:034x}\nx\tend", 0);
        for answers in [no_end, &too_wide, "x end", "x\tcn=g\nx\tend", "x\trefused=256", "x\tname=1\nx\tend", "x\t"] {
            assert!(read_answers(answers).is_err(), "{answers}");
        }
    }
}
