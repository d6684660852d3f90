//! Small sheets and what becomes of them, worked out by hand: no program had
//! a part in the lists. What is sent back is RULES 13.

use std::io;
use std::path::Path;

use crate::answer::{Oracle, Origin};
use crate::compare::{converse, first_difference};
use crate::records::{Refusal, raw_bytes};
use crate::stream::{Ask, put_sent};

/// The records as clusters with their weights, and the number of `?` columns.
type List = (Vec<(u32, i32)>, u64);

pub struct Worked {
    pub says: &'static str,
    pub sheet: Vec<u8>,
    becomes: Result<List, Refusal>,
}

impl Worked {
    /// How many records there are; none where the sheet is refused.
    pub fn records(&self) -> usize {
        self.becomes.as_ref().map_or(0, |(list, _)| list.len())
    }

    /// The sheet with a room that is longer than its list.
    fn ask(&self) -> Ask {
        Ask::Import { sheet: self.sheet.clone(), room: vec![7; 12 * self.records() + 5] }
    }

    fn answer(&self) -> Vec<u8> {
        let mut out = Vec::new();
        put_sent(
            &mut out,
            self.becomes.as_ref().map(|(list, _)| list.len() as u64).map_err(|r| *r),
        );
        let (list, unread) = self.becomes.clone().unwrap_or_default();
        out.extend(unread.to_le_bytes());
        out.extend(list.iter().flat_map(|&(cluster, weight)| raw_bytes(cluster, weight, 1)));
        out.extend([7; 5]);
        out
    }

    /// Whether this program finds what was worked out.
    pub fn agrees(&self) -> bool {
        let found = Oracle::TRUE.answer(&self.ask(), &Origin::default());
        found.is_ok_and(|found| found == self.answer())
    }

    fn asked(&self, probe: &Path) -> io::Result<String> {
        let answer = converse(probe, |send| send(self.ask().encode()))?;
        if answer == self.answer() {
            return Ok("same".into());
        }
        Ok(first_difference(10, &self.answer(), &answer))
    }

    fn in_words(&self) -> String {
        match &self.becomes {
            Ok((list, unread)) => format!("{} records, {unread} ?", list.len()),
            Err(r) => format!("refused {} at {}", r.number, r.position),
        }
    }
}

/// Prints every sheet; true if this program finds the same for each, and a
/// probe too if there is one.
pub fn run(probe: Option<&Path>) -> io::Result<bool> {
    println!("{:28} {:>17} {:>7} probe", "sheet", "by hand", "agree");
    let mut good = true;
    for worked in worked_sheets() {
        let asked = probe.map(|p| worked.asked(p)).transpose()?;
        let agrees = worked.agrees();
        let word = if agrees { "yes" } else { "NO" };
        let said = asked.clone().unwrap_or("not asked".into());
        println!("{:28} {:>17} {word:>7} {said}", worked.says, worked.in_words());
        good &= agrees && asked.is_none_or(|a| a == "same");
    }
    Ok(good)
}

pub fn worked_sheets() -> Vec<Worked> {
    let mut all = lists();
    all.extend(long_lists());
    all.extend(refusals());
    all
}

fn list(says: &'static str, sheet: &str, list: &[(u32, i32)], unread: u64) -> Worked {
    Worked { says, sheet: sheet.into(), becomes: Ok((list.to_vec(), unread)) }
}

fn refused(says: &'static str, sheet: &str, number: u8, position: u64) -> Worked {
    Worked { says, sheet: sheet.into(), becomes: Err(Refusal { number, position }) }
}

fn lists() -> Vec<Worked> {
    vec![
        list("one zero", "0\n", &[(1, 0)], 0),
        list("one one", "1\n", &[(1, 1)], 0),
        list("one ?", "?\n", &[(1, 0)], 1),
        list("one line", "1?01\n", &[(1, 2)], 1),
        // {0,1} four times, {1,2} four times, {0,1,2} once.
        list(
            "the house list",
            "111100001\n111111111\n000011111\n",
            &[(1, 0), (2, 0), (3, 4), (4, 0), (6, 4), (7, 1)],
            0,
        ),
        // Nothing, {1}, ?, {0}, {0,1}, ?, ?, ?, ?.
        list("every pair of marks", "000111???\n01?01?01?\n", &[(1, 1), (2, 1), (3, 1)], 5),
        list("zeros and ?", "0?0\n?00\n", &[(1, 0), (2, 0), (3, 0)], 2),
        // {2,3}, {1,3}, {0,1}, and {1,3} again.
        list(
            "columns from high to low",
            "0010\n0111\n1000\n1101\n",
            &[(1, 0), (2, 0), (3, 1), (4, 0), (8, 0), (10, 2), (12, 1), (15, 0)],
            0,
        ),
        // ?, {0,2}, {2}. With the ? as a zero {0,2} would have two columns.
        list(
            "a ? beside its like",
            "110\n?00\n111\n",
            &[(1, 0), (2, 0), (4, 1), (5, 1), (7, 0)],
            1,
        ),
        list("a last taxon alone", "00\n00\n11\n", &[(1, 0), (2, 0), (4, 2), (7, 0)], 0),
    ]
}

/// Sheets of 32 lines, whose lists are long but easily told.
fn long_lists() -> Vec<Worked> {
    let added = |last: i32, all: i32| {
        let mut list: Vec<(u32, i32)> = (0..31).map(|taxon| (1 << taxon, 0)).collect();
        list.extend([(0x8000_0000, last), (0xFFFF_FFFF, all)]);
        list
    };
    let same = |first: &str, last: &str| {
        format!("{}\n", first.repeat(128)).repeat(31) + &last.repeat(128) + "\n"
    };
    // Of the 96 pairs the 95 first columns leave out {3,8}.
    let mut pairs: Vec<(u32, i32)> = (0..8).map(|taxon| (1 << taxon, 0)).collect();
    for high in (8..32).map(|taxon| 1 << taxon) {
        pairs.extend([(high, 0), (high + 1, 1), (high + 2, 1), (high + 4, 1), (high + 8, 1)]);
    }
    pairs.retain(|&(cluster, _)| cluster != 0x108);
    pairs.push((0xFFFF_FFFF, 0));
    vec![
        list("32 zeros", &"0\n".repeat(32), &added(0, 0), 0),
        list("32 ones", &"1\n".repeat(32), &added(0, 1), 0),
        list("31 ones and a ?", &("1\n".repeat(31) + "?\n"), &added(0, 0), 1),
        list("31 zeros and a one", &("0\n".repeat(31) + "1\n"), &added(1, 0), 0),
        list("128 times the last taxon", &same("0", "1"), &added(128, 0), 0),
        list("128 times all taxa", &same("1", "1"), &added(0, 128), 0),
        list("95 pairs", &pair_sheet(95), &pairs, 0),
    ]
}

/// 32 lines of up to 96 columns: {0,31} down to {0,8}, then the same with 1,
/// 2 and 3 in the place of 0.
fn pair_sheet(columns: usize) -> String {
    let mark = |line: usize, at: usize| line == at / 24 || line == 31 - at % 24;
    let text = |line: usize| (0..columns).map(move |at| if mark(line, at) { '1' } else { '0' });
    (0..32).flat_map(|line| text(line).chain(['\n'])).collect()
}

fn refusals() -> Vec<Worked> {
    vec![
        refused("no bytes", "", 12, 0),
        refused("an LF alone", "\n", 12, 0),
        refused("a mark alone", "0", 12, 0),
        refused("a line of no marks", "01\n\n", 12, 1),
        refused("a last line without LF", "01\n10", 12, 1),
        refused("a short line without LF", "01\n11\n1", 12, 2),
        refused("a line of another length", "01\n01\n011\n01\n", 12, 2),
        refused("a short line 0", "0\n01\n01\n", 12, 1),
        refused("a foreign mark", "01\n02\n01\n", 12, 1),
        refused("CRs", "01\r\n01\r\n", 12, 0),
        refused("a CR in a middle line", "01\n0\r\n01\n", 12, 1),
        refused("two faults", "01\n01\n0\nx1\n", 12, 2),
        refused("33 lines", &"10\n".repeat(33), 12, 32),
        refused("a mark after 32 lines", &("10\n".repeat(32) + "1"), 12, 32),
        refused("an LF after 32 lines", &("10\n".repeat(32) + "\n"), 12, 32),
        refused("129 columns", &("1".repeat(129) + "\n"), 12, 0),
        refused("96 pairs", &pair_sheet(96), 13, 0),
    ]
}
