//! Small lists and the trees that are drawn of them, worked out by hand: which
//! taxa the leaf set has, and where its record stands among unscored ones,
//! before and after rescorings. No program had a part in the trees. A blank
//! is an unscored cluster. From RULES 2, 3, 8 and 10.

use std::io;
use std::path::Path;

use crate::answer::{Oracle, Origin};
use crate::compare::converse;
use crate::formulas::Edit;
use crate::given::house;
use crate::records::{Row, list_bytes, refuse};
use crate::stream::{Ask, put_numbers, put_sent};

/// The first heaviest tree, and how many there are.
#[derive(Clone)]
struct Drawn {
    count: u32,
    weight: i32,
    members: Vec<u32>,
    text: &'static str,
}

pub struct WorkedList {
    pub says: String,
    pub d: u32,
    pub rows: Vec<Row>,
    pub edits: Vec<Edit>,
    /// Nothing where the answer is 7.
    drawn: Option<Drawn>,
}

impl WorkedList {
    /// The list with the rescored records in place.
    pub fn rescored(&self) -> Vec<Row> {
        let now = |row: &Row| {
            let last = self.edits.iter().rfind(|e| e.cluster == row.cluster as u64);
            last.map_or(*row, |e| Row { weight: e.weight, scored: e.state == 1, ..*row })
        };
        self.rows.iter().map(now).collect()
    }

    fn whole(&self) -> Ask {
        Ask::Whole { d: self.d, list: list_bytes(&self.rows), edits: self.edits.clone() }
    }

    fn printed(&self) -> Ask {
        Ask::Line { d: self.d, list: list_bytes(&self.rescored()), room: vec![7; 60] }
    }

    /// Tree and text, with which the answer of a build and rescorings ends.
    fn both_drawings(&self) -> Vec<u8> {
        let (mut out, mut numbers, mut bytes) = (Vec::new(), [0xAAAA_AAAA; 128], [0xAA; 256]);
        let sent = |told: Option<usize>| told.map(|n| n as u64).ok_or(refuse(7));
        if let Some(drawn) = &self.drawn {
            numbers[..drawn.members.len()].copy_from_slice(&drawn.members);
            bytes[..drawn.text.len()].copy_from_slice(drawn.text.as_bytes());
        }
        put_sent(&mut out, sent(self.drawn.as_ref().map(|d| d.members.len())));
        put_numbers(&mut out, &numbers);
        put_sent(&mut out, sent(self.drawn.as_ref().map(|d| d.text.len())));
        out.extend(bytes);
        out
    }

    fn in_words(&self) -> String {
        match &self.drawn {
            Some(Drawn { count, weight, text, .. }) => format!("{count} {weight} {text}"),
            None => "refused 7".into(),
        }
    }

    fn line_answer(&self) -> Vec<u8> {
        let line = format!("{} {}\n", self.d, self.in_words());
        let (mut out, mut room) = (Vec::new(), [7; 60]);
        room[..line.len()].copy_from_slice(line.as_bytes());
        put_sent(&mut out, Ok(line.len() as u64));
        out.extend(room);
        out
    }

    /// Whether two answers, to the whole and to the line, are as worked out.
    fn is_told(&self, whole: &[u8], line: &[u8]) -> bool {
        whole.ends_with(&self.both_drawings()) && line == self.line_answer()
    }

    /// Whether this program finds what was worked out.
    pub fn agrees(&self) -> bool {
        let origin = Origin { built: true, joints: Vec::new() };
        let answer = |ask: Ask| Oracle::TRUE.answer(&ask, &origin).unwrap_or_default();
        self.is_told(&answer(self.whole()), &answer(self.printed()))
    }

    fn asked(&self, probe: &Path) -> io::Result<&'static str> {
        let answer = |ask: Ask| converse(probe, |send| send(ask.encode()));
        let same = self.is_told(&answer(self.whole())?, &answer(self.printed())?);
        Ok(if same { "same" } else { "ANOTHER" })
    }
}

/// Prints every list; true if this program finds the same for each, and a
/// probe too if there is one.
pub fn run(probe: Option<&Path>) -> io::Result<bool> {
    println!("{:46} {:>2} {:>21} {:>7} probe", "list and rescorings", "d", "by hand", "agree");
    let mut good = true;
    for worked in worked_lists() {
        let asked = probe.map(|p| worked.asked(p)).transpose()?;
        let agrees = worked.agrees();
        let word = if agrees { "yes" } else { "NO" };
        let (says, by_hand) = (&worked.says, worked.in_words());
        println!(
            "{says:46} {:>2} {by_hand:>21} {word:>7} {}",
            worked.d,
            asked.unwrap_or("not asked")
        );
        good &= agrees && asked.is_none_or(|a| a == "same");
    }
    Ok(good)
}

pub fn worked_lists() -> Vec<WorkedList> {
    let mut all = blanks_that_change_nothing();
    all.extend(blanks_that_take_away());
    all.extend(no_trees());
    all.extend(rescored_away());
    all.extend(rescored_and_grown());
    all
}

/// The house list with these clusters unscored; those that it doesn't have
/// are put behind it.
fn house_with_blanks(clusters: &[u32]) -> Vec<Row> {
    let mut rows = house();
    for &cluster in clusters {
        rows.retain(|row| row.cluster != cluster);
        rows.push(Row::unscored(cluster));
    }
    rows
}

fn score(cluster: u64, weight: i32) -> Edit {
    Edit { cluster, weight, state: 1 }
}

fn blank(cluster: u64) -> Edit {
    Edit { cluster, weight: 0, state: 0 }
}

fn drawn(count: u32, weight: i32, members: &[u32], text: &'static str) -> Option<Drawn> {
    Some(Drawn { count, weight, members: members.to_vec(), text })
}

/// What the house list itself has.
fn of_house(d: u32) -> Option<Drawn> {
    drawn(if d == 3 { 2 } else { 3 }, 5, &[1, 2, 4, 6, 7], "(0,(1,2));")
}

fn listed(says: &str, d: u32, rows: Vec<Row>, drawn: Option<Drawn>) -> WorkedList {
    WorkedList { says: says.into(), d, rows, edits: Vec::new(), drawn }
}

/// Above, below and beside the scored clusters an unscored one is as if it
/// weren't there.
fn blanks_that_change_nothing() -> Vec<WorkedList> {
    let blanks: [(&str, &[u32]); 7] = [
        ("house, blank {3}", &[8]),
        ("house, blank {0,1,2,3}", &[15]),
        ("house, blank {3} and {0,1,2,3}", &[8, 15]),
        ("house, blank {0,3}", &[9]),
        ("house, blank {0,2}", &[5]),
        ("house, blank {31}", &[1 << 31]),
        ("house, blank all 32 taxa and {4,5}", &[u32::MAX, 48]),
    ];
    let at = |d: u32| {
        let worked = move |(says, clusters): &(&str, &[u32])| {
            listed(says, d, house_with_blanks(clusters), of_house(d))
        };
        blanks.iter().map(worked).collect::<Vec<WorkedList>>()
    };
    (3..=5).flat_map(at).collect()
}

/// A taxon whose every cluster is unscored has fallen out of the leaf set.
fn blanks_that_take_away() -> Vec<WorkedList> {
    let first_pair = drawn(1, 4, &[1, 2, 3], "(0,1);");
    let last_pair = drawn(1, 4, &[2, 4, 6], "(1,2);");
    let mut all = Vec::new();
    for d in 3..=5 {
        let says = "house, {2}, {1,2} and {0,1,2} blank";
        all.push(listed(says, d, house_with_blanks(&[4, 6, 7]), first_pair.clone()));
        let says = "house, {0}, {0,1} and {0,1,2} blank";
        all.push(listed(says, d, house_with_blanks(&[1, 3, 7]), last_pair.clone()));
    }
    let with_more = house_with_blanks(&[4, 6, 7, 8, 15]);
    let says = "house, all with 2 blank, blank {3}, {0,1,2,3}";
    all.push(listed(says, 3, with_more, first_pair));
    let lowest = drawn(1, 0, &[1], "0;");
    all.push(listed("house, all but {0} blank", 3, house_with_blanks(&[2, 4, 3, 6, 7]), lowest));
    let highest = drawn(1, 0, &[4], "2;");
    all.push(listed("house, all but {2} blank", 4, house_with_blanks(&[1, 2, 3, 6, 7]), highest));
    let two = vec![Row::scored(2, 2), Row::unscored(1)];
    all.push(listed("{1} at 2, {0} blank", 5, two, drawn(1, 2, &[2], "1;")));
    let far = vec![Row::unscored(u32::MAX), Row::scored(1 << 31, -1), Row::unscored(1)];
    let last = drawn(1, -1, &[1 << 31], "31;");
    all.push(listed("{31} at -1, all taxa and {0} blank", 3, far, last));
    all
}

/// No cluster is scored; or the leaf set's own record isn't, or one of its
/// single taxa.
fn no_trees() -> Vec<WorkedList> {
    let mut all = Vec::new();
    for d in 3..=5 {
        all.push(listed("{5} blank", d, vec![Row::unscored(32)], None));
        all.push(listed("house, all blank", d, house_with_blanks(&[1, 2, 4, 3, 6, 7]), None));
        all.push(listed("house, {0,1,2} blank", d, house_with_blanks(&[7]), None));
    }
    all.push(listed("house, {1,2} and {0,1,2} blank", 3, house_with_blanks(&[6, 7]), None));
    all.push(listed("house, {0,1}, {1,2}, {0,1,2} blank", 4, house_with_blanks(&[3, 6, 7]), None));
    all.push(listed("house, {2} blank", 5, house_with_blanks(&[4]), None));
    all.push(listed("house, {2} and {0,1,2,3} blank", 3, house_with_blanks(&[4, 15]), None));
    all.push(listed("{0,1} and {0,1,2} at 1, {0} blank", 3, two_over(Row::unscored(1)), None));
    all
}

/// {0,1} and {0,1,2}, both scored, over a record of {0}.
fn two_over(first: Row) -> Vec<Row> {
    vec![first, Row::scored(3, 1), Row::scored(7, 1)]
}

fn edited(says: &str, d: u32, blanks: &[u32], edits: &[Edit], drawn: Option<Drawn>) -> WorkedList {
    let rows = house_with_blanks(blanks);
    WorkedList { says: says.into(), d, rows, edits: edits.to_vec(), drawn }
}

/// Rescorings that take something out of the leaf set, or all of it.
fn rescored_away() -> Vec<WorkedList> {
    let without_2 = [blank(7), blank(6), blank(4)];
    let none: Vec<Edit> = [7, 1, 6, 2, 4, 3].into_iter().map(blank).collect();
    let back = |more: &[Edit], edits: &[Edit]| [edits, more].concat();
    let pair = drawn(1, 4, &[1, 2, 3], "(0,1);");
    let over_pair = |count: u32| drawn(count, 5, &[1, 2, 3, 4, 7], "((0,1),2);");
    let whole_again = back(&[score(7, 1), score(4, 0)], &without_2);
    let says = "{0,1} and {0,1,2} at 1, {0} taken away".into();
    let (rows, edits) = (two_over(Row::scored(1, 2)), vec![blank(1)]);
    vec![
        WorkedList { says, d: 3, rows, edits, drawn: None },
        edited("house, {0,1,2} taken away", 3, &[], &[blank(7)], None),
        edited("house, {0,1,2} away and back", 4, &[], &[blank(7), score(7, 1)], of_house(4)),
        edited("house, {0,1,2} blank, then scored", 3, &[7], &[score(7, 1)], of_house(3)),
        edited("house, all with 2 taken away", 3, &[], &without_2, pair.clone()),
        edited("house, all with 2 taken away", 5, &[8, 15], &without_2, pair),
        edited(
            "all with 2 taken away, {0,1,2} back",
            3,
            &[],
            &back(&[score(7, 1)], &without_2),
            None,
        ),
        edited("all with 2 taken away, {0,1,2} and {2} back", 3, &[], &whole_again, over_pair(1)),
        edited("all with 2 taken away, {0,1,2} and {2} back", 4, &[], &whole_again, over_pair(2)),
        edited("house, all taken away", 3, &[], &none, None),
        edited("house, all taken away", 4, &[8, 15], &none, None),
        edited(
            "house, all taken away, {1} back at -3",
            5,
            &[],
            &back(&[score(2, -3)], &none),
            drawn(1, -3, &[2], "1;"),
        ),
    ]
}

/// Rescorings that bring a blank in, and out again.
fn rescored_and_grown() -> Vec<WorkedList> {
    let taxon = score(8, 2);
    let over = score(15, 1);
    let top = |count: u32| drawn(count, 8, &[1, 2, 4, 6, 7, 8, 15], "((0,(1,2)),3);");
    let out_again = [taxon, over, blank(15), blank(8)];
    let mut all = vec![
        edited("house, blank {3} scored", 3, &[8], &[taxon], None),
        edited("house, blank {3} scored, blank again", 3, &[8], &[taxon, blank(8)], of_house(3)),
        edited("house, blank {3} at 0", 4, &[8], &[score(8, 0)], None),
        edited("{3} scored, {0,1,2,3} blank", 3, &[8, 15], &[taxon], None),
        edited("{0,1,2,3} scored, {3} blank", 5, &[8, 15], &[over], None),
        edited("{3} and {0,1,2,3} scored, both out again", 5, &[8, 15], &out_again, of_house(5)),
    ];
    // {0,1,2} with {3}; with three children also {0,1} with {2} and {3}, and
    // {0} with {1,2} and {3}; with four all single taxa.
    for (d, count) in [(3, 2), (4, 5), (5, 6)] {
        all.push(edited("{3} and {0,1,2,3} scored", d, &[8, 15], &[taxon, over], top(count)));
    }
    all
}
