//! What the generated cases show of the leaf set (RULES 2, 3 and 8): how
//! unscored clusters stand to it, where its row stands, what is drawn from
//! there, and how rescorings move it. Nothing may be missing.

use std::collections::BTreeMap;

use crate::formulas::{Edit, work_out};
use crate::records::{Row, read_list};
use crate::rules::{inside, leaf_set};
use crate::solve::ascending;
use crate::stream::Ask;
use crate::table::Table;
use crate::variants::Rules;

/// The rows of a case, ascending, with their leaf set and its row.
struct Leaves {
    rows: Vec<Row>,
    all: u32,
    at: Option<usize>,
}

impl Leaves {
    fn of(rows: &[Row]) -> Leaves {
        let rows = ascending(rows);
        let all = leaf_set(&rows, Rules::TRUE);
        let at = rows.iter().position(|r| r.cluster == all);
        Leaves { rows, all, at }
    }

    /// Some row is scored, and some unscored cluster is as asked for.
    fn has_blank(&self, wanted: impl Fn(u32) -> bool) -> bool {
        self.all != 0 && self.rows.iter().any(|r| !r.scored && wanted(r.cluster))
    }

    fn is_before_last(&self) -> bool {
        self.at.is_some_and(|at| at + 1 < self.rows.len())
    }
}

type Stand = fn(&Leaves) -> bool;

const NONE_SCORED: &str = "none scored";
const UNDER_ALL: &str = "a blank under all";

/// How unscored clusters, and the leaf set's row, can stand.
const STANDS: [(&str, Stand); 11] = [
    ("a blank over all", |l| l.has_blank(|c| inside(l.all, c) && c != l.all)),
    ("a blank inside", |l| l.has_blank(|c| inside(c, l.all) && c != l.all)),
    (UNDER_ALL, |l| l.has_blank(|c| l.rows.iter().all(|r| !r.scored || inside(c, r.cluster)))),
    ("a blank beside", |l| l.has_blank(|c| c & l.all == 0)),
    ("a blank across", |l| {
        l.has_blank(|c| c & l.all != 0 && !inside(c, l.all) && !inside(l.all, c))
    }),
    ("a blank before every scored row", |l| l.has_blank(|c| c == l.rows[0].cluster)),
    ("a blank behind every scored row", |l| l.has_blank(|c| c == l.rows[l.rows.len() - 1].cluster)),
    ("its row in the middle", |l| {
        l.is_before_last() && l.at.is_some_and(|at| at > 0 && l.rows[at].scored)
    }),
    ("its row unscored", |l| l.has_blank(|c| c == l.all)),
    ("no row", |l| l.all != 0 && l.at.is_none()),
    (NONE_SCORED, |l| l.all == 0),
];

const DRAWN: &str = "drawn from a row before the last";
const MARKS_REFUSED: &str = "marks refused in a row before the last";

/// The leaf sets that rescorings pass, the first one first, with whether the
/// leaf set's row is unscored.
type Passed = [(u32, bool)];
type Move = fn(&Passed) -> bool;

/// How rescorings can move the leaf set.
const MOVES: [(&str, Move); 6] = [
    ("shrunk", |p| ends(p, |first, last| last != first && inside(last, first))),
    ("grown", |p| ends(p, |first, last| last != first && inside(first, last))),
    ("its row become unscored", |p| {
        ends(p, |first, last| first == last) && !p[0].1 && p[p.len() - 1].1
    }),
    ("its row become scored", |p| {
        ends(p, |first, last| first == last) && p[0].1 && !p[p.len() - 1].1
    }),
    ("all become unscored", |p| ends(p, |first, last| first != 0 && last == 0)),
    ("moved and back", |p| ends(p, |a, b| a == b) && p.iter().any(|step| step.0 != p[0].0)),
];

fn ends(passed: &Passed, told: fn(u32, u32) -> bool) -> bool {
    told(passed[0].0, passed[passed.len() - 1].0)
}

/// Operations with what is drawn of them; of tables, those that a build makes
/// and those that none does.
const ASKED: [(&str, &[&str], bool); 9] = [
    ("build", &[], false),
    ("line", &[DRAWN], false),
    ("whole", &[DRAWN], true),
    ("rescore", &[], true),
    ("rescore, made up", &[], true),
    ("tree", &[DRAWN], false),
    ("tree, made up", &[DRAWN, MARKS_REFUSED], false),
    ("text", &[DRAWN], false),
    ("text, made up", &[DRAWN, MARKS_REFUSED], false),
];

/// The bytes of a whole case's answer from its tree on.
const DRAWINGS: usize = 17 + 4 * 128 + 17 + 256;

#[derive(Default)]
pub struct LeafCoverage {
    seen: BTreeMap<(&'static str, &'static str), u64>,
}

impl LeafCoverage {
    pub fn note(&mut self, ask: &Ask, answer: &[u8]) {
        match ask {
            Ask::Build { d, list } => self.note_list("build", *d, list, &[], None),
            Ask::Line { d, list, .. } => {
                let refused = answer[17..].windows(7).any(|word| word == b"refused");
                let drawn = (answer[0] == 0 && !refused).then_some(0);
                self.note_list("line", *d, list, &[], drawn);
            }
            Ask::Whole { d, list, edits } => {
                let drawn = Some(answer[answer.len() - DRAWINGS]);
                let made = made(edits, &answer[17..]);
                self.note_list("whole", *d, list, &made, drawn);
            }
            Ask::Rescore { table, edits } => {
                self.note_table(["rescore", "rescore, made up"], table, &made(edits, answer), None)
            }
            Ask::Tree { table, .. } => {
                self.note_table(["tree", "tree, made up"], table, &[], Some(answer[0]))
            }
            Ask::Text { table, .. } => {
                self.note_table(["text", "text, made up"], table, &[], Some(answer[0]))
            }
            _ => {}
        }
    }

    fn note_list(
        &mut self,
        who: &'static str,
        d: u32,
        list: &[u8],
        edits: &[Edit],
        sent: Option<u8>,
    ) {
        if let Ok(rows) = read_list(d, list) {
            self.note_rows(who, &rows, edits, sent);
        }
    }

    /// A fit table, under the name for built ones or for those made up.
    fn note_table(
        &mut self,
        who: [&'static str; 2],
        table: &Table,
        edits: &[Edit],
        sent: Option<u8>,
    ) {
        if table.is_fit() {
            self.note_rows(who[is_made_up(table) as usize], &table.rows(), edits, sent);
        }
    }

    fn note_rows(&mut self, who: &'static str, rows: &[Row], edits: &[Edit], sent: Option<u8>) {
        let mut rows = rows.to_vec();
        let mut passed = Vec::new();
        let mut pass = |rows: &[Row]| {
            let all = leaf_set(rows, Rules::TRUE);
            passed.push((all, rows.iter().any(|r| r.cluster == all && !r.scored)));
        };
        pass(&rows);
        for edit in edits {
            let rescored = rows.iter_mut().find(|r| r.cluster as u64 == edit.cluster);
            let row = rescored.expect("a rescoring that was made names a row");
            (row.weight, row.scored) = (edit.weight, edit.state == 1);
            pass(&rows);
        }
        let leaves = Leaves::of(&rows);
        let stands = STANDS.iter().filter(|(_, stand)| stand(&leaves)).map(|s| s.0);
        let moves = MOVES.iter().filter(|(_, moved)| moved(&passed)).map(|m| m.0);
        let drawn = match sent {
            Some(0 | 11) if leaves.is_before_last() => Some(DRAWN),
            Some(8) if leaves.is_before_last() => Some(MARKS_REFUSED),
            _ => None,
        };
        for what in stands.chain(moves).chain(drawn) {
            *self.seen.entry((who, what)).or_default() += 1;
        }
    }

    fn times(&self, who: &'static str, what: &'static str) -> u64 {
        self.seen.get(&(who, what)).copied().unwrap_or(0)
    }

    pub fn print(&self) {
        for asked in ASKED {
            let part = |what| format!("{what}: {}", self.times(asked.0, what));
            let parts: Vec<String> = wanted(asked).into_iter().map(part).collect();
            println!("leaf sets, {}: {}", asked.0, parts.join(", "));
        }
    }

    /// What no case showed, with the operation that it is missing in.
    pub fn missing(&self) -> Vec<String> {
        let of = |asked: (&'static str, _, _)| {
            let missing = wanted(asked).into_iter().filter(move |w| self.times(asked.0, w) == 0);
            missing.map(move |what| format!("{}: {what}", asked.0))
        };
        ASKED.into_iter().flat_map(of).collect()
    }
}

/// What an operation has to show. A fit table with none scored holds zeros
/// alone, as a build makes it, so none is made up; and a blank under all leaves
/// no taxon scored by itself, so that made-up tables with one are rare.
fn wanted((who, drawn, rescores): (&str, &[&'static str], bool)) -> Vec<&'static str> {
    let stands = STANDS.iter().map(|s| s.0);
    let built = !who.ends_with("made up");
    let stands = stands.filter(move |&what| built || (what != NONE_SCORED && what != UNDER_ALL));
    let moves = MOVES.iter().map(|m| m.0).filter(|_| rescores);
    stands.chain(drawn.iter().copied()).chain(moves).collect()
}

/// The rescorings that were made, by what was sent back for each.
fn made(edits: &[Edit], sent: &[u8]) -> Vec<Edit> {
    edits.iter().zip(sent.chunks(17)).filter(|(_, s)| s[0] == 0).map(|(e, _)| *e).collect()
}

/// Some row isn't what the rows beneath make of it, so no build made it.
fn is_made_up(table: &Table) -> bool {
    (0..table.n as usize).any(|i| work_out(table, i, Rules::TRUE) != table.results(i))
}
