//! Blanks, that is unscored clusters, put among the records of a list, each in
//! one way of standing to the leaf set; and rescorings that change it. From
//! what the leaf set is (RULES 2 and 3).

use crate::formulas::Edit;
use crate::lists::weight;
use crate::prng::Prng;
use crate::records::Row;
use crate::rules::leaf_set;
use crate::table::{ROOM, Table};
use crate::variants::Rules;

/// A change to the records of a list; false if it has no place for it.
pub type Blank = fn(&mut Vec<Row>, &mut Prng) -> bool;

pub const BLANKS: [(&str, Blank); 11] = [
    ("a blank over all", over_all),
    ("a blank taxon beside", |rows, rng| {
        let beside = one_of(rng, free(rows));
        put_in(rows, rng, beside)
    }),
    ("a blank group beside", |rows, rng| {
        let beside = some_of(rng, free(rows));
        put_in(rows, rng, beside)
    }),
    ("a blank across", |rows, rng| {
        let (own, shared) = (some_of(rng, free(rows)), some_of(rng, leaves(rows)));
        own != 0 && put_in(rows, rng, own | shared)
    }),
    ("a blank inside", |rows, rng| {
        let inside = some_of(rng, leaves(rows));
        put_in(rows, rng, inside)
    }),
    ("a blank under all", under_all),
    ("two blanks over all", |rows, rng| over_all(rows, rng) && over_all(rows, rng)),
    ("the leaf set blank", |rows, _| leaf_set_blank(rows)),
    ("the leaf set blank under a blank", |rows, rng| over_all(rows, rng) && leaf_set_blank(rows)),
    ("a taxon blank throughout", |rows, rng| {
        let taxon = one_of(rng, leaves(rows));
        blank_where(rows, |c| c & taxon != 0)
    }),
    ("all blank", |rows, _| blank_where(rows, |_| true)),
];

/// Makes one of these changes, or none where it has no place; in words.
pub fn blanked(rng: &mut Prng, rows: &mut Vec<Row>) -> String {
    let (says, blank) = BLANKS[rng.below(BLANKS.len())];
    if blank(rows, rng) { format!(", {says}") } else { String::new() }
}

fn over_all(rows: &mut Vec<Row>, rng: &mut Prng) -> bool {
    let own = some_of(rng, free(rows));
    own != 0 && put_in(rows, rng, leaves(rows) | own)
}

/// All scored ones that are left contain the new blank.
fn under_all(rows: &mut Vec<Row>, rng: &mut Prng) -> bool {
    let scored: Vec<u32> = rows.iter().filter(|r| r.scored).map(|r| r.cluster).collect();
    if scored.is_empty() {
        return false;
    }
    let over = rng.pick(&scored);
    let under = some_of(rng, over);
    blank_where(rows, |c| c == under || c & under != under);
    put_in(rows, rng, under);
    true
}

fn leaf_set_blank(rows: &mut [Row]) -> bool {
    let all = leaves(rows);
    blank_where(rows, |c| c == all)
}

fn leaves(rows: &[Row]) -> u32 {
    leaf_set(rows, Rules::TRUE)
}

/// The taxa that no record names.
fn free(rows: &[Row]) -> u32 {
    !rows.iter().fold(0, |union, row| union | row.cluster)
}

/// One of some taxa, if there are any.
fn one_of(rng: &mut Prng, taxa: u32) -> u32 {
    let all: Vec<u32> = (0..32).map(|t| 1 << t).filter(|t| t & taxa != 0).collect();
    if all.is_empty() { 0 } else { rng.pick(&all) }
}

/// One or more of some taxa, if there are any.
fn some_of(rng: &mut Prng, taxa: u32) -> u32 {
    taxa & rng.draw() as u32 | one_of(rng, taxa)
}

/// A new unscored record anywhere in the list.
fn put_in(rows: &mut Vec<Row>, rng: &mut Prng, cluster: u32) -> bool {
    let fits = cluster != 0 && rows.len() < ROOM && rows.iter().all(|r| r.cluster != cluster);
    if fits {
        rows.insert(rng.below(rows.len() + 1), Row::unscored(cluster));
    }
    fits
}

/// Unscores the scored records that are asked for; false if there are none.
fn blank_where(rows: &mut [Row], wanted: impl Fn(u32) -> bool) -> bool {
    let mut any = false;
    for row in rows.iter_mut().filter(|r| r.scored && wanted(r.cluster)) {
        *row = Row::unscored(row.cluster);
        any = true;
    }
    any
}

/// The longest table that has all its rows unscored one after another.
const SHORT: usize = 24;

/// Rescorings of a fit table that bear on its leaf set.
pub fn leaf_edits(rng: &mut Prng, table: &Table) -> Vec<Edit> {
    let rows = table.rows();
    if rows.len() <= SHORT && rng.chance(12) {
        return all_taken_away(rng, &rows);
    }
    let kind = rng.below(5);
    let mut now = rows.clone();
    let mut edits = Vec::new();
    let mut at = rng.below(rows.len());
    for _ in 0..1 + rng.below(4) {
        let set_back = !edits.is_empty() && rng.chance(30);
        at = if set_back { at } else { telling_row(rng, &now) };
        now[at] = match now[at] {
            _ if set_back => rows[at],
            row if row.scored => Row::unscored(row.cluster),
            row => Row::scored(row.cluster, weight(rng, kind)),
        };
        edits.push(edit_to(now[at]));
    }
    edits
}

fn edit_to(row: Row) -> Edit {
    Edit { cluster: row.cluster as u64, weight: row.weight, state: row.state() }
}

/// The leaf set's row, a scored row, an unscored one, or any.
fn telling_row(rng: &mut Prng, rows: &[Row]) -> usize {
    let top = leaves(rows);
    let wanted = match rng.below(6) {
        0..=1 => rows.iter().position(|r| r.cluster == top),
        2 => rows.iter().rposition(|r| r.scored),
        3 => rows.iter().rposition(|r| !r.scored),
        4 => rows.iter().position(|r| !r.scored),
        _ => None,
    };
    wanted.unwrap_or_else(|| rng.below(rows.len()))
}

/// Every scored row unscored, and at times one of them scored again.
fn all_taken_away(rng: &mut Prng, rows: &[Row]) -> Vec<Edit> {
    let mut scored: Vec<Row> = rows.iter().copied().filter(|r| r.scored).collect();
    rng.shuffle(&mut scored);
    let away = scored.iter().map(|r| edit_to(Row::unscored(r.cluster)));
    let back = scored.first().filter(|_| rng.chance(40)).map(|&r| edit_to(r));
    away.chain(back).collect()
}
