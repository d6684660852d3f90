//! The cases of leaf sets that every run makes: the lists worked by hand, as
//! they stand after their rescorings, the rescorings themselves, and the same
//! tables with a row that no build makes, or with marks in the leaf set's row
//! that are no tree of its best weight. From RULES 2, 3 and 6 to 8.

use crate::answer::Origin;
use crate::given::{Case, built};
use crate::prng::Prng;
use crate::special::{add, asked_throughout, made, rescored_by};
use crate::stream::Ask;
use crate::table::Table;
use crate::unbuilt::other_tree;
use crate::variants::Rules;
use crate::worked_lists::{WorkedList, worked_lists};

pub fn special_leaves(all: &mut Vec<Case>, rng: &mut Prng) {
    for worked in worked_lists() {
        let after = made(worked.rescored(), &worked.says);
        asked_throughout(all, rng, worked.d, &after);
        made_up_tables(all, rng, &worked);
        if !worked.edits.is_empty() {
            rescored_by(all, worked.d, &made(worked.rows, &worked.says), worked.edits);
        }
    }
}

/// A change to one row of a table; false if it has no place for it.
type Off = fn(&mut Table, usize) -> bool;

/// Ways in which the marks of a row are no tree of its best weight.
const OFF: [(&str, Off); 4] = [
    ("the best one more", |t, top| {
        t.bests[top] += 1;
        true
    }),
    ("its lowest member left out", |t, top| {
        t.members[top] &= t.members[top] - 1;
        t.members[top] != 0
    }),
    ("all inside marked", |t, top| mark_inside(t, top, |_| true)),
    ("a blank inside marked", |t, top| mark_inside(t, top, |state| state == 0)),
];

/// Marks the rows inside one, of the states that are wanted; false if none is
/// marked anew.
fn mark_inside(table: &mut Table, top: usize, wanted: fn(u8) -> bool) -> bool {
    let before = table.members[top];
    for i in (0..top).filter(|&i| table.clusters[i] & !table.clusters[top] == 0) {
        table.members[top] |= (wanted(table.states[i]) as u128) << i;
    }
    table.members[top] != before
}

/// Tables with the rows of a list, and results that no build makes of them.
fn made_up_tables(all: &mut Vec<Case>, rng: &mut Prng, worked: &WorkedList) {
    let table_of = |rows| with_a_stray(built(worked.d, &made(rows, "")).table);
    let stray = table_of(worked.rescored());
    asked_to_draw(all, rng, &stray, &format!("a stray count, {}", worked.says));
    if !worked.edits.is_empty() {
        let table = Box::new(table_of(worked.rows.clone()));
        let ask = Ask::Rescore { table, edits: worked.edits.clone() };
        add(all, ask, &Origin::default(), &format!("a stray count, {}", worked.says));
    }
    let Some(top) = stray.leaf_row(Rules::TRUE).filter(|&top| stray.counts[top] > 0) else {
        return;
    };
    if let Some(other) = other_tree(rng, &stray, Rules::TRUE) {
        asked_to_draw(all, rng, &other, &format!("another tree marked, {}", worked.says));
    }
    // One degree bound tells as much as three of what is off.
    for (says, change) in OFF.iter().filter(|_| worked.d == 3) {
        let mut off = stray.clone();
        if change(&mut off, top) {
            asked_to_draw(all, rng, &off, &format!("{says}, {}", worked.says));
        }
    }
}

/// Nine trees on the first scored taxon, where a build has one.
fn with_a_stray(mut table: Table) -> Table {
    let single = |&i: &usize| table.counts[i] == 1 && table.clusters[i].count_ones() == 1;
    if let Some(i) = (0..table.n as usize).find(single) {
        table.counts[i] = 9;
    }
    table
}

fn asked_to_draw(all: &mut Vec<Case>, rng: &mut Prng, table: &Table, says: &str) {
    let none = &Origin::default();
    let room = (0..12).map(|_| rng.draw() as u32).collect();
    add(all, Ask::Tree { table: Box::new(table.clone()), room }, none, says);
    let room = rng.bytes(30);
    add(all, Ask::Text { table: Box::new(table.clone()), room }, none, says);
}
