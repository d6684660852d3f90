//! Tables broken in one sentence each of what a fit table is, and fit tables
//! right at the edge of a sentence. From RULES 6.

use crate::prng::Prng;
use crate::table::{COUNT_END, LENGTH_END, ROOM, Results, Table};

/// A change to a fit table; false if the table has no place for it.
pub type Change = fn(&mut Table, &mut Prng) -> bool;

/// Every way of breaking a sentence, with its name.
pub const BREAKS: [(&str, Change); 54] = [
    ("d is 0", |t, _| put(0, &mut t.d)),
    ("d is 2", |t, _| put(2, &mut t.d)),
    ("d is 6", |t, _| put(6, &mut t.d)),
    ("d is the largest number", |t, _| put(u32::MAX, &mut t.d)),
    ("no rows", |t, _| put(0, &mut t.n)),
    ("129 rows", |t, _| put(129, &mut t.n)),
    ("four billion rows", |t, _| put(4_000_000_000, &mut t.n)),
    ("2 to the 32 rows and one", |t, _| put((1 << 32) + 1, &mut t.n)),
    ("the most rows a field can say", |t, _| put(u64::MAX, &mut t.n)),
    ("one row too many counted", |t, _| t.n < 128 && put(t.n + 1, &mut t.n)),
    ("all 128 rows counted", |t, _| t.n < 128 && put(128, &mut t.n)),
    ("one row too few counted", |t, _| t.n > 1 && put(t.n - 1, &mut t.n)),
    ("a cluster past the rows", |t, r| {
        past(t, r).is_some_and(|i| put(u32::MAX as u64, &mut t.clusters[i]))
    }),
    ("a weight past the rows", |t, r| past(t, r).is_some_and(|i| put(1, &mut t.weights[i]))),
    ("a state past the rows", |t, r| past(t, r).is_some_and(|i| put(1, &mut t.states[i]))),
    ("a length past the rows", |t, r| past(t, r).is_some_and(|i| put(1, &mut t.lengths[i]))),
    ("a count past the rows", |t, r| past(t, r).is_some_and(|i| put(1, &mut t.counts[i]))),
    ("a mark past the rows", |t, r| past(t, r).is_some_and(|i| put(1, &mut t.marks[i]))),
    ("a best past the rows", |t, r| past(t, r).is_some_and(|i| put(-1, &mut t.bests[i]))),
    ("members past the rows", |t, r| past(t, r).is_some_and(|i| put(1 << i, &mut t.members[i]))),
    ("a mark in a column past the rows", column_past),
    ("weight 1,000,001", |t, r| scored(t, r).is_some_and(|i| put(1_000_001, &mut t.weights[i]))),
    ("weight -1,000,001", |t, r| scored(t, r).is_some_and(|i| put(-1_000_001, &mut t.weights[i]))),
    ("the lowest weight", |t, r| scored(t, r).is_some_and(|i| put(i32::MIN, &mut t.weights[i]))),
    ("state 2", |t, r| any(t, r).is_some_and(|i| put(2, &mut t.states[i]))),
    ("state 255", |t, r| any(t, r).is_some_and(|i| put(255, &mut t.states[i]))),
    ("an unscored weight", |t, r| {
        unscored(t, r).is_some_and(|i| put(r.pick(&[1, -1]), &mut t.weights[i]))
    }),
    ("cluster zero", |t, _| put(0, &mut t.clusters[0])),
    ("a cluster twice", |t, r| {
        later(t, r).is_some_and(|i| put(t.clusters[i - 1], &mut t.clusters[i]))
    }),
    ("clusters not ascending", swapped),
    ("a taxon past 31", |t, _| last_widened(t, 32)),
    ("a taxon far past 31", |t, _| last_widened(t, 63)),
    ("64 taxa", |t, _| put(u64::MAX, &mut t.clusters[t.n as usize - 1])),
    ("length 10,676,002", |t, r| {
        wide(t, r).is_some_and(|i| put(LENGTH_END + 1, &mut t.lengths[i]))
    }),
    ("the largest length", |t, r| wide(t, r).is_some_and(|i| put(u64::MAX, &mut t.lengths[i]))),
    ("count 4,294,967,296", |t, r| {
        counted(t, r).is_some_and(|i| put(COUNT_END + 1, &mut t.counts[i]))
    }),
    ("the largest count", |t, r| counted(t, r).is_some_and(|i| put(u64::MAX, &mut t.counts[i]))),
    ("mark 2", |t, r| counted(t, r).is_some_and(|i| at_limit(t, i, 2))),
    ("mark 255", |t, r| counted(t, r).is_some_and(|i| at_limit(t, i, 255))),
    ("a mark beside one below the limit", |t, r| {
        counted(t, r)
            .is_some_and(|i| put(COUNT_END - 1, &mut t.counts[i]) && put(1, &mut t.marks[i]))
    }),
    ("a mark beside count 1", |t, r| {
        counted(t, r).is_some_and(|i| put(1, &mut t.counts[i]) && put(1, &mut t.marks[i]))
    }),
    ("a length on one taxon", |t, r| single(t, r).is_some_and(|i| put(1, &mut t.lengths[i]))),
    ("an unscored length", |t, r| {
        unscored(t, r).is_some_and(|i| t.clusters[i].count_ones() > 1 && put(1, &mut t.lengths[i]))
    }),
    ("an unscored count", |t, r| {
        unscored(t, r).is_some_and(|i| put(1, &mut t.counts[i]) && put(1 << i, &mut t.members[i]))
    }),
    ("an unscored best", |t, r| unscored(t, r).is_some_and(|i| tree_of_itself(t, i, 1, 5))),
    ("a mark without a count", |t, r| uncounted(t, r).is_some_and(|i| put(1, &mut t.marks[i]))),
    ("members without a count", |t, r| {
        uncounted(t, r).is_some_and(|i| put(1 << i, &mut t.members[i]))
    }),
    ("a best without a count", |t, r| {
        uncounted(t, r).is_some_and(|i| put(r.pick(&[1, -1]), &mut t.bests[i]))
    }),
    ("a count without members", |t, r| {
        counted(t, r).is_some_and(|i| put(0, &mut t.members[i]) && put(0, &mut t.bests[i]))
    }),
    ("the row itself not marked", |t, r| counted(t, r).is_some_and(|i| itself_unmarked(t, i))),
    ("a marked row that lies outside", |t, r| counted(t, r).is_some_and(|i| outsider(t, r, i))),
    ("the best one too high", |t, r| {
        counted(t, r).is_some_and(|i| put(best_end(t, i) + 1, &mut t.bests[i]))
    }),
    ("the best one too low", |t, r| {
        counted(t, r).is_some_and(|i| put(-best_end(t, i) - 1, &mut t.bests[i]))
    }),
    ("the lowest best", |t, r| counted(t, r).is_some_and(|i| put(i64::MIN, &mut t.bests[i]))),
];

/// Changes that keep a table fit, each right at the end of a range.
pub const EDGES: [(&str, Change); 12] = [
    ("weight 1,000,000", |t, r| scored(t, r).is_some_and(|i| put(1_000_000, &mut t.weights[i]))),
    ("weight -1,000,000", |t, r| scored(t, r).is_some_and(|i| put(-1_000_000, &mut t.weights[i]))),
    ("length 10,676,001", |t, r| wide(t, r).is_some_and(|i| put(LENGTH_END, &mut t.lengths[i]))),
    ("length 0", |t, r| wide(t, r).is_some_and(|i| put(0, &mut t.lengths[i]))),
    ("the limit with mark 0", |t, r| counted(t, r).is_some_and(|i| at_limit(t, i, 0))),
    ("the limit with mark 1", |t, r| counted(t, r).is_some_and(|i| at_limit(t, i, 1))),
    ("one taxon with many trees", |t, r| {
        single(t, r).is_some_and(|i| tree_of_itself(t, i, COUNT_END, -7))
    }),
    ("one taxon with no tree", |t, r| {
        single(t, r).map(|i| t.set_results(i, Results::default())).is_some()
    }),
    ("the highest best", |t, r| {
        counted(t, r).is_some_and(|i| put(best_end(t, i), &mut t.bests[i]))
    }),
    ("the lowest best in range", |t, r| {
        counted(t, r).is_some_and(|i| put(-best_end(t, i), &mut t.bests[i]))
    }),
    ("an unscored row marked", |t, r| unscored(t, r).is_some_and(|i| marked_from_above(t, i))),
    ("everything inside marked", |t, r| counted(t, r).is_some_and(|i| all_inside(t, i))),
];

/// The value comes first, so that it may be worked out from the same table.
fn put<T>(value: T, field: &mut T) -> bool {
    *field = value;
    true
}

/// A row, below the number of rows, that `wanted` picks out.
fn row_with(t: &Table, rng: &mut Prng, wanted: impl Fn(usize) -> bool) -> Option<usize> {
    let rows: Vec<usize> = (0..t.n as usize).filter(|&i| wanted(i)).collect();
    (!rows.is_empty()).then(|| rows[rng.below(rows.len())])
}

fn any(t: &Table, rng: &mut Prng) -> Option<usize> {
    row_with(t, rng, |_| true)
}

fn later(t: &Table, rng: &mut Prng) -> Option<usize> {
    row_with(t, rng, |i| i > 0)
}

fn scored(t: &Table, rng: &mut Prng) -> Option<usize> {
    row_with(t, rng, |i| t.states[i] == 1)
}

fn unscored(t: &Table, rng: &mut Prng) -> Option<usize> {
    row_with(t, rng, |i| t.states[i] == 0)
}

fn single(t: &Table, rng: &mut Prng) -> Option<usize> {
    row_with(t, rng, |i| t.states[i] == 1 && t.clusters[i].count_ones() == 1)
}

/// A scored row of two or more taxa.
fn wide(t: &Table, rng: &mut Prng) -> Option<usize> {
    row_with(t, rng, |i| t.states[i] == 1 && t.clusters[i].count_ones() > 1)
}

fn counted(t: &Table, rng: &mut Prng) -> Option<usize> {
    row_with(t, rng, |i| t.counts[i] > 0)
}

fn uncounted(t: &Table, rng: &mut Prng) -> Option<usize> {
    row_with(t, rng, |i| t.counts[i] == 0 && t.states[i] == 1)
}

/// A row past the number of rows.
fn past(t: &Table, rng: &mut Prng) -> Option<usize> {
    let n = t.n as usize;
    let ends = [n, ROOM - 1];
    (n < ROOM).then(|| if rng.chance(60) { rng.pick(&ends) } else { n + rng.below(ROOM - n) })
}

fn column_past(t: &mut Table, rng: &mut Prng) -> bool {
    let Some(i) = counted(t, rng) else {
        return false;
    };
    past(t, rng).is_some_and(|j| put(t.members[i] | 1 << j, &mut t.members[i]))
}

fn swapped(t: &mut Table, rng: &mut Prng) -> bool {
    let Some(i) = later(t, rng) else { return false };
    t.clusters.swap(i - 1, i);
    true
}

fn at_limit(t: &mut Table, i: usize, mark: u8) -> bool {
    t.counts[i] = COUNT_END;
    t.marks[i] = mark;
    true
}

fn tree_of_itself(t: &mut Table, i: usize, count: u64, best: i64) -> bool {
    t.set_results(i, Results { length: 0, count, mark: 0, best, members: 1 << i });
    true
}

/// Another row inside stays marked, so that there are members still.
fn itself_unmarked(t: &mut Table, i: usize) -> bool {
    let inside = (0..i).find(|&j| t.clusters[j] & !t.clusters[i] == 0);
    inside.is_some_and(|j| put(1 << j, &mut t.members[i]))
}

fn outsider(t: &mut Table, rng: &mut Prng, i: usize) -> bool {
    let outside = row_with(t, rng, |j| t.clusters[j] & !t.clusters[i] != 0);
    outside.is_some_and(|j| put(t.members[i] | 1 << j, &mut t.members[i]))
}

/// One more taxon in the last row, which breaks nothing else.
fn last_widened(t: &mut Table, taxon: u32) -> bool {
    t.clusters[t.n as usize - 1] |= 1 << taxon;
    true
}

fn best_end(t: &Table, i: usize) -> i64 {
    1_000_000 * (2 * t.clusters[i].count_ones() as i64 - 1)
}

/// A row above marks this one too.
fn marked_from_above(t: &mut Table, i: usize) -> bool {
    let holds = |&j: &usize| t.clusters[i] & !t.clusters[j] == 0 && t.counts[j] > 0;
    let above = (i + 1..t.n as usize).find(holds);
    above.is_some_and(|j| put(t.members[j] | 1 << i, &mut t.members[j]))
}

fn all_inside(t: &mut Table, i: usize) -> bool {
    let inside = (0..t.n as usize).filter(|&j| t.clusters[j] & !t.clusters[i] == 0);
    t.members[i] = inside.fold(0, |m, j| m | 1 << j);
    true
}
