//! Fit tables that no build made: random results that keep every sentence of
//! what a fit table is, built tables bent in some rows, tables with rows
//! unscored, and tables that mark another tree. From RULES 6.

use crate::lists::random_rows;
use crate::newick::drawn_tree;
use crate::prng::Prng;
use crate::rules::{Tree, each_tree};
use crate::solve::ascending;
use crate::table::{COUNT_END, LENGTH_END, Results, Table};
use crate::variants::{Rules, Variant};

/// Any fit table, on clusters that go together as those of lists do.
pub fn random_fit(rng: &mut Prng) -> Table {
    let (rows, _) = random_rows(rng);
    let mut rows = ascending(&rows);
    // Long tables with wide rows make many tuples; most tables stay short.
    if rng.chance(70) {
        rows.truncate(60);
    }
    let d = 3 + rng.below(3) as u32;
    let mut table = Table::of_rows(d, &rows);
    let tied = rng.chance(50);
    for (i, row) in rows.iter().enumerate() {
        if row.scored {
            let results = random_results(rng, &table, i, tied);
            table.set_results(i, results);
        }
    }
    table
}

/// Lawful results for a scored row.
fn random_results(rng: &mut Prng, table: &Table, i: usize, tied: bool) -> Results {
    let single = table.clusters[i].count_ones() == 1;
    let length = if single { 0 } else { rng.pick(&[0, 1, 2, 7, LENGTH_END]) };
    if rng.chance(12) {
        return Results { length, ..Results::default() };
    }
    let count = match rng.below(8) {
        0 => COUNT_END,
        1 => COUNT_END - rng.below(3) as u64,
        2 => 65_535 + rng.below(3) as u64,
        3 => 1 + rng.draw() % COUNT_END,
        _ => 1 + rng.below(6) as u64,
    };
    let mark = (count == COUNT_END && rng.chance(50)) as u8;
    let end = 1_000_000 * (2 * table.clusters[i].count_ones() as i64 - 1);
    let best = match rng.below(6) {
        _ if tied => rng.range(-1, 1),
        0 => end,
        1 => -end,
        2 => rng.range(-end, end),
        _ => rng.range(-3, 3),
    };
    let percent = rng.pick(&[0, 10, 50, 100]);
    let mut members = 1 << i;
    for j in 0..i {
        if table.clusters[j] & !table.clusters[i] == 0 && rng.chance(percent) {
            members |= 1 << j;
        }
    }
    Results { length, count, mark, best, members }
}

/// A fit table with the results of some scored rows made up anew.
pub fn bent(rng: &mut Prng, table: &Table) -> Table {
    let mut bent = table.clone();
    for _ in 0..1 + rng.below(4) {
        let i = rng.below(table.n as usize);
        if table.states[i] == 1 {
            let tied = rng.chance(50);
            let results = random_results(rng, table, i, tied);
            bent.set_results(i, results);
        }
    }
    bent
}

/// The row of the leaf set, if a tree can be drawn.
fn drawn_row(table: &Table) -> Option<usize> {
    drawn_tree(table, Rules::TRUE).ok()?;
    table.leaf_row(Rules::TRUE)
}

/// A table whose leaf-set row marks some other tree, with that tree's weight;
/// under a variant's rules it may be no tree by the true ones.
pub fn other_tree(rng: &mut Prng, table: &Table, rules: Rules) -> Option<Table> {
    let top = drawn_row(table)?;
    let mut steps = 3_000;
    let mut trees: Vec<Tree> = Vec::new();
    let rows = table.rows();
    let scored = (0..rows.len()).filter(|&i| rows[i].scored).fold(0u128, |m, i| m | 1 << i);
    // If the steps run out, the trees met until then will do.
    let _ = each_tree(&rows, top, table.d, rules, scored, &mut steps, &mut |t, _| trees.push(t));
    let tree = *trees.get(rng.below(trees.len().max(1)))?;
    let mut other = table.clone();
    other.bests[top] = tree.weight;
    other.members[top] = tree.members;
    Some(other)
}

/// A table that marks a set in which some member has d children.
pub fn too_many_children(rng: &mut Prng, table: &Table) -> Option<Table> {
    let loose = Rules { variant: Some(Variant::OneChildMore) };
    let tries = (0..8).map(|_| other_tree(rng, table, loose));
    tries.flatten().find(|t| drawn_tree(t, Rules::TRUE).is_err())
}

/// A table whose leaf-set row's marks or best weight are a little off. It is
/// still fit in almost all cases.
pub fn marks_off(rng: &mut Prng, table: &Table) -> Option<Table> {
    let top = drawn_row(table)?;
    let mut off = table.clone();
    let inside = |&i: &usize| table.clusters[i] & !table.clusters[top] == 0;
    let within: Vec<usize> = (0..=top).filter(inside).collect();
    let i = rng.pick(&within);
    match rng.below(5) {
        0 => off.bests[top] += rng.pick(&[-1, 1]),
        1 => off.members[top] |= 1 << i,
        2 => off.members[top] ^= 1 << i,
        3 => {
            off.members[top] ^= 1 << i;
            let by = table.weights[i] as i64;
            off.bests[top] += if off.members[top] >> i & 1 == 1 { by } else { -by };
        }
        _ => off.members[top] = 1 << top | 1 << i,
    }
    Some(off)
}

/// A fit table in which a marked row has become unscored, so that the marks
/// on the leaf set's row are no tree any more.
pub fn marked_unscored(rng: &mut Prng, table: &Table) -> Option<Table> {
    let top = drawn_row(table)?;
    let marked: Vec<usize> = (0..top).filter(|&i| table.members[top] >> i & 1 == 1).collect();
    let i = *marked.get(rng.below(marked.len().max(1)))?;
    let mut off = table.clone();
    off.bests[top] -= off.weights[i] as i64;
    unscore(&mut off, i);
    Some(off)
}

/// A row becomes unscored, and nothing is worked out again.
fn unscore(table: &mut Table, i: usize) {
    table.weights[i] = 0;
    table.states[i] = 0;
    table.set_results(i, Results::default());
}

/// A fit table with the leaf set's row unscored, or all rows that hold one
/// taxon, or one row with all that don't contain it, or all; the other rows
/// stay as they are.
pub fn rows_unscored(rng: &mut Prng, table: &Table) -> Table {
    let top = table.leaf_row(Rules::TRUE);
    let some = table.clusters[rng.below(table.n as usize)];
    let taxon = some & some.wrapping_neg();
    let way = rng.below(10);
    let goes = |&i: &usize| match way {
        0 => true,
        1..=3 => table.clusters[i] & taxon != 0,
        4..=5 => some & !table.clusters[i] != 0 || table.clusters[i] == some,
        _ => Some(i) == top,
    };
    let mut left = table.clone();
    (0..table.n as usize).filter(goes).for_each(|i| unscore(&mut left, i));
    left
}
