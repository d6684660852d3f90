//! The whole table that a build should hand back, worked out from the trees.
//! From RULES 3 to 5.
//!
//! A row's trees are found by trying sets (`rules`), unless the list was made
//! so that they are known from its parts (`blocks`): then alternatives add
//! and disjoint parts multiply.

use crate::blocks::Joint;
use crate::formulas::{stored_count, work_out};
use crate::records::Row;
use crate::rules::{OverBudget, Tree, Trees, agree, each_tree, inside, is_tree, keep_better};
use crate::table::{Results, Table};
use crate::tuples::each_tuple;
use crate::variants::{Rules, Variant};

/// Steps that a list may take, enough for some 200,000 trees on its rows.
pub const BUDGET: u64 = 60_000_000;

pub fn ascending(rows: &[Row]) -> Vec<Row> {
    let mut sorted = rows.to_vec();
    sorted.sort_by_key(|r| r.cluster);
    sorted
}

/// The table of a list of good records, in any order.
pub fn table_of(
    d: u32,
    rows: &[Row],
    joints: &[Joint],
    rules: Rules,
    budget: u64,
) -> Result<Table, OverBudget> {
    let rows = ascending(rows);
    let mut table = Table::of_rows(d, &rows);
    for (i, trees) in trees_of_rows(d, &rows, joints, rules, budget)?.iter().enumerate() {
        let (count, mark) = stored_count(trees.count, rules);
        let first = trees.first.unwrap_or(Tree { weight: 0, members: 0 });
        let length = row_length(d, &rows, i, rules);
        let (best, members) = (first.weight, first.members);
        table.set_results(i, Results { length, count, mark, best, members });
    }
    if rules.has(Variant::ManyTimesNone) && table.marks.contains(&1) {
        for i in 0..rows.len() {
            table.set_results(i, work_out(&table, i, rules));
        }
    }
    Ok(table)
}

/// The trees on every row, without the limit that a table puts on counts.
pub fn trees_of_rows(
    d: u32,
    rows: &[Row],
    joints: &[Joint],
    rules: Rules,
    budget: u64,
) -> Result<Vec<Trees>, OverBudget> {
    let mut steps = budget;
    let mut all: Vec<Trees> = Vec::new();
    for i in 0..rows.len() {
        let joint = joints.iter().find(|j| j.cluster == rows[i].cluster);
        let mut trees = match joint {
            Some(joint) => joined(rows, i, joint, &all, rules),
            None => tried(d, rows, i, &all, rules, &mut steps)?,
        };
        if rules.has(Variant::Greedy) && joint.is_none() && trees.count > 0 {
            trees.first = greedy(d, rows, i, rules);
            trees.count = if trees.first.is_some() { trees.count } else { 0 };
        }
        all.push(trees);
    }
    Ok(all)
}

/// Trees on row `i` by trying sets.
fn tried(
    d: u32,
    rows: &[Row],
    i: usize,
    beneath: &[Trees],
    rules: Rules,
    steps: &mut u64,
) -> Result<Trees, OverBudget> {
    let with_trees = beneath.iter().enumerate().filter(|(_, t)| t.count > 0);
    let mut fruitful = with_trees.fold(0u128, |m, (j, _)| m | 1 << j);
    // A single taxon is its own only tree and stands among its own members.
    fruitful |= 1 << i;
    let mut trees = Trees::default();
    each_tree(rows, i, d, rules, fruitful, steps, &mut |tree, times| {
        trees.count += times;
        keep_better(&mut trees.first, tree);
    })?;
    Ok(trees)
}

/// Trees on row `i`, whose list was made so that its children are one of
/// known sets: each set's trees multiply, and the sets add up.
fn joined(rows: &[Row], i: usize, joint: &Joint, beneath: &[Trees], rules: Rules) -> Trees {
    let mut trees = Trees::default();
    if !rules.usable(rows[i].scored) {
        return trees;
    }
    for way in &joint.ways {
        let at = |c: &u32| rows.binary_search_by_key(c, |r| r.cluster).unwrap();
        let parts: Vec<&Trees> = way.iter().map(|c| &beneath[at(c)]).collect();
        let orders: u128 = (1..=way.len() as u128).product();
        let times = if rules.has(Variant::OrderedTuples) { orders } else { 1 };
        trees.count += parts.iter().map(|p| p.count).product::<u128>() * times;
        let mut tree = Tree { weight: rows[i].weight as i64, members: 1 << i };
        let firsts: Option<Vec<Tree>> = parts.iter().map(|p| p.first).collect();
        for part in firsts.iter().flatten() {
            tree.weight += part.weight;
            tree.members |= part.members;
        }
        if firsts.is_some() {
            keep_better(&mut trees.first, tree);
        }
    }
    trees
}

/// The number of sets of two or more disjoint usable clusters that make up
/// the row's cluster.
fn row_length(d: u32, rows: &[Row], i: usize, rules: Rules) -> u64 {
    if !rules.usable(rows[i].scored) {
        return 0;
    }
    let usable = rows[..i].iter().filter(|r| rules.usable(r.scored));
    let clusters: Vec<u32> = usable.map(|r| r.cluster).collect();
    let mut length = 0;
    each_tuple(&clusters, rows[i].cluster, rules.most_children(d) as usize, &mut |tuple| {
        let orders: u64 = (1..=tuple.len() as u64).product();
        length += if rules.has(Variant::OrderedTuples) { orders } else { 1 };
    });
    length
}

/// The mistake of taking the heaviest cluster that still fits, over and over.
fn greedy(d: u32, rows: &[Row], top: usize, rules: Rules) -> Option<Tree> {
    let whole = rows[top].cluster;
    let fits = |&i: &usize| rows[i].scored && inside(rows[i].cluster, whole);
    let mut by_weight: Vec<usize> = (0..rows.len()).filter(fits).collect();
    by_weight.sort_by_key(|&i| (-(rows[i].weight as i64), u32::MAX - rows[i].cluster));
    let forced = |i: usize| i == top || rows[i].cluster.count_ones() == 1;
    let mut taken: Vec<usize> = by_weight.iter().copied().filter(|&i| forced(i)).collect();
    for i in by_weight.into_iter().filter(|&i| !forced(i)) {
        if taken.iter().all(|&j| agree(rows[i].cluster, rows[j].cluster)) {
            taken.push(i);
        }
    }
    let members: Vec<u32> = taken.iter().map(|&i| rows[i].cluster).collect();
    is_tree(&members, whole, d, rules).then(|| Tree {
        weight: taken.iter().map(|&i| rows[i].weight as i64).sum(),
        members: taken.iter().fold(0, |m, &i| m | 1 << i),
    })
}
