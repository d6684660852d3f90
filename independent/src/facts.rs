//! Facts from outside: numbers of trees that closed formulas give, held
//! against the trees found by trying sets, and against a probe if there is
//! one. From what a tree is and the tie rule (RULES 3 and 4), with Table 1 of
//! Bryant and Steel, "Constructing Optimal Trees from Quartets", and the
//! example of section 4.2 of Bryant's thesis as lists. The sheets and
//! the lists that were worked out by hand are told with them.
//!
//! With all weights zero the first tree takes, from the largest number down,
//! every cluster it can: of an interval, or of all clusters, these are the
//! ones left when the lowest taxa go one by one. So every field of these
//! tables has a closed formula, also where there are too many trees to try.

use std::io;
use std::path::Path;

use crate::blocks::{eight_groups, full_block};
use crate::compare::{converse, first_difference};
use crate::formulas::stored_count;
use crate::lists::first_taxa;
use crate::records::{Row, list_bytes};
use crate::solve::{ascending, table_of, trees_of_rows};
use crate::stream::{Ask, put_sent, put_table};
use crate::table::{Results, Table};
use crate::variants::Rules;
use crate::{worked, worked_lists};

/// Trees that are tried for a fact, at most.
const TRIED: u128 = 3_000_000;
const STEPS: u64 = 2_000_000_000;

/// A list, and for a cluster of it: the number of trees and the row length.
struct Fact {
    says: String,
    d: u32,
    rows: Vec<Row>,
    formula: u128,
    table: Table,
}

/// Trees whose inner vertices have 2 to `most` children in a row, by number
/// of leaves: a first child, and the rest as one child less.
fn plane_trees(n: usize, most: usize) -> Vec<u128> {
    let mut trees = vec![0u128; n + 1];
    trees[1] = 1;
    for leaves in 2..=n {
        trees[leaves] = (2..=most).map(|k| rows_of_trees(&trees, k, leaves)).sum();
    }
    trees
}

fn rows_of_trees(trees: &[u128], k: usize, leaves: usize) -> u128 {
    if k == 1 {
        return trees[leaves];
    }
    (1..leaves).map(|first| trees[first] * rows_of_trees(trees, k - 1, leaves - first)).sum()
}

/// (2k)! / (k! (k + 1)!), the closed form for two children each.
fn catalan(k: u128) -> u128 {
    (0..k).fold(1, |c, i| c * 2 * (2 * i + 1) / (i + 2))
}

/// (2n - 3)!!, the closed form for all clusters and two children each.
fn odd_product(n: u128) -> u128 {
    (2..=n).map(|i| 2 * i - 3).product()
}

fn choose(n: u64, k: u64) -> u64 {
    (0..k).fold(1, |c, i| c * n.saturating_sub(i) / (i + 1))
}

/// A table of all-zero weights from the two formulas, by number of taxa.
fn formula_table(
    d: u32,
    rows: &[Row],
    count: &dyn Fn(u32) -> u128,
    length: &dyn Fn(u32) -> u64,
) -> Table {
    let rows = ascending(rows);
    let mut table = Table::of_rows(d, &rows);
    for (i, row) in rows.iter().enumerate() {
        let taxa = row.cluster.count_ones();
        let (count, mark) = stored_count(count(taxa), Rules::TRUE);
        let members = chain_members(&rows, row.cluster);
        let length = length(taxa);
        table.set_results(i, Results { length, count, mark, best: 0, members });
    }
    table
}

/// A cluster, what is left of it as its lowest taxa go, and its single taxa.
fn chain_members(rows: &[Row], cluster: u32) -> u128 {
    let at = |c: u32| rows.binary_search_by_key(&c, |r| r.cluster).expect("it is listed");
    let mut members = 0;
    let mut left = cluster;
    while left != 0 {
        members |= 1 << at(left) | 1 << at(left & left.wrapping_neg());
        left &= left - 1;
    }
    members
}

fn zero_rows(clusters: impl IntoIterator<Item = u32>) -> Vec<Row> {
    clusters.into_iter().map(|c| Row::scored(c, 0)).collect()
}

fn interval_fact(n: usize, d: u32) -> Fact {
    let last = (0..n).flat_map(|a| (a..n).map(move |b| (a, b)));
    let rows = zero_rows(last.map(|(a, b)| first_taxa(b + 1) & !first_taxa(a)));
    let trees = plane_trees(n, d as usize - 1);
    let length = |k: u32| (1..d as u64 - 1).map(|cuts| choose(k as u64 - 1, cuts)).sum();
    let formula = if d == 3 { catalan(n as u128 - 1) } else { trees[n] };
    let table = formula_table(d, &rows, &|k| trees[k as usize], &length);
    Fact { says: format!("intervals of {n} taxa"), d, rows, formula, table }
}

fn all_clusters_fact(n: u32) -> Fact {
    let rows = zero_rows(full_block(&(0..n).collect::<Vec<u32>>()));
    let length = |k: u32| (1u64 << (k - 1)) - 1;
    let table = formula_table(3, &rows, &|k| odd_product(k as u128), &length);
    let says = format!("all clusters of {n} taxa");
    Fact { says, d: 3, rows, formula: odd_product(n as u128), table }
}

/// A list whose number of trees is told elsewhere; its table comes from the
/// trees themselves.
fn told_fact(says: &str, d: u32, clusters: &[u32], formula: u128) -> Fact {
    let rows = zero_rows(clusters.iter().copied());
    let table = table_of(d, &rows, &[], Rules::TRUE, STEPS).unwrap_or(Table::zero());
    Fact { says: says.into(), d, rows, formula, table }
}

fn eight_groups_fact() -> Fact {
    let top = eight_groups();
    let rows = zero_rows(top.clusters());
    let table = table_of(3, &rows, &top.joints(3), Rules::TRUE, STEPS).expect("groups are small");
    Fact { says: "eight groups".into(), d: 3, rows, formula: 15u128.pow(8), table }
}

/// Table 1 of Bryant and Steel, a to e as taxa 0 to 4.
const TABLE_1: [u32; 9] = [1, 2, 4, 6, 7, 8, 16, 24, 31];

/// The example of section 4.2 of Bryant's thesis, 1 to 5 as taxa 0 to 4: its
/// "d" is the number of children, one less than ours.
const SECTION_4_2: [u32; 8] = [1, 2, 4, 7, 8, 16, 24, 31];

fn all_facts() -> Vec<Fact> {
    let mut all = Vec::new();
    for d in 3..=5 {
        all.extend((1..=15).map(|n| interval_fact(n, d)));
    }
    all.extend((1..=7).map(all_clusters_fact));
    for (d, trees) in [(3, 1), (4, 5), (5, 7)] {
        all.push(told_fact("Table 1 of Bryant and Steel", d, &TABLE_1, trees));
    }
    for (d, trees) in [(3, 0), (4, 2)] {
        all.push(told_fact("section 4.2 of Bryant's thesis", d, &SECTION_4_2, trees));
    }
    for (d, trees) in [(3, 15), (4, 25), (5, 26)] {
        all.push(told_fact("all clusters of four taxa", d, &full_block(&[0, 1, 2, 3]), trees));
    }
    all.push(eight_groups_fact());
    all
}

/// Prints every fact; true if all agree.
pub fn run(probe: Option<&Path>) -> io::Result<bool> {
    println!("{:28} {:>2} {:>14} {:>14} {:>7} probe", "list", "d", "formula", "by sets", "agree");
    let mut good = true;
    for fact in all_facts() {
        let tried = tried(&fact);
        let agrees = tried
            .as_ref()
            .is_none_or(|(count, table)| *count == fact.formula && *table == fact.table);
        let asked = probe.map(|p| asked(&fact, p)).transpose()?;
        let shown = tried.map_or("too many".into(), |(count, _)| count.to_string());
        let word = if agrees { "yes" } else { "NO" };
        println!(
            "{:28} {:>2} {:>14} {shown:>14} {word:>7} {}",
            fact.says,
            fact.d,
            fact.formula,
            asked.clone().unwrap_or("not asked".into())
        );
        good &= agrees && asked.is_none_or(|a| a == "same");
    }
    Ok(good & worked::run(probe)? & worked_lists::run(probe)?)
}

/// The trees of a fact's list by trying sets, if there are not too many.
fn tried(fact: &Fact) -> Option<(u128, Table)> {
    if fact.formula > TRIED {
        return None;
    }
    let rows = ascending(&fact.rows);
    let trees = trees_of_rows(fact.d, &rows, &[], Rules::TRUE, STEPS).ok()?;
    let table = table_of(fact.d, &rows, &[], Rules::TRUE, STEPS).ok()?;
    Some((trees[rows.len() - 1].count, table))
}

/// The probe's table for a fact's list against the formulas.
fn asked(fact: &Fact, probe: &Path) -> io::Result<String> {
    let ask = Ask::Build { d: fact.d, list: list_bytes(&fact.rows) };
    let answer = converse(probe, |send| send(ask.encode()))?;
    let mut expected = Vec::new();
    put_sent(&mut expected, Ok(0));
    put_table(&mut expected, &fact.table);
    if answer == expected {
        return Ok("same".into());
    }
    Ok(first_difference(3, &expected, &answer))
}
