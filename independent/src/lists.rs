//! Random lists of good records, of many shapes: few taxa with any clusters,
//! trees laid over one another, intervals, caterpillars, groups under a top,
//! and clusters that hardly fit together. Written against the rules on records
//! and trees (RULES 2 to 4): ties, negative weights, unscored records that
//! stand to the leaf set in every way, any order, lists with no tree.

use crate::answer::Oracle;
use crate::blanks::blanked;
use crate::blocks::{Made, full_block};
use crate::prng::Prng;
use crate::records::{Row, WEIGHT_END};

/// Steps for most lists, and for the few that may take longer.
const SMALL_BUDGET: u64 = 20_000;
const LARGE_BUDGET: u64 = 6_000_000;

/// A list whose trees can be tried within a small budget for bound `d`.
pub fn random_list(rng: &mut Prng, d: u32) -> Made {
    let budget = if rng.below(60) == 0 { LARGE_BUDGET } else { SMALL_BUDGET };
    loop {
        let (rows, says) = random_rows(rng);
        if Oracle::TRUE.within(budget).table(d, &rows, &[]).is_ok() {
            return Made { rows, joints: Vec::new(), says };
        }
    }
}

/// A list of any kind; nothing is said about how many trees it has.
pub fn random_rows(rng: &mut Prng) -> (Vec<Row>, String) {
    let (clusters, shape) = shape(rng);
    let mut clusters = relabel(rng, &clusters);
    clusters.sort();
    clusters.dedup();
    rng.shuffle(&mut clusters);
    clusters.truncate(128);
    let mut rows = weigh(rng, &clusters);
    spoil(rng, &mut rows);
    let blanks = if rng.chance(35) { blanked(rng, &mut rows) } else { String::new() };
    let says = format!("{} records, {shape}{blanks}", rows.len());
    (rows, says)
}

fn shape(rng: &mut Prng) -> (Vec<u32>, &'static str) {
    match rng.below(12) {
        0..=2 => (few_taxa(rng), "few taxa"),
        3..=5 => (trees_over_trees(rng), "trees over trees"),
        6 => (intervals(rng), "intervals"),
        7 => (caterpillars(rng), "caterpillars"),
        8..=9 => (loosened_tree(rng), "a tree loosened"),
        10 => (groups(rng), "groups under a top"),
        _ => (soup(rng), "a soup"),
    }
}

/// Taxa 0 to n - 1 as one cluster.
pub fn first_taxa(n: usize) -> u32 {
    if n == 32 { u32::MAX } else { (1 << n) - 1 }
}

fn singles(n: usize) -> Vec<u32> {
    (0..n).map(|b| 1 << b).collect()
}

fn few_taxa(rng: &mut Prng) -> Vec<u32> {
    let n = 1 + rng.below(5);
    let percent = rng.pick(&[40, 70, 85, 100]);
    let whole = first_taxa(n);
    let listed = |rng: &mut Prng, c: u32| {
        c == whole || rng.chance(if c.count_ones() == 1 { 97 } else { percent })
    };
    (1..=whole).filter(|&c| listed(rng, c)).collect()
}

/// The clusters of a random tree on `taxa`, each with 2 to `most` children.
pub fn random_tree(rng: &mut Prng, taxa: &[u32], most: usize, out: &mut Vec<u32>) {
    out.push(taxa.iter().fold(0, |c, t| c | 1 << t));
    if taxa.len() < 2 {
        return;
    }
    let mut order = taxa.to_vec();
    rng.shuffle(&mut order);
    let parts = 2 + rng.below(most.min(order.len()) - 1);
    let mut cuts: Vec<usize> = (1..order.len()).collect();
    rng.shuffle(&mut cuts);
    cuts.truncate(parts - 1);
    cuts.sort();
    cuts.push(order.len());
    let mut from = 0;
    for cut in cuts {
        random_tree(rng, &order[from..cut], most, out);
        from = cut;
    }
}

fn taxa_for_trees(rng: &mut Prng) -> usize {
    match rng.below(6) {
        0 => 32,
        1 => 13 + rng.below(20),
        _ => 2 + rng.below(12),
    }
}

fn trees_over_trees(rng: &mut Prng) -> Vec<u32> {
    let n = taxa_for_trees(rng);
    let taxa: Vec<u32> = (0..n as u32).collect();
    let mut out = Vec::new();
    for _ in 0..1 + rng.below(4) {
        let most = rng.pick(&[2, 2, 3, 4, 5]);
        random_tree(rng, &taxa, most, &mut out);
    }
    for _ in 0..rng.below(6) {
        out.push((rng.draw() as u32 & first_taxa(n)).max(1));
    }
    out
}

fn intervals(rng: &mut Prng) -> Vec<u32> {
    let n = 3 + rng.below(8);
    let percent = rng.pick(&[40, 60, 80, 100]);
    let mut out = singles(n);
    for a in 0..n {
        for b in a + 1..n {
            if b - a + 1 == n || rng.chance(percent) {
                out.push(first_taxa(b + 1) & !first_taxa(a));
            }
        }
    }
    out
}

/// Chains that take one taxon more at each step, laid over one another.
fn caterpillars(rng: &mut Prng) -> Vec<u32> {
    let n = rng.pick(&[32, 32, 31, 20, 12, 8]);
    let mut out = singles(n);
    for _ in 0..1 + rng.below(3) {
        let mut order = singles(n);
        rng.shuffle(&mut order);
        let mut chain = 0;
        for taxon in order {
            chain |= taxon;
            out.push(chain);
        }
    }
    out
}

/// A tree, and unions of some of the parts that lie side by side in it.
fn loosened_tree(rng: &mut Prng) -> Vec<u32> {
    let n = taxa_for_trees(rng);
    let taxa: Vec<u32> = (0..n as u32).collect();
    let mut out = Vec::new();
    let most = 2 + rng.below(4);
    random_tree(rng, &taxa, most, &mut out);
    let tree = out.clone();
    for _ in 0..rng.below(25) {
        let (a, b) = (rng.pick(&tree), rng.pick(&tree));
        if a & b == 0 {
            out.push(a | b);
        }
    }
    out
}

fn groups(rng: &mut Prng) -> Vec<u32> {
    let size = 2 + rng.below(3) as u32;
    let many = 1 + rng.below(4) as u32;
    let mut out = Vec::new();
    let mut union = 0;
    for g in 0..many {
        let taxa: Vec<u32> = (0..size).map(|i| g * size + i).collect();
        out.extend(full_block(&taxa));
        union |= out[out.len() - 1];
        out.push(union);
    }
    out
}

fn soup(rng: &mut Prng) -> Vec<u32> {
    let n = 1 + rng.below(32);
    let whole = first_taxa(n);
    let mut out = if rng.chance(60) { singles(n) } else { Vec::new() };
    for _ in 0..1 + rng.below(90) {
        out.push((rng.draw() as u32 & rng.draw() as u32 & whole).max(1));
    }
    if rng.chance(50) {
        out.push(whole);
    }
    out
}

/// The same clusters with the taxa renamed.
pub fn relabel(rng: &mut Prng, clusters: &[u32]) -> Vec<u32> {
    let names = names(rng);
    clusters.iter().map(|&c| rename(c, &names)).collect()
}

pub fn names(rng: &mut Prng) -> Vec<u32> {
    let mut names: Vec<u32> = (0..32).collect();
    rng.shuffle(&mut names);
    names
}

pub fn rename(cluster: u32, names: &[u32]) -> u32 {
    (0..32).filter(|b| cluster >> b & 1 == 1).fold(0, |c, b| c | 1 << names[b as usize])
}

/// A weight of the given kind: 0 none, 1 and 2 small with many ties, 3 the
/// ends of the range, 4 anything.
pub fn weight(rng: &mut Prng, kind: usize) -> i32 {
    match kind {
        0 => 0,
        1 => rng.range(-1, 1) as i32,
        2 => rng.range(-5, 5) as i32,
        3 => rng.pick(&[-WEIGHT_END, WEIGHT_END, WEIGHT_END - 1, 0]),
        _ => rng.range(-WEIGHT_END as i64, WEIGHT_END as i64) as i32,
    }
}

pub fn weigh(rng: &mut Prng, clusters: &[u32]) -> Vec<Row> {
    let kind = rng.below(5);
    let percent = rng.pick(&[0, 0, 5, 15, 40]);
    let mut row = |&c: &u32| {
        // Without its single taxa a list has no trees, so they are spared.
        if c.count_ones() > 1 && rng.chance(percent) {
            Row::unscored(c)
        } else {
            Row::scored(c, weight(rng, kind))
        }
    };
    clusters.iter().map(&mut row).collect()
}

/// Now and then something is taken away that trees need, or a taxon added.
fn spoil(rng: &mut Prng, rows: &mut Vec<Row>) {
    if rng.chance(12) {
        let i = rng.below(rows.len());
        rows[i] = Row::unscored(rows[i].cluster);
    }
    if rng.chance(6) && rows.len() > 1 {
        rows.remove(rng.below(rows.len()));
    }
    let other = 1 << rng.below(32);
    if rng.chance(4) && rows.len() < 128 && rows.iter().all(|r| r.cluster != other) {
        rows.push(if rng.chance(50) { Row::unscored(other) } else { Row::scored(other, 1) });
    }
}
