//! Lists put together from parts, whose trees are known from the parts. From
//! what a tree is (RULES 3); used where trying every set would take too long.
//!
//! If each listed cluster strictly inside a joined cluster lies within one of
//! its parts, then the children of the joined cluster are, for each part,
//! either that part or a split of it into listed clusters, and the bound on
//! children says how many pieces there may be in all.

use crate::prng::Prng;
use crate::records::Row;
use crate::tuples::each_tuple;

/// A cluster and every set of clusters that can be its children.
#[derive(Clone, PartialEq, Eq, Debug)]
pub struct Joint {
    pub cluster: u32,
    pub ways: Vec<Vec<u32>>,
}

/// A list with what is known from how it was made.
#[derive(Clone)]
pub struct Made {
    pub rows: Vec<Row>,
    pub joints: Vec<Joint>,
    pub says: String,
}

/// A fixed top: blocks (all their clusters, the block itself among them)
/// joined step by step.
#[derive(Clone)]
pub enum Top {
    Block(Vec<u32>),
    Join(Vec<Top>),
}

impl Top {
    pub fn cluster(&self) -> u32 {
        match self {
            Top::Block(clusters) => clusters.iter().fold(0, |u, c| u | c),
            Top::Join(parts) => parts.iter().fold(0, |u, p| u | p.cluster()),
        }
    }

    /// Every cluster to be listed, in no special order.
    pub fn clusters(&self) -> Vec<u32> {
        match self {
            Top::Block(clusters) => clusters.clone(),
            Top::Join(parts) => {
                let mut all: Vec<u32> = parts.iter().flat_map(|p| p.clusters()).collect();
                all.push(self.cluster());
                all
            }
        }
    }

    /// The joined clusters with the sets of children open to them.
    pub fn joints(&self, d: u32) -> Vec<Joint> {
        let Top::Join(parts) = self else {
            return Vec::new();
        };
        let mut all: Vec<Joint> = parts.iter().flat_map(|p| p.joints(d)).collect();
        let ways = (2..d as usize).flat_map(|pieces| self.splits(pieces)).collect();
        all.push(Joint { cluster: self.cluster(), ways });
        all
    }

    /// All ways to make this part from exactly `pieces` listed clusters.
    fn splits(&self, pieces: usize) -> Vec<Vec<u32>> {
        match self {
            _ if pieces == 1 => vec![vec![self.cluster()]],
            Top::Block(clusters) => block_splits(clusters, self.cluster(), pieces),
            Top::Join(parts) => shared_out(parts, pieces),
        }
    }
}

/// `pieces` shared out over disjoint parts, at least one to each.
fn shared_out(parts: &[Top], pieces: usize) -> Vec<Vec<u32>> {
    if parts.is_empty() {
        return if pieces == 0 { vec![Vec::new()] } else { Vec::new() };
    }
    let mut all = Vec::new();
    for here in 1..=pieces.saturating_sub(parts.len() - 1) {
        let rest = shared_out(&parts[1..], pieces - here);
        if rest.is_empty() {
            continue;
        }
        for split in parts[0].splits(here) {
            all.extend(rest.iter().map(|r| [split.clone(), r.clone()].concat()));
        }
    }
    all
}

fn block_splits(clusters: &[u32], whole: u32, pieces: usize) -> Vec<Vec<u32>> {
    let mut sorted = clusters.to_vec();
    sorted.sort();
    let mut all = Vec::new();
    each_tuple(&sorted, whole, pieces, &mut |tuple| {
        if tuple.len() == pieces {
            all.push(tuple.iter().map(|&i| sorted[i]).collect());
        }
    });
    all
}

/// All clusters of the given taxa.
pub fn full_block(taxa: &[u32]) -> Vec<u32> {
    let pick = |bits: u32| {
        let chosen = taxa.iter().enumerate().filter(|(i, _)| bits >> i & 1 == 1);
        chosen.fold(0, |c, (_, t)| c | 1 << t)
    };
    (1..1u32 << taxa.len()).map(pick).collect()
}

/// Eight groups of four taxa, all clusters in each, under a balanced top.
pub fn eight_groups() -> Top {
    let mut level: Vec<Top> =
        (0..8).map(|g| Top::Block(full_block(&[4 * g, 4 * g + 1, 4 * g + 2, 4 * g + 3]))).collect();
    while level.len() > 1 {
        level = level.chunks(2).map(|pair| Top::Join(pair.to_vec())).collect();
    }
    level.pop().unwrap()
}

/// A top over blocks in which every join has exactly `width` parts, so that
/// under degree bound `width` + 1 nothing of it can be left out.
pub fn full_width_top(mut blocks: Vec<Top>, width: usize) -> Top {
    while blocks.len() > 1 {
        let rest = blocks.split_off(width.min(blocks.len()));
        let joined = Top::Join(blocks);
        blocks = rest;
        blocks.push(joined);
    }
    blocks.pop().unwrap()
}

/// A random top: up to ten blocks of at most five taxa, with most of their
/// clusters, joined two to four at a time. At most 128 clusters in all.
pub fn random_top(rng: &mut Prng) -> Top {
    loop {
        let percent = rng.pick(&[50, 80, 100]);
        let mut parts = Vec::new();
        let mut taxa = 0;
        for _ in 0..2 + rng.below(9) {
            let size = 1 + rng.below(5) as u32;
            if taxa + size <= 32 {
                parts.push(random_block(rng, taxa, size, percent));
                taxa += size;
            }
        }
        while parts.len() > 1 {
            rng.shuffle(&mut parts);
            let rest = parts.split_off(parts.len().min(2 + rng.below(3)));
            let joined = Top::Join(std::mem::replace(&mut parts, rest));
            parts.push(joined);
        }
        let top = parts.pop().expect("there is at least one block");
        if top.clusters().len() <= 128 {
            return top;
        }
    }
}

/// A block with its single taxa, itself, and some of its other clusters.
fn random_block(rng: &mut Prng, from: u32, size: u32, percent: u64) -> Top {
    let mut clusters = full_block(&(from..from + size).collect::<Vec<u32>>());
    let stays = |rng: &mut Prng, c: u32| {
        c.count_ones() == 1 || c.count_ones() == size || rng.chance(percent)
    };
    clusters.retain(|&c| stays(rng, c));
    Top::Block(clusters)
}
