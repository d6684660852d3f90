//! Lists with a number of trees right at the limit of a count field. From
//! RULES 5: 4,294,967,295 is exact, one more is many.
//!
//! Two kinds. At d = 3 two blocks of 16 taxa stand under one top, and their
//! counts multiply. At d = 4 and 5 a left part and a right part share one
//! taxon: the top's children are the left part with that taxon and the rest
//! of the right, or the rest of the left and the right part with that taxon,
//! and d - 3 lone taxa, which fill up the children that the bound allows.
//! The parts were found by search; each is counted here by trying sets.

use crate::blocks::{Joint, Made, Top, eight_groups, full_block, full_width_top, random_top};
use crate::lists::{first_taxa, names, rename, weight};
use crate::prng::Prng;
use crate::records::Row;

/// Intervals of taxa, first and last. The left part's taxa are 0, 1, ... and
/// its last one is shared; the right part's last one is that same taxon.
pub struct Chain {
    pub d: u32,
    pub count: u64,
    left: &'static [(u32, u32)],
    right: &'static [(u32, u32)],
}

impl Chain {
    /// The clusters of the left part, of the right part, and the lone taxa.
    fn parts(&self) -> (Vec<u32>, Vec<u32>, Vec<u32>) {
        let shared = self.left.iter().map(|p| p.1).max().unwrap();
        let right_end = self.right.iter().map(|p| p.1).max().unwrap();
        let place = |t: u32| {
            if t == right_end { shared } else { shared + 1 + t }
        };
        let cluster =
            |p: &(u32, u32), at: &dyn Fn(u32) -> u32| (p.0..=p.1).fold(0u32, |c, t| c | 1 << at(t));
        let left = self.left.iter().map(|p| cluster(p, &|t| t)).collect();
        let right = self.right.iter().map(|p| cluster(p, &place)).collect();
        let taken = shared + 1 + right_end;
        let lone = (0..self.d - 3).map(|i| 1u32 << (taken + i)).collect();
        (left, right, lone)
    }

    pub fn list(&self, rng: &mut Prng) -> Made {
        let (left, right, lone) = self.parts();
        let union = |part: &[u32]| part.iter().fold(0, |u, c| u | c);
        let (l, r) = (union(&left), union(&right));
        let top = l | r | union(&lone);
        let with_lone = |a: u32, b: u32| [vec![a, b], lone.clone()].concat();
        let ways = vec![with_lone(l, r & !l), with_lone(l & !r, r)];
        let mut clusters = [left, right].concat();
        clusters.extend((0..32).map(|t| 1 << t).filter(|s| s & top != 0));
        clusters.push(top);
        let says = format!("{} trees at d = {}, from parts", self.count, self.d);
        dressed(rng, &clusters, vec![Joint { cluster: top, ways }], says)
    }
}

/// The two blocks whose counts multiply at d = 3, and the product.
pub const PAIRS: [(&[u32], &[u32], u64); 3] = [
    (&BLOCK_65535, &BLOCK_65537, 4_294_967_295),
    (&BLOCK_65536, &BLOCK_65536, 4_294_967_296),
    (&BLOCK_65535, &BLOCK_65536, 4_294_901_760),
];

/// A list of two such blocks.
pub fn pair_list(rng: &mut Prng, pair: (&[u32], &[u32], u64)) -> Made {
    let block = |clusters: &[u32], shift: u32| {
        let singles = (0..16).map(|t| 1u32 << t);
        Top::Block(clusters.iter().copied().chain(singles).map(|c| c << shift).collect())
    };
    let top = Top::Join(vec![block(pair.0, 0), block(pair.1, 16)]);
    let says = format!("{} trees at d = 3, from two blocks", pair.2);
    dressed(rng, &top.clusters(), top.joints(3), says)
}

/// The eight groups (RULES 11) with any weights.
pub fn eight_groups_list(rng: &mut Prng, d: u32) -> Made {
    let top = eight_groups();
    dressed(rng, &top.clusters(), top.joints(d), format!("eight groups at d = {d}"))
}

/// Seven full groups under a top of full width: many trees at d = 4 and 5.
/// Beside it two taxa whose cluster is scored and has no tree, and a cluster
/// over everything, whose only tuples pair many with none.
pub fn many_beside_none(rng: &mut Prng, d: u32) -> Made {
    let group = |g: u32| Top::Block(full_block(&[4 * g, 4 * g + 1, 4 * g + 2, 4 * g + 3]));
    let top = full_width_top((0..7).map(group).collect(), d as usize - 1);
    let barren = 0x3000_0000;
    let mut clusters = top.clusters();
    clusters.extend([0x1000_0000, barren, first_taxa(30)]);
    let mut joints = top.joints(d);
    joints.push(Joint { cluster: first_taxa(30), ways: vec![vec![top.cluster(), barren]] });
    dressed(rng, &clusters, joints, format!("many beside none at d = {d}"))
}

/// A random list from parts, some of its clusters unscored.
pub fn random_made(rng: &mut Prng, d: u32) -> Made {
    if rng.chance(25) {
        return under_blank(rng, d);
    }
    let top = random_top(rng);
    let mut made = dressed(rng, &top.clusters(), top.joints(d), "from random parts".into());
    let percent = rng.pick(&[0, 0, 3, 10]);
    for row in &mut made.rows {
        if row.cluster.count_ones() > 1 && rng.chance(percent) {
            *row = Row::unscored(row.cluster);
        }
    }
    made
}

/// A random list from parts, with one taxon more and the cluster over all of
/// it, both unscored: the leaf set is the top of the parts.
fn under_blank(rng: &mut Prng, d: u32) -> Made {
    let (parts, taxa) = loop {
        let parts = random_top(rng);
        let taxa = parts.cluster().count_ones();
        if taxa < 32 && parts.clusters().len() <= 126 {
            break (parts, taxa);
        }
    };
    let top = Top::Join(vec![parts, Top::Block(vec![1 << taxa])]);
    let says = "from random parts, under a blank".into();
    let mut made = dressed(rng, &top.clusters(), top.joints(d), says);
    let over = made.rows.iter().fold(0, |union, row| union | row.cluster);
    let parts = made.rows.iter().map(|r| r.cluster).filter(|&c| c != over);
    let parts = parts.max_by_key(|c| c.count_ones()).expect("a top has parts");
    for row in &mut made.rows {
        if [over, over & !parts].contains(&row.cluster) {
            *row = Row::unscored(row.cluster);
        }
    }
    made
}

/// Weights, an order and new names for the taxa.
fn dressed(rng: &mut Prng, clusters: &[u32], joints: Vec<Joint>, says: String) -> Made {
    let names = names(rng);
    let kind = rng.below(5);
    let mut rows: Vec<Row> =
        clusters.iter().map(|&c| Row::scored(rename(c, &names), weight(rng, kind))).collect();
    rng.shuffle(&mut rows);
    let rename_all = |way: &Vec<u32>| way.iter().map(|&c| rename(c, &names)).collect();
    let renamed = |j: &Joint| Joint {
        cluster: rename(j.cluster, &names),
        ways: j.ways.iter().map(rename_all).collect(),
    };
    let says = format!("{} records, {says}", rows.len());
    Made { rows, joints: joints.iter().map(renamed).collect(), says }
}

#[rustfmt::skip]
const BLOCK_65535: [u32; 47] = [
    0x3, 0x24, 0xa0, 0x110, 0x202, 0x203, 0x208, 0x20a, 0x20b, 0x480, 0x4a0, 0x1080, 0x1400,
    0x1480, 0x14a0, 0x14a4, 0x1800, 0x1c80, 0x1ca0, 0x1ca4, 0x2004, 0x2040, 0x4010, 0x4100,
    0x4110, 0x8040, 0x9ce4, 0xa000, 0xa040, 0xa044, 0xa064, 0xb4a4, 0xb4e4, 0xbce4, 0xbcec,
    0xbee4, 0xbeec, 0xbeee, 0xbeef, 0xbeff, 0xbfef, 0xbfff, 0xfdf4, 0xfeef, 0xfeff, 0xffef,
    0xffff,
];

#[rustfmt::skip]
const BLOCK_65536: [u32; 47] = [
    0xc, 0x50, 0x82, 0xc0, 0xc2, 0xd0, 0xd2, 0x104, 0x10c, 0x220, 0x420, 0x620, 0x802, 0x810,
    0x882, 0x8c2, 0x8d2, 0x8d3, 0x1008, 0x100c, 0x110c, 0x19de, 0x2020, 0x2200, 0x2220, 0x2420,
    0x2620, 0x2621, 0x4008, 0x410c, 0x5000, 0x5008, 0x500c, 0x510c, 0x510d, 0x59de, 0x59df,
    0x7f2f, 0x88d2, 0x88d3, 0xd10c, 0xd9de, 0xd9df, 0xdddf, 0xddff, 0xdfff, 0xffff,
];

#[rustfmt::skip]
const BLOCK_65537: [u32; 48] = [
    0x18, 0x44, 0x48, 0x4c, 0x58, 0x5c, 0x102, 0x202, 0x302, 0x402, 0x502, 0x600, 0x602, 0x603,
    0x702, 0x703, 0x712, 0x713, 0x79a, 0x880, 0x1001, 0x1058, 0x1603, 0x1702, 0x1703, 0x1713,
    0x171b, 0x175b, 0x175f, 0x17df, 0x1f5f, 0x1fdf, 0x2020, 0x377f, 0x6000, 0x6020, 0x8080,
    0x8800, 0x8880, 0x9f83, 0x9fdb, 0x9fdf, 0x9fff, 0xbfff, 0xdfdf, 0xdfff, 0xffdf, 0xffff,
];

#[rustfmt::skip]
pub const CHAINS: [Chain; 8] = [
    Chain {
        d: 4,
        count: 4_294_967_294,
        left: &[
            (0, 2), (0, 4), (0, 7), (0, 14), (0, 15), (1, 2), (1, 3), (1, 11), (1, 15), (2, 3),
            (2, 7), (3, 4), (3, 5), (3, 6), (3, 14), (4, 5), (4, 6), (5, 6), (5, 7), (5, 8),
            (5, 9), (5, 11), (6, 7), (6, 8), (6, 9), (7, 8), (7, 9), (7, 14), (8, 9), (8, 12),
            (9, 10), (9, 11), (9, 12), (9, 13), (10, 11), (10, 12), (10, 14), (11, 13),
            (11, 14), (11, 15), (12, 13), (12, 14), (12, 15), (13, 14), (13, 15), (14, 15),
        ],
        right: &[
            (0, 1), (0, 2), (0, 3), (0, 4), (0, 14), (0, 15), (1, 2), (1, 3), (1, 5), (1, 12),
            (2, 3), (2, 5), (2, 6), (2, 8), (3, 4), (3, 5), (3, 6), (4, 5), (4, 7), (4, 10),
            (5, 6), (5, 7), (5, 8), (6, 8), (7, 8), (7, 9), (7, 10), (7, 11), (7, 12), (8, 9),
            (8, 10), (8, 11), (8, 15), (9, 10), (9, 12), (9, 14), (10, 11), (10, 13), (11, 12),
            (11, 13), (11, 14), (11, 15), (12, 13), (12, 14), (13, 14), (13, 15),
        ],
    },
    Chain {
        d: 4,
        count: 4_294_967_295,
        left: &[
            (0, 1), (0, 2), (0, 3), (0, 4), (0, 8), (0, 14), (0, 15), (1, 2), (1, 3), (1, 9),
            (2, 3), (2, 5), (2, 6), (2, 9), (3, 4), (3, 5), (3, 13), (4, 5), (4, 6), (4, 7),
            (4, 8), (4, 9), (4, 10), (5, 6), (5, 8), (5, 9), (6, 7), (6, 8), (6, 9), (6, 14),
            (6, 15), (7, 8), (7, 9), (7, 13), (8, 10), (9, 10), (9, 11), (9, 12), (10, 11),
            (11, 13), (11, 14), (12, 13), (12, 15), (13, 14), (13, 15), (14, 15),
        ],
        right: &[
            (0, 1), (0, 2), (0, 4), (0, 6), (0, 14), (0, 15), (1, 2), (1, 4), (1, 5), (2, 3),
            (2, 4), (2, 5), (3, 4), (3, 6), (3, 7), (3, 8), (4, 6), (4, 7), (4, 9), (5, 6),
            (5, 7), (5, 9), (6, 7), (6, 8), (6, 9), (6, 13), (6, 15), (7, 8), (7, 9), (7, 12),
            (8, 9), (8, 10), (8, 11), (8, 12), (9, 10), (9, 11), (9, 13), (9, 14), (10, 11),
            (10, 13), (10, 14), (11, 13), (11, 14), (12, 13), (12, 14), (14, 15),
        ],
    },
    Chain {
        d: 4,
        count: 4_294_967_296,
        left: &[
            (0, 2), (0, 3), (0, 4), (0, 8), (0, 11), (0, 14), (0, 15), (1, 2), (1, 3), (1, 5),
            (2, 3), (2, 4), (2, 5), (2, 6), (3, 4), (3, 6), (3, 11), (4, 5), (4, 7), (4, 15),
            (5, 7), (5, 8), (5, 9), (5, 12), (5, 14), (6, 7), (6, 9), (6, 10), (6, 13), (7, 8),
            (7, 10), (8, 9), (8, 10), (8, 11), (8, 13), (9, 11), (9, 12), (9, 15), (10, 11),
            (10, 13), (11, 15), (12, 13), (12, 14), (13, 14), (13, 15), (14, 15),
        ],
        right: &[
            (0, 1), (0, 2), (0, 3), (0, 11), (0, 14), (0, 15), (1, 2), (1, 3), (1, 4), (1, 8),
            (1, 14), (2, 3), (2, 4), (2, 6), (2, 7), (3, 4), (3, 5), (3, 7), (4, 5), (4, 7),
            (4, 10), (5, 6), (5, 7), (5, 8), (5, 10), (5, 15), (6, 8), (6, 12), (7, 8), (7, 9),
            (7, 10), (7, 12), (9, 10), (9, 11), (9, 12), (9, 13), (10, 12), (11, 12), (11, 13),
            (11, 14), (12, 13), (12, 14), (12, 15), (13, 14), (13, 15), (14, 15),
        ],
    },
    Chain {
        d: 4,
        count: 4_294_967_297,
        left: &[
            (0, 1), (0, 2), (0, 3), (0, 4), (0, 5), (0, 8), (0, 14), (0, 15), (1, 2), (1, 3),
            (1, 4), (1, 5), (2, 3), (2, 4), (2, 5), (2, 6), (2, 10), (2, 12), (2, 15), (3, 4),
            (3, 5), (3, 7), (4, 5), (4, 6), (4, 8), (4, 15), (5, 6), (5, 9), (5, 12), (6, 7),
            (6, 9), (6, 11), (7, 9), (8, 9), (8, 12), (8, 13), (9, 10), (10, 11), (10, 12),
            (10, 14), (11, 12), (11, 14), (11, 15), (13, 14), (13, 15), (14, 15),
        ],
        right: &[
            (0, 1), (0, 2), (0, 13), (0, 14), (0, 15), (1, 2), (1, 3), (1, 4), (2, 4), (2, 5),
            (2, 10), (2, 11), (3, 4), (3, 5), (3, 6), (3, 14), (4, 5), (4, 6), (4, 7), (4, 8),
            (4, 14), (5, 7), (5, 11), (5, 12), (5, 13), (6, 7), (6, 8), (6, 9), (6, 10),
            (6, 13), (6, 15), (7, 8), (8, 9), (8, 10), (8, 11), (8, 12), (9, 10), (10, 11),
            (10, 12), (10, 14), (11, 13), (11, 14), (12, 13), (13, 14), (13, 15), (14, 15),
        ],
    },
    Chain {
        d: 5,
        count: 4_294_967_294,
        left: &[
            (0, 5), (0, 13), (0, 14), (1, 2), (1, 4), (1, 5), (2, 4), (2, 5), (2, 6), (3, 5),
            (3, 6), (3, 7), (3, 10), (3, 11), (3, 12), (4, 5), (4, 6), (4, 7), (5, 7), (6, 7),
            (6, 9), (6, 10), (6, 12), (7, 8), (7, 9), (7, 10), (7, 11), (8, 9), (8, 10),
            (8, 11), (8, 14), (9, 10), (9, 11), (9, 13), (10, 11), (10, 12), (11, 12),
            (12, 13), (12, 14), (13, 14),
        ],
        right: &[
            (0, 1), (0, 3), (0, 14), (0, 15), (1, 2), (1, 3), (1, 4), (1, 5), (1, 11), (1, 12),
            (2, 12), (3, 4), (3, 5), (3, 7), (3, 10), (4, 5), (4, 6), (4, 7), (5, 6), (5, 8),
            (5, 10), (6, 7), (6, 8), (7, 9), (8, 11), (8, 12), (9, 10), (9, 11), (9, 12),
            (10, 11), (10, 13), (11, 12), (11, 13), (11, 14), (11, 15), (12, 13), (12, 14),
            (12, 15), (13, 15), (14, 15),
        ],
    },
    Chain {
        d: 5,
        count: 4_294_967_295,
        left: &[
            (0, 2), (0, 8), (0, 12), (0, 13), (0, 14), (1, 3), (1, 5), (2, 3), (2, 4), (2, 5),
            (3, 4), (3, 5), (3, 6), (3, 12), (3, 13), (4, 5), (4, 6), (4, 8), (4, 10), (5, 6),
            (5, 9), (6, 7), (6, 8), (7, 8), (7, 9), (7, 10), (8, 9), (8, 10), (8, 12), (9, 10),
            (9, 11), (9, 12), (9, 13), (10, 11), (10, 13), (10, 14), (11, 12), (11, 14),
            (12, 13), (12, 14),
        ],
        right: &[
            (0, 4), (0, 14), (0, 15), (1, 2), (1, 3), (2, 5), (2, 6), (2, 12), (3, 4), (3, 5),
            (3, 7), (4, 5), (4, 6), (4, 8), (4, 9), (4, 10), (5, 7), (5, 8), (6, 7), (6, 8),
            (6, 10), (6, 14), (7, 9), (7, 10), (7, 11), (8, 9), (8, 10), (9, 10), (9, 11),
            (9, 12), (10, 11), (10, 15), (11, 12), (11, 13), (11, 14), (12, 13), (12, 14),
            (13, 14), (13, 15), (14, 15),
        ],
    },
    Chain {
        d: 5,
        count: 4_294_967_296,
        left: &[
            (0, 1), (0, 2), (0, 4), (0, 11), (0, 13), (0, 14), (1, 2), (1, 5), (2, 3), (2, 4),
            (2, 5), (2, 10), (3, 4), (3, 5), (3, 9), (3, 10), (4, 6), (4, 13), (5, 7), (5, 8),
            (6, 7), (6, 8), (6, 10), (7, 8), (7, 9), (7, 10), (7, 11), (7, 14), (8, 10),
            (8, 11), (8, 12), (9, 11), (9, 13), (10, 11), (10, 12), (10, 13), (11, 12),
            (11, 14), (12, 13), (13, 14),
        ],
        right: &[
            (0, 1), (0, 2), (0, 3), (0, 14), (0, 15), (1, 2), (1, 3), (1, 4), (1, 15), (2, 4),
            (2, 6), (3, 4), (3, 5), (3, 6), (4, 6), (4, 7), (4, 8), (4, 13), (4, 15), (6, 7),
            (6, 8), (6, 9), (6, 10), (7, 8), (7, 9), (7, 10), (7, 11), (8, 9), (9, 10),
            (9, 12), (9, 14), (10, 11), (10, 13), (10, 14), (11, 12), (12, 13), (12, 14),
            (12, 15), (13, 14), (14, 15),
        ],
    },
    Chain {
        d: 5,
        count: 4_294_967_297,
        left: &[
            (0, 2), (0, 7), (0, 9), (0, 12), (0, 13), (0, 14), (1, 4), (1, 5), (2, 3), (2, 4),
            (2, 6), (2, 11), (2, 12), (3, 4), (3, 5), (3, 6), (3, 11), (4, 5), (4, 13), (5, 6),
            (5, 8), (6, 8), (6, 9), (6, 10), (6, 11), (7, 11), (7, 12), (7, 14), (8, 9),
            (8, 11), (8, 12), (9, 11), (10, 12), (10, 13), (11, 12), (11, 13), (11, 14),
            (12, 13), (12, 14), (13, 14),
        ],
        right: &[
            (0, 1), (0, 4), (0, 10), (0, 12), (0, 14), (0, 15), (1, 3), (1, 4), (1, 5), (1, 6),
            (2, 6), (2, 7), (2, 12), (3, 4), (3, 6), (3, 7), (4, 5), (4, 8), (5, 8), (6, 7),
            (6, 10), (6, 11), (7, 8), (7, 9), (7, 12), (8, 9), (8, 10), (8, 14), (9, 11),
            (9, 12), (10, 11), (10, 12), (10, 13), (11, 12), (11, 13), (12, 13), (12, 15),
            (13, 14), (13, 15), (14, 15),
        ],
    },
];
