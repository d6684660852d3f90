//! What cases are made from, whether they are drawn at random or made in every
//! run: a case and a table, each with what is known of it, the house list, and
//! rescorings of a table. From RULES 5 and 11.

use crate::answer::{Oracle, Origin};
use crate::blocks::Made;
use crate::formulas::Edit;
use crate::lists::weight;
use crate::prng::Prng;
use crate::records::Row;
use crate::stream::Ask;
use crate::table::Table;

/// A case with what is known of it, and a description to print.
#[derive(Clone)]
pub struct Case {
    pub ask: Ask,
    pub origin: Origin,
    pub says: String,
}

/// A table with what is known of it.
pub struct Given {
    pub table: Table,
    pub origin: Origin,
    pub says: String,
}

pub fn built(d: u32, made: &Made) -> Given {
    let table = Oracle::TRUE.table(d, &made.rows, &made.joints);
    Given {
        table: table.expect("the list was tried before"),
        origin: Origin { built: true, joints: made.joints.clone() },
        says: format!("built at d = {d} from {}", made.says),
    }
}

pub fn house() -> Vec<Row> {
    let pairs = [(1, 0), (2, 0), (4, 0), (3, 4), (6, 4), (7, 1)];
    pairs.iter().map(|&(c, w)| Row::scored(c, w)).collect()
}

/// Rescorings of a table's clusters, most of them lawful.
pub fn random_edits(rng: &mut Prng, table: &Table, many: usize) -> Vec<Edit> {
    let kind = rng.below(5);
    let rows = (table.n as usize).clamp(1, 128);
    let mut row = rng.below(rows);
    let mut edit = |_| {
        // Now and then the same row once more.
        if rng.chance(75) {
            row = rng.below(rows);
        }
        let cluster = match rng.below(12) {
            0 => rng.pick(&[0, 1, 1 << 32, u64::MAX, u32::MAX as u64]),
            1 if rng.chance(30) => table.clusters[row] | 1 << 32,
            _ => table.clusters[row],
        };
        let (weight, state) = match rng.below(12) {
            0..=1 => (0, 0),
            2 if rng.chance(30) => {
                rng.pick(&[(1_000_001, 1), (i32::MIN, 1), (1, 0), (0, 2), (-1, 0)])
            }
            3 => (table.weights[row], table.states[row]),
            _ => (weight(rng, kind), 1),
        };
        Edit { cluster, weight, state }
    };
    (0..many).map(&mut edit).collect()
}
