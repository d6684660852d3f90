//! The table as a value, and when it is fit. From RULES 5 and 6. The fields
//! are as wide as in the stream, so that a table can hold values that no fit
//! table holds.

use crate::records::{Row, lawful};
use crate::rules::leaf_set;
use crate::variants::{Rules, Variant};

pub const ROOM: usize = 128;
pub const COUNT_END: u64 = 4_294_967_295;
pub const LENGTH_END: u64 = 10_676_001;

#[derive(Clone, PartialEq, Eq, Debug)]
pub struct Table {
    pub d: u32,
    pub n: u64,
    pub clusters: [u64; ROOM],
    pub weights: [i32; ROOM],
    pub states: [u8; ROOM],
    pub lengths: [u64; ROOM],
    pub counts: [u64; ROOM],
    pub marks: [u8; ROOM],
    pub bests: [i64; ROOM],
    pub members: [u128; ROOM],
}

/// The results that a row holds.
#[derive(Clone, Copy, PartialEq, Eq, Default, Debug)]
pub struct Results {
    pub length: u64,
    pub count: u64,
    pub mark: u8,
    pub best: i64,
    pub members: u128,
}

impl Table {
    pub fn zero() -> Table {
        Table {
            d: 0,
            n: 0,
            clusters: [0; ROOM],
            weights: [0; ROOM],
            states: [0; ROOM],
            lengths: [0; ROOM],
            counts: [0; ROOM],
            marks: [0; ROOM],
            bests: [0; ROOM],
            members: [0; ROOM],
        }
    }

    /// A table of these rows (ascending) with nothing worked out yet.
    pub fn of_rows(d: u32, rows: &[Row]) -> Table {
        let mut table = Table { d, n: rows.len() as u64, ..Table::zero() };
        for (i, row) in rows.iter().enumerate() {
            table.clusters[i] = row.cluster as u64;
            table.weights[i] = row.weight;
            table.states[i] = row.state();
        }
        table
    }

    /// The rows of a table that is fit.
    pub fn rows(&self) -> Vec<Row> {
        let row = |i: usize| Row {
            cluster: self.clusters[i] as u32,
            weight: self.weights[i],
            scored: self.states[i] == 1,
        };
        (0..self.n as usize).map(row).collect()
    }

    pub fn results(&self, i: usize) -> Results {
        Results {
            length: self.lengths[i],
            count: self.counts[i],
            mark: self.marks[i],
            best: self.bests[i],
            members: self.members[i],
        }
    }

    pub fn set_results(&mut self, i: usize, r: Results) {
        self.lengths[i] = r.length;
        self.counts[i] = r.count;
        self.marks[i] = r.mark;
        self.bests[i] = r.best;
        self.members[i] = r.members;
    }

    pub fn clear_row(&mut self, i: usize) {
        self.clusters[i] = 0;
        self.weights[i] = 0;
        self.states[i] = 0;
        self.set_results(i, Results::default());
    }

    pub fn row_of(&self, cluster: u64) -> Option<usize> {
        (0..self.n as usize).find(|&i| self.clusters[i] == cluster)
    }

    /// The row of the leaf set, for a table that is fit. It may stand anywhere:
    /// the rows behind it are unscored ones with taxa of their own.
    pub fn leaf_row(&self, rules: Rules) -> Option<usize> {
        if rules.has(Variant::LastRowTaken) {
            return (self.n as usize).checked_sub(1);
        }
        self.row_of(leaf_set(&self.rows(), rules) as u64)
    }

    pub fn is_fit(&self) -> bool {
        (3..=5).contains(&self.d)
            && (1..=ROOM as u64).contains(&self.n)
            && (self.n as usize..ROOM).all(|i| self.is_zero_row(i))
            && (0..self.n as usize).all(|i| self.is_fit_row(i))
    }

    fn is_zero_row(&self, i: usize) -> bool {
        self.clusters[i] == 0
            && self.weights[i] == 0
            && self.states[i] == 0
            && self.results(i) == Results::default()
    }

    fn is_fit_row(&self, i: usize) -> bool {
        let r = self.results(i);
        let in_ranges = r.length <= LENGTH_END
            && r.count <= COUNT_END
            && r.mark <= 1
            && (r.mark == 0 || r.count == COUNT_END);
        self.is_fit_cluster(i)
            && lawful(self.weights[i], self.states[i])
            && in_ranges
            && (self.clusters[i].count_ones() > 1 || r.length == 0)
            && self.is_unmarked_past_rows(i)
            && (self.states[i] == 1 || r == Results::default())
            && self.is_fit_best(i)
    }

    /// Nonzero, above the row before, and with no taxon past 31.
    fn is_fit_cluster(&self, i: usize) -> bool {
        let c = self.clusters[i];
        c != 0 && c <= u32::MAX as u64 && (i == 0 || self.clusters[i - 1] < c)
    }

    fn is_unmarked_past_rows(&self, i: usize) -> bool {
        (self.n as usize..ROOM).all(|j| self.members[i] >> j & 1 == 0)
    }

    /// Count, members and best weight go together.
    fn is_fit_best(&self, i: usize) -> bool {
        let r = self.results(i);
        if r.count == 0 || r.members == 0 {
            return r.count == 0 && r.members == 0 && r.mark == 0 && r.best == 0;
        }
        let marked = |j: &usize| r.members >> j & 1 == 1;
        let inside = |j: usize| self.clusters[j] & !self.clusters[i] == 0;
        let end = 1_000_000 * (2 * self.clusters[i].count_ones() as i64 - 1);
        marked(&i)
            && (0..self.n as usize).filter(marked).all(inside)
            && (-end..=end).contains(&r.best)
    }
}
