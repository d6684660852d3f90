//! The rescoring formulas, literally. From RULES 7. They give the expected
//! answer for fit tables that no build made; for built tables the trees
//! themselves do.

use crate::records::{Refusal, lawful, refuse};
use crate::rules::{Tree, inside, keep_better};
use crate::table::{COUNT_END, Results, Table};
use crate::tuples::each_tuple;
use crate::variants::{Rules, Variant};

/// A rescoring as it is asked for.
#[derive(Clone, Copy, PartialEq, Eq, Debug)]
pub struct Edit {
    pub cluster: u64,
    pub weight: i32,
    pub state: u8,
}

/// Whether a rescoring is refused, and the row it names if not.
pub fn judge(table: &Table, fit: bool, edit: Edit) -> Result<usize, Refusal> {
    if !fit {
        return Err(refuse(8));
    }
    let row = table.row_of(edit.cluster).ok_or(refuse(9))?;
    if !lawful(edit.weight, edit.state) {
        return Err(refuse(10));
    }
    Ok(row)
}

/// One rescoring of any table at all.
pub fn rescore(table: &mut Table, edit: Edit, rules: Rules) -> Result<(), Refusal> {
    let row = judge(table, table.is_fit(), edit)?;
    table.weights[row] = edit.weight;
    table.states[row] = edit.state;
    for i in row..table.n as usize {
        let above = edit.cluster & !table.clusters[i] == 0;
        if above && (i == row || !rules.has(Variant::OnlyEditedRow)) {
            let results = work_out(table, i, rules);
            table.set_results(i, results);
        }
    }
    Ok(())
}

/// A row worked out from the rows beneath as they stand.
pub fn work_out(table: &Table, i: usize, rules: Rules) -> Results {
    let rows = table.rows();
    if !rules.usable(rows[i].scored) {
        return Results::default();
    }
    let own = Tree { weight: rows[i].weight as i64, members: 1 << i };
    if rows[i].cluster.count_ones() == 1 {
        return Results { length: 0, count: 1, mark: 0, best: own.weight, members: own.members };
    }
    let usable =
        |j: &usize| rules.usable(rows[*j].scored) && inside(rows[*j].cluster, rows[i].cluster);
    let beneath: Vec<usize> = (0..i).filter(usable).collect();
    let clusters: Vec<u32> = beneath.iter().map(|&j| rows[j].cluster).collect();
    let mut sum = Sum::default();
    let most = rules.most_children(table.d) as usize;
    each_tuple(&clusters, rows[i].cluster, most, &mut |chosen| {
        let tuple: Vec<usize> = chosen.iter().map(|&at| beneath[at]).collect();
        sum.add(table, &tuple, own, rules);
    });
    sum.results(rules)
}

/// What the tuples met so far come to.
#[derive(Default)]
struct Sum {
    length: u64,
    count: u128,
    marked: bool,
    best: Option<Tree>,
}

/// The most that counts are summed to: anything past the limit is as good.
const ENOUGH: u128 = 1 << 64;

impl Sum {
    fn add(&mut self, table: &Table, tuple: &[usize], own: Tree, rules: Rules) {
        let orders = if rules.has(Variant::OrderedTuples) {
            (1..=tuple.len() as u64).product::<u64>()
        } else {
            1
        };
        self.length += orders;
        let any_marked = tuple.iter().any(|&j| table.marks[j] == 1);
        if tuple.iter().any(|&j| table.counts[j] == 0) {
            self.marked |= any_marked && rules.has(Variant::ManyTimesNone);
            return;
        }
        self.marked |= any_marked;
        let times = |p: u128, &j: &usize| (p * table.counts[j] as u128).min(ENOUGH);
        let product = tuple.iter().fold(orders as u128, times);
        self.count = (self.count + product).min(ENOUGH);
        let join = |t: Tree, &j: &usize| Tree {
            weight: t.weight + table.bests[j],
            members: t.members | table.members[j],
        };
        keep_better(&mut self.best, tuple.iter().fold(own, join));
    }

    fn results(&self, rules: Rules) -> Results {
        let (count, mark) =
            if self.marked { (COUNT_END, 1) } else { stored_count(self.count, rules) };
        let best = self.best.unwrap_or(Tree { weight: 0, members: 0 });
        Results { length: self.length, count, mark, best: best.weight, members: best.members }
    }
}

/// A true count as a row holds it: the field and the mark.
pub fn stored_count(count: u128, rules: Rules) -> (u64, u8) {
    let end = COUNT_END as u128;
    let many = count > end || (count == end && rules.has(Variant::ManyAtLimit));
    let told = many && !rules.has(Variant::StoppedAsExact);
    (count.min(end) as u64, told as u8)
}
