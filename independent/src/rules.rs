//! The leaf set, what a tree is, the tie rule, and the search that tries sets
//! of clusters. From RULES 2 to 4.
//!
//! Each many-taxon cluster inside the top is taken or left out, and whatever
//! can no longer become a tree is dropped. Members are settled one after the
//! other: for one of its taxa that lies in no child yet, the clusters that
//! hold the taxon are decided on, from the largest number down. A cluster has
//! a larger number than everything strictly inside it, so a cluster decided
//! later never comes between a member and its child.

use crate::records::Row;
use crate::variants::{Rules, Variant};

/// Nested or disjoint.
pub fn agree(a: u32, b: u32) -> bool {
    a & b == 0 || a & b == a || a & b == b
}

/// `small` is inside `large`, or is `large`.
pub fn inside(small: u32, large: u32) -> bool {
    small & !large == 0
}

/// The leaf set: the union of the scored clusters. With none scored it is
/// empty, and no cluster is.
pub fn leaf_set(rows: &[Row], rules: Rules) -> u32 {
    let counted = rows.iter().filter(|r| rules.in_leaf_set(r.scored, r.weight));
    counted.fold(0, |union, row| union | row.cluster)
}

/// The largest members, by inclusion, strictly inside `member`.
pub fn children(members: &[u32], member: u32) -> Vec<u32> {
    let below = |c: u32, top: u32| c != top && inside(c, top);
    let within: Vec<u32> = members.iter().copied().filter(|&c| below(c, member)).collect();
    let is_child = |&c: &u32| !within.iter().any(|&other| below(c, other));
    within.iter().copied().filter(is_child).collect()
}

/// The rule of what a tree on `top` is, said word for word. All `members`
/// are taken to be listed and scored.
pub fn is_tree(members: &[u32], top: u32, d: u32, rules: Rules) -> bool {
    let has = |c: u32| members.contains(&c);
    let singles = (0..32).map(|b| 1u32 << b).filter(|&s| inside(s, top));
    has(top)
        && members.iter().all(|&m| inside(m, top))
        && singles.into_iter().all(has)
        && members.iter().all(|&a| members.iter().all(|&b| agree(a, b)))
        && members.iter().filter(|m| m.count_ones() > 1).all(|&m| {
            let n = children(members, m).len() as u32;
            (2..=rules.most_children(d)).contains(&n)
        })
}

/// A tree as the rows that are in it (bit i for row i, rows ascending).
#[derive(Clone, Copy, PartialEq, Eq, Debug)]
pub struct Tree {
    pub weight: i64,
    pub members: u128,
}

/// Of two sets of rows, whether `a` comes before `b` by the tie rule: it has
/// the largest cluster that is in one of them only. Rows ascend, so the
/// largest cluster is the highest bit.
pub fn first_by_tie_rule(a: u128, b: u128) -> bool {
    let in_one_only = a ^ b;
    in_one_only != 0 && (a >> (127 - in_one_only.leading_zeros())) & 1 == 1
}

pub fn better(a: Tree, b: Tree) -> bool {
    a.weight > b.weight || (a.weight == b.weight && first_by_tie_rule(a.members, b.members))
}

pub fn keep_better(best: &mut Option<Tree>, found: Tree) {
    if best.is_none_or(|b| better(found, b)) {
        *best = Some(found);
    }
}

/// All trees on one cluster: how many, and the first heaviest.
#[derive(Clone, Copy, Default, Debug)]
pub struct Trees {
    pub count: u128,
    pub first: Option<Tree>,
}

/// A member taken so far: its cluster, the taxa in none of its children yet,
/// and how many children of two or more taxa it has.
struct Member {
    cluster: u32,
    open: u32,
    children: u32,
}

struct Search<'a> {
    rows: &'a [Row],
    rules: Rules,
    most: u32,
    /// Rows of the clusters to decide on, largest number first.
    pool: Vec<usize>,
    /// For each entry of the pool, the entries it agrees with.
    agrees: Vec<u128>,
    taken: Vec<Member>,
    so_far: Tree,
    steps: u64,
    visit: &'a mut dyn FnMut(Tree, u128),
}

/// Too many sets were tried.
#[derive(Clone, Copy, Debug)]
pub struct OverBudget;

/// Hands every tree on row `top` to `visit`, with the number of times that it
/// counts (1 unless a variant counts orders). `fruitful` says which rows may
/// be members at all: a tree on the top holds a tree on each of its members,
/// so a cluster without trees is in none. `steps` is what may still be tried.
pub fn each_tree(
    rows: &[Row],
    top: usize,
    d: u32,
    rules: Rules,
    fruitful: u128,
    steps: &mut u64,
    visit: &mut dyn FnMut(Tree, u128),
) -> Result<(), OverBudget> {
    let cluster = rows[top].cluster;
    let singles = rows.iter().enumerate().filter(|(i, r)| {
        r.cluster.count_ones() == 1 && inside(r.cluster, cluster) && fruitful >> i & 1 == 1
    });
    let singles: Vec<usize> = singles.map(|(i, _)| i).collect();
    if singles.len() != cluster.count_ones() as usize || !rules.usable(rows[top].scored) {
        return Ok(());
    }
    let mut search = Search::new(rows, top, rules, fruitful, visit);
    search.most = rules.most_children(d);
    search.steps = *steps;
    for i in singles.into_iter().filter(|&i| i != top) {
        search.so_far.members |= 1 << i;
        search.so_far.weight += rows[i].weight as i64;
    }
    let all = if search.pool.len() == 128 { !0 } else { (1 << search.pool.len()) - 1 };
    let done = search.start(cluster, all);
    *steps = search.steps;
    done
}

impl<'a> Search<'a> {
    fn new(
        rows: &'a [Row],
        top: usize,
        rules: Rules,
        fruitful: u128,
        visit: &'a mut dyn FnMut(Tree, u128),
    ) -> Search<'a> {
        let wanted = |&i: &usize| {
            let c = rows[i].cluster;
            i != top
                && c.count_ones() > 1
                && inside(c, rows[top].cluster)
                && rules.usable(rows[i].scored)
                && fruitful >> i & 1 == 1
        };
        let pool: Vec<usize> = (0..rows.len()).rev().filter(wanted).collect();
        let with = |i: usize| {
            let fits = |&(_, &j): &(usize, &usize)| agree(rows[i].cluster, rows[j].cluster);
            pool.iter().enumerate().filter(fits).fold(0u128, |m, (at, _)| m | 1 << at)
        };
        let agrees = pool.iter().map(|&i| with(i)).collect();
        let so_far = Tree { weight: rows[top].weight as i64, members: 1 << top };
        Search { rows, rules, most: 0, pool, agrees, taken: Vec::new(), so_far, steps: 0, visit }
    }

    fn start(&mut self, cluster: u32, all: u128) -> Result<(), OverBudget> {
        self.taken.push(Member { cluster, open: cluster, children: 0 });
        if !self.can_close(0, all) {
            return Ok(());
        }
        self.settle(0, all)
    }

    /// Goes on with member number `at`, or with those after it if nothing is
    /// left to decide there.
    fn settle(&mut self, at: usize, left: u128) -> Result<(), OverBudget> {
        if self.steps == 0 {
            return Err(OverBudget);
        }
        self.steps -= 1;
        if let Some(next) = self.next_to_decide(at, left) {
            return self.decide(at, next, left);
        }
        if at + 1 < self.taken.len() {
            return self.settle(at + 1, left);
        }
        self.hand_over();
        Ok(())
    }

    /// The largest undecided cluster that holds the lowest taxon on which
    /// there is still something to decide.
    fn next_to_decide(&self, at: usize, left: u128) -> Option<usize> {
        let open = self.taken[at].open;
        let reached = self.undecided(left, open).fold(0, |u, (_, c)| u | c);
        let taxon = reached & reached.wrapping_neg();
        self.undecided(left, open).find(|(_, c)| c & taxon != 0).map(|(i, _)| i)
    }

    /// The undecided clusters inside some taxa, with their place in the pool.
    fn undecided(&self, left: u128, taxa: u32) -> impl Iterator<Item = (usize, u32)> + '_ {
        let mut rest = left;
        let entries = std::iter::from_fn(move || {
            let i = (rest != 0).then(|| rest.trailing_zeros() as usize)?;
            rest &= rest - 1;
            Some((i, self.rows[self.pool[i]].cluster))
        });
        entries.filter(move |&(_, c)| inside(c, taxa))
    }

    /// Decides on one cluster inside the open taxa of a member, both ways.
    fn decide(&mut self, at: usize, next: usize, left: u128) -> Result<(), OverBudget> {
        let row = self.pool[next];
        let others = left & !(1 << next);
        let still = others & self.agrees[next];
        self.put_in(row, at);
        if self.can_close(at, still) && self.can_close(self.taken.len() - 1, still) {
            self.settle(at, still)?;
        }
        self.take_out(row, at);
        if self.can_close(at, others) {
            self.settle(at, others)?;
        }
        Ok(())
    }

    fn put_in(&mut self, row: usize, home: usize) {
        let cluster = self.rows[row].cluster;
        self.taken[home].open &= !cluster;
        self.taken[home].children += 1;
        self.taken.push(Member { cluster, open: cluster, children: 0 });
        self.so_far.members |= 1 << row;
        self.so_far.weight += self.rows[row].weight as i64;
    }

    fn take_out(&mut self, row: usize, home: usize) {
        self.taken.pop();
        self.taken[home].open |= self.rows[row].cluster;
        self.taken[home].children -= 1;
        self.so_far.members &= !(1 << row);
        self.so_far.weight -= self.rows[row].weight as i64;
    }

    /// Whether the open taxa of a member might still go into the children it
    /// may yet have: as single taxa, or in clusters that are undecided.
    fn can_close(&self, member: usize, left: u128) -> bool {
        let m = &self.taken[member];
        if m.children > self.most {
            return false;
        }
        let slots = self.most - m.children;
        if m.open.count_ones() <= slots {
            return true;
        }
        let mut reached = 0;
        let mut sizes = [1u32; 8];
        for (_, c) in self.undecided(left, m.open) {
            reached |= c;
            note_size(&mut sizes[..slots as usize], c.count_ones());
        }
        // Taxa in no undecided cluster take up a child each.
        let alone = (m.open & !reached).count_ones();
        if alone >= slots {
            return false;
        }
        sizes.sort_unstable_by(|a, b| b.cmp(a));
        let most_covered: u32 = sizes[..(slots - alone) as usize].iter().sum();
        most_covered >= reached.count_ones()
    }

    /// Everything is decided; a set whose members all have at most the
    /// allowed number of children is a tree.
    fn hand_over(&mut self) {
        let mut times: u128 = 1;
        for m in self.taken.iter().filter(|m| m.cluster.count_ones() > 1) {
            let n = m.children + m.open.count_ones();
            if n > self.most {
                return;
            }
            if self.rules.has(Variant::OrderedTuples) {
                times *= (1..=n as u128).product::<u128>();
            }
        }
        (self.visit)(self.so_far, times);
    }
}

/// Keeps the largest sizes met, as many as there is room for.
fn note_size(sizes: &mut [u32], size: u32) {
    if let Some(smallest) = sizes.iter_mut().min() {
        *smallest = size.max(*smallest);
    }
}
