//! Good sheets of many kinds: every kind of column, gels of a random tree,
//! few columns over and over, marks without any order, and lists right at the
//! limit of their clusters. Made column by column, so that what a sheet holds
//! is known before it is written.

use crate::lists::{first_taxa, random_tree};
use crate::prng::Prng;
use crate::sheets::{COLUMNS, LINES};

/// The lines with a one, and the lines with a `?`; no line has both.
#[derive(Clone, Copy, PartialEq, Eq, Debug)]
pub struct Column {
    pub ones: u32,
    pub unread: u32,
}

impl Column {
    pub fn read(ones: u32) -> Column {
        Column { ones, unread: 0 }
    }

    fn partly(ones: u32, unread: u32) -> Column {
        Column { ones: ones & !unread, unread }
    }

    fn mark(self, line: usize) -> u8 {
        match (self.unread >> line & 1, self.ones >> line & 1) {
            (1, _) => b'?',
            (_, one) => b'0' + one as u8,
        }
    }
}

/// A sheet before it is written.
#[derive(Clone)]
pub struct Gel {
    pub taxa: usize,
    pub columns: Vec<Column>,
}

impl Gel {
    /// Its lines, each with its LF.
    pub fn lines(&self) -> Vec<Vec<u8>> {
        let marks = |line: usize| self.columns.iter().map(move |column| column.mark(line));
        (0..self.taxa).map(|line| marks(line).chain([b'\n']).collect()).collect()
    }

    pub fn bytes(&self) -> Vec<u8> {
        self.lines().concat()
    }
}

/// A sheet of any kind, and its kind in words.
pub fn random_gel(rng: &mut Prng) -> (Gel, String) {
    let (taxa, columns) = (size(rng, LINES), size(rng, COLUMNS));
    let (gel, kind) = match rng.below(12) {
        0..=3 => (mixed(rng, taxa, columns), "every kind of column"),
        4..=7 => (of_tree(rng, taxa, columns), "a gel of a tree"),
        8 => (repeated(rng, taxa, columns), "few columns over and over"),
        9 => (noise(rng, taxa, columns), "marks without order"),
        _ => (random_crowd(rng), "about as many clusters as a list has room for"),
    };
    let says = format!("{} lines of {}, {kind}", gel.taxa, gel.columns.len());
    (gel, says)
}

/// Any size, the ends more often than others.
fn size(rng: &mut Prng, most: usize) -> usize {
    let any = 1 + rng.below(most);
    rng.pick(&[1, 2, most - 1, most, any, any, any, any])
}

fn any_cluster(rng: &mut Prng, taxa: usize) -> u32 {
    rng.draw() as u32 & first_taxa(taxa)
}

/// One or more of the lines, mostly few.
fn some_lines(rng: &mut Prng, taxa: usize) -> u32 {
    let one = 1 << rng.below(taxa);
    match rng.below(4) {
        0 => one | any_cluster(rng, taxa),
        1 => one | any_cluster(rng, taxa) & any_cluster(rng, taxa),
        _ => one,
    }
}

/// A column without a `?`, of some kind.
fn read_column(rng: &mut Prng, taxa: usize) -> Column {
    let all = first_taxa(taxa);
    Column::read(match rng.below(6) {
        0 => 0,
        1 => all,
        2 => 1 << rng.below(taxa),
        3 => all & !(1 << rng.below(taxa)),
        4 => any_cluster(rng, taxa) & any_cluster(rng, taxa),
        _ => any_cluster(rng, taxa),
    })
}

/// A column with a `?`, of some kind.
pub fn unread_column(rng: &mut Prng, taxa: usize) -> Column {
    let all = first_taxa(taxa);
    let unread = some_lines(rng, taxa);
    match rng.below(5) {
        0 => Column::partly(0, unread),
        1 => Column::partly(all, unread),
        2 => Column::partly(0, all),
        3 => Column::partly(1 << rng.below(taxa), unread),
        _ => Column::partly(any_cluster(rng, taxa), unread),
    }
}

pub fn mixed(rng: &mut Prng, taxa: usize, columns: usize) -> Gel {
    let percent = rng.pick(&[0, 0, 3, 10, 40, 90, 100]);
    let equal = rng.pick(&[0, 20, 60]);
    let mut made: Vec<Column> = Vec::new();
    for _ in 0..columns {
        let column = if !made.is_empty() && rng.chance(equal) {
            rng.pick(&made)
        } else if rng.chance(percent) {
            unread_column(rng, taxa)
        } else {
            read_column(rng, taxa)
        };
        made.push(column);
    }
    Gel { taxa, columns: made }
}

/// Clusters of one tree, with some marks flipped and some unread.
fn of_tree(rng: &mut Prng, taxa: usize, columns: usize) -> Gel {
    let mut tree = Vec::new();
    let most = 2 + rng.below(4);
    random_tree(rng, &(0..taxa as u32).collect::<Vec<u32>>(), most, &mut tree);
    let flipped = rng.pick(&[0, 0, 2, 10, 50]);
    let unread = rng.pick(&[0, 1, 3, 10, 100]);
    let mut column = |_| {
        let cluster = rng.pick(&tree);
        let flips = lines_hit(rng, taxa, flipped);
        Column::partly(cluster ^ flips, lines_hit(rng, taxa, unread))
    };
    Gel { taxa, columns: (0..columns).map(&mut column).collect() }
}

/// Each of the lines in so many of a thousand draws.
fn lines_hit(rng: &mut Prng, taxa: usize, in_thousand: usize) -> u32 {
    (0..taxa).filter(|_| rng.below(1_000) < in_thousand).fold(0, |hit, line| hit | 1 << line)
}

fn repeated(rng: &mut Prng, taxa: usize, columns: usize) -> Gel {
    let many = 1 + rng.below(4);
    let mut few = mixed(rng, taxa, many).columns;
    few.push(read_column(rng, taxa));
    Gel { taxa, columns: (0..columns).map(|_| rng.pick(&few)).collect() }
}

fn noise(rng: &mut Prng, taxa: usize, columns: usize) -> Gel {
    let unread = rng.pick(&[0, 0, 5, 40, 300]);
    let mut column = |_| Column::partly(any_cluster(rng, taxa), lines_hit(rng, taxa, unread));
    Gel { taxa, columns: (0..columns).map(&mut column).collect() }
}

fn random_crowd(rng: &mut Prng) -> Gel {
    let clusters = rng.pick(&[126, 127, 128, 128, 128, 129, 129, 130, 140, 161]);
    // 128 columns make no more than 137 clusters on 8 taxa.
    let taxa = if clusters > 137 { LINES } else { 8 + rng.below(LINES - 7) };
    crowd(rng, taxa, clusters)
}

/// A sheet whose finished list has exactly so many clusters, on 8 taxa or
/// more: the single taxa, the cluster of all lines, and others, each of them
/// in some column. What columns are left hold nothing new, or a `?`.
pub fn crowd(rng: &mut Prng, taxa: usize, clusters: usize) -> Gel {
    let all = first_taxa(taxa);
    let mut others: Vec<Column> = Vec::new();
    while others.len() + taxa + 1 < clusters {
        let other = Column::read(any_cluster(rng, taxa));
        let is_new = other.ones.count_ones() > 1 && other.ones != all && !others.contains(&other);
        others.extend(is_new.then_some(other));
    }
    let mut columns = others.clone();
    for _ in 0..rng.below(COLUMNS - others.len() + 1) {
        columns.push(match rng.below(5) {
            0 => Column::read(0),
            1 => Column::read(all),
            2 => Column::read(1 << rng.below(taxa)),
            3 => rng.pick(&others),
            _ => unread_column(rng, taxa),
        });
    }
    rng.shuffle(&mut columns);
    Gel { taxa, columns }
}
