//! What the generated cases would show, without any program under test: for
//! each variant, in how many cases its expected answer is not the true one.
//! And the program against itself: trying sets against the formulas, lists
//! from parts against plain trying, found sets against the rule of a tree,
//! lines against those of the scored records alone, sheets against the columns
//! that they were made of, and sheets and lists against what was worked by
//! hand. Checks the readings of RULES 3 to 7 and 13.

use crate::answer::{Method, Oracle, Origin};
use crate::blocks::{Top, full_block, full_width_top};
use crate::broken::{BREAKS, EDGES};
use crate::cases::Generator;
use crate::compare::{expected, tried};
use crate::coverage::Coverage;
use crate::gels::{Column, Gel, crowd, mixed, random_gel};
use crate::limits::{CHAINS, PAIRS, pair_list, random_made};
use crate::lists::{first_taxa, random_list, random_rows};
use crate::newick::line;
use crate::prng::Prng;
use crate::records::{Refusal, Row, refuse};
use crate::rules::{each_tree, is_tree};
use crate::sheets::{CLUSTERS, import};
use crate::smudged::{LENGTHS, SEEN, no_sheets};
use crate::solve::{BUDGET, ascending, table_of, trees_of_rows};
use crate::stream::{KINDS, OPERATIONS};
use crate::unbuilt::random_fit;
use crate::variants::{ALL, Rules};
use crate::worked::worked_sheets;
use crate::worked_lists::worked_lists;

/// True if every variant shows and nothing disagrees.
pub fn run(seed: u64, count: u64) -> bool {
    let shown = variants_show(seed, count);
    let agreed = [
        ("lists from parts against plain trying", parts_against_trying(seed)),
        ("sets found against the rule of a tree", sets_against_rule(seed)),
        ("lines with and without unscored records", blanks_left_out(seed)),
        ("counts at the limit", limits_as_said(seed)),
        ("broken tables unfit, edges fit", fitness_as_said(seed)),
        ("sheets against their columns", sheets_as_made(seed)),
        ("sheets at fault", faults_as_said(seed)),
        ("sheets worked by hand", worked_sheets().iter().filter(|w| !w.agrees()).count()),
        ("lists worked by hand", worked_lists().iter().filter(|w| !w.agrees()).count()),
    ];
    for (says, wrong) in agreed {
        println!("{says}: {wrong} wrong");
    }
    shown && agreed.iter().all(|(_, wrong)| *wrong == 0)
}

fn variants_show(seed: u64, count: u64) -> bool {
    let generator = Generator::new(seed);
    let mut differ = [[0u64; OPERATIONS.len()]; ALL.len()];
    let mut formulas_differ = 0;
    let mut coverage = Coverage::default();
    let formulas = Oracle { method: Method::Formulas, ..Oracle::TRUE };
    for number in 0..count * KINDS {
        let (case, truth) = tried(&generator, number, None);
        coverage.note(&case.ask, &truth);
        let other = formulas.answer(&case.ask, &Origin::default());
        formulas_differ += (other.ok().as_ref() != Some(&truth)) as u64;
        for (i, &variant) in ALL.iter().enumerate() {
            let wrong = expected(&case, Some(variant)).ok().as_ref() != Some(&truth);
            differ[i][(number % KINDS) as usize] += wrong as u64;
        }
    }
    coverage.print();
    print_variants(&differ);
    println!("{} cases, formulas against trying sets: {formulas_differ} wrong", count * KINDS);
    let missing = coverage.missing();
    println!("shown by no case: {}", missing.len());
    missing.iter().for_each(|says| println!("  {says}"));
    let told = differ.iter().all(|row| row.iter().sum::<u64>() > 0);
    formulas_differ == 0 && missing.is_empty() && told
}

fn print_variants(differ: &[[u64; OPERATIONS.len()]; ALL.len()]) {
    for (variant, row) in ALL.iter().zip(differ) {
        let parts: Vec<String> = (0..OPERATIONS.len())
            .filter(|&i| row[i] > 0)
            .map(|i| format!("{} {}", OPERATIONS[i], row[i]))
            .collect();
        let sum: u64 = row.iter().sum();
        println!("variant {}: {sum} cases tell it ({})", variant.name(), parts.join(", "));
    }
}

/// Small lists made like the large ones, small enough to be tried whole.
fn parts_against_trying(seed: u64) -> usize {
    let rng = &mut Prng::new(seed, 0x6_0000_0000);
    let group = |at: u32, n: u32| Top::Block(full_block(&(at..at + n).collect::<Vec<u32>>()));
    let tops = [
        Top::Join(vec![group(0, 3), group(3, 3)]),
        Top::Join(vec![Top::Join(vec![group(0, 2), group(2, 3)]), group(5, 3)]),
        Top::Join(vec![group(0, 3), group(3, 2), group(5, 2)]),
        full_width_top(vec![group(0, 2), group(2, 3), group(5, 2)], 2),
        full_width_top(vec![group(0, 3), group(3, 3), group(6, 1), group(7, 1)], 4),
    ];
    let mut wrong = 0;
    for top in tops {
        for d in 3..=5 {
            let row = |&c: &u32| Row::scored(c, rng.range(-1, 1) as i32);
            let rows: Vec<Row> = top.clusters().iter().map(row).collect();
            let joints = top.joints(d);
            let made = table_of(d, &rows, &joints, Rules::TRUE, BUDGET).ok();
            let plain = table_of(d, &rows, &[], Rules::TRUE, BUDGET).ok();
            wrong += (made.is_none() || made != plain) as usize;
        }
    }
    wrong + random_parts_against_trying(rng)
}

/// The same for random lists from parts, as far as they can be tried whole.
fn random_parts_against_trying(rng: &mut Prng) -> usize {
    let mut wrong = 0;
    for _ in 0..400 {
        let d = 3 + rng.below(3) as u32;
        let made = random_made(rng, d);
        let Ok(plain) = table_of(d, &made.rows, &[], Rules::TRUE, 300_000) else {
            continue;
        };
        let from_parts = table_of(d, &made.rows, &made.joints, Rules::TRUE, BUDGET);
        wrong += !from_parts.is_ok_and(|t| t == plain) as usize;
    }
    wrong
}

/// Every set that the search hands over is a tree by the literal rule, and
/// no set comes twice.
fn sets_against_rule(seed: u64) -> usize {
    let rng = &mut Prng::new(seed, 0x7_0000_0000);
    let mut wrong = 0;
    for _ in 0..200 {
        let (rows, _) = random_rows(rng);
        let rows = ascending(&rows);
        let d = 3 + rng.below(3) as u32;
        let Some(top) = rows.iter().rposition(|r| r.scored) else {
            continue;
        };
        let scored = rows.iter().enumerate().filter(|(_, r)| r.scored);
        let usable = scored.fold(0u128, |m, (i, _)| m | 1 << i);
        let mut seen = Vec::new();
        // Running out of steps only means that fewer sets are looked at.
        let _ = each_tree(&rows, top, d, Rules::TRUE, usable, &mut 20_000, &mut |t, _| {
            seen.push(t.members)
        });
        for &set in &seen {
            let members = (0..rows.len()).filter(|i| set >> i & 1 == 1);
            let clusters: Vec<u32> = members.map(|i| rows[i].cluster).collect();
            wrong += !is_tree(&clusters, rows[top].cluster, d, Rules::TRUE) as usize;
        }
        seen.sort();
        wrong += seen.windows(2).filter(|w| w[0] == w[1]).count();
    }
    wrong + subsets_missed(rng)
}

/// For short lists all subsets are tried with no pruning at all.
fn subsets_missed(rng: &mut Prng) -> usize {
    let mut wrong = 0;
    for _ in 0..300 {
        let (rows, _) = random_rows(rng);
        let rows = ascending(&rows);
        if rows.len() > 14 {
            continue;
        }
        let d = 3 + rng.below(3) as u32;
        let trees = trees_of_rows(d, &rows, &[], Rules::TRUE, BUDGET).expect("short lists");
        for (i, row) in rows.iter().enumerate() {
            let is_one = |set: &u32| {
                let chosen: Vec<Row> =
                    (0..rows.len()).filter(|j| set >> j & 1 == 1).map(|j| rows[j]).collect();
                let clusters: Vec<u32> = chosen.iter().map(|r| r.cluster).collect();
                chosen.iter().all(|r| r.scored) && is_tree(&clusters, row.cluster, d, Rules::TRUE)
            };
            let found = (0..1u32 << rows.len()).filter(is_one).count();
            wrong += (found as u128 != trees[i].count) as usize;
        }
    }
    wrong
}

/// A list prints what it prints without its unscored records; where none is
/// scored, 7.
fn blanks_left_out(seed: u64) -> usize {
    let rng = &mut Prng::new(seed, 0xC_0000_0000);
    let mut wrong = 0;
    for _ in 0..500 {
        let d = 3 + rng.below(3) as u32;
        let rows = random_list(rng, d).rows;
        let scored: Vec<Row> = rows.iter().copied().filter(|r| r.scored).collect();
        let printed = |rows: &[Row]| {
            let table = table_of(d, rows, &[], Rules::TRUE, BUDGET).expect("it was tried before");
            line(d, Ok(&table), Rules::TRUE)
        };
        let without = if scored.is_empty() { format!("{d} refused 7\n") } else { printed(&scored) };
        wrong += (printed(&rows) != without) as usize;
    }
    wrong
}

/// The limit lists have the numbers of trees that they are said to have.
fn limits_as_said(seed: u64) -> usize {
    let rng = &mut Prng::new(seed, 0x8_0000_0000);
    let mut lists: Vec<_> = CHAINS.iter().map(|c| (c.d, c.count, c.list(rng))).collect();
    lists.extend(PAIRS.iter().map(|&p| (3, p.2, pair_list(rng, p))));
    let mut wrong = 0;
    for (d, said, made) in lists {
        let rows = ascending(&made.rows);
        let trees = trees_of_rows(d, &rows, &made.joints, Rules::TRUE, BUDGET);
        // All are scored and the top is their union, so it is the largest number and last.
        let count = trees.ok().and_then(|t| t.last().map(|t| t.count));
        wrong += (count != Some(said as u128)) as usize;
    }
    wrong
}

/// Each way of breaking a table makes it unfit, and each edge leaves it fit.
fn fitness_as_said(seed: u64) -> usize {
    let rng = &mut Prng::new(seed, 0x9_0000_0000);
    let mut wrong = 0;
    for _ in 0..100 {
        let base = random_fit(rng);
        wrong += !base.is_fit() as usize;
        for (fit, changes) in [(false, &BREAKS[..]), (true, &EDGES[..])] {
            for (_, change) in changes {
                let mut table = base.clone();
                wrong += (change(&mut table, rng) && table.is_fit() != fit) as usize;
            }
        }
    }
    wrong
}

/// The list of a sheet is that of the columns it was made of: those without a
/// `?` sorted and counted in runs.
fn sheets_as_made(seed: u64) -> usize {
    let rng = &mut Prng::new(seed, 0xA_0000_0000);
    let mut wrong = 0;
    for _ in 0..2_000 {
        let (gel, _) = random_gel(rng);
        let found = import(&gel.bytes(), Rules::TRUE).map(|list| (list.rows, list.unread));
        wrong += (found != list_of(&gel)) as usize;
    }
    for taxa in 8..=32 {
        for clusters in 126..=131 {
            let found = import(&crowd(rng, taxa, clusters).bytes(), Rules::TRUE);
            let said = if clusters > CLUSTERS { Err(refuse(13)) } else { Ok(clusters) };
            wrong += (found.map(|list| list.rows.len()) != said) as usize;
        }
    }
    wrong
}

fn list_of(gel: &Gel) -> Result<(Vec<Row>, u64), Refusal> {
    let (read, unread): (Vec<Column>, Vec<Column>) =
        gel.columns.iter().partition(|c| c.unread == 0);
    let mut clusters: Vec<u32> = read.iter().map(|c| c.ones).filter(|&c| c != 0).collect();
    clusters.sort();
    let run = |run: &[u32]| Row::scored(run[0], run.len() as i32);
    let mut rows: Vec<Row> = clusters.chunk_by(|a, b| a == b).map(run).collect();
    for added in (0..gel.taxa).map(|taxon| 1 << taxon).chain([first_taxa(gel.taxa)]) {
        if rows.iter().all(|row| row.cluster != added) {
            rows.push(Row::scored(added, 0));
        }
    }
    if rows.len() > CLUSTERS {
        return Err(refuse(13));
    }
    Ok((ascending(&rows), unread.len() as u64))
}

/// A spoiled line is refused as the line at fault, or the one after it where
/// line 0 has only another length; and bytes that are no sheet are refused.
fn faults_as_said(seed: u64) -> usize {
    let rng = &mut Prng::new(seed, 0xB_0000_0000);
    let mut wrong = 0;
    for round in 0..300 {
        // Run together with the next, line 0 is still good, and not the last.
        let (taxa, columns) = (3 + round % 30, 2 + rng.below(60));
        for (only_length, smudges) in [(false, &SEEN[..]), (true, &LENGTHS[..])] {
            for (_, smudge) in smudges {
                let at = rng.below(taxa);
                let mut lines = mixed(rng, taxa, columns).lines();
                smudge(&mut lines, at, rng);
                let told = if only_length { at.max(1) } else { at };
                let said = Refusal { number: 12, position: told as u64 };
                wrong += (import(&lines.concat(), Rules::TRUE).err() != Some(said)) as usize;
            }
        }
    }
    let refused = |bytes: &[u8]| import(bytes, Rules::TRUE).err().map(|r| r.number);
    wrong + no_sheets(rng).iter().filter(|(bytes, _)| refused(bytes) != Some(12)).count()
}
