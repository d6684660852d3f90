//! The cases that every run makes: the bench examples, each refusal and each
//! pair, record edges, rooms around what is due, tables broken in each
//! sentence, the most rescorings, and counts at the limit; those of leaf sets
//! and those of sheets are in modules of their own. From all sections of
//! docs/RULES.md.

use crate::answer::Origin;
use crate::blocks::{Made, Top};
use crate::broken::{BREAKS, EDGES};
use crate::formulas::Edit;
use crate::given::{Case, Given, built, house, random_edits};
use crate::limits::{CHAINS, PAIRS, eight_groups_list, many_beside_none, pair_list};
use crate::lists::{names, random_list, weight};
use crate::newick::{drawn_tree, text};
use crate::prng::Prng;
use crate::records::{Row, list_bytes, raw_bytes};
use crate::refusals::{BAD_KINDS, bad_record_of, faulty, single_and_pairs};
use crate::special_leaves::special_leaves;
use crate::special_sheets::special_sheets;
use crate::stream::Ask;
use crate::table::Table;
use crate::unbuilt::random_fit;
use crate::variants::Rules;

pub fn specials(rng: &mut Prng) -> Vec<Case> {
    let mut all = Vec::new();
    bench_examples(&mut all, rng);
    special_leaves(&mut all, rng);
    list_ends(&mut all, rng);
    refused_lists(&mut all, rng);
    record_edges(&mut all, rng);
    record_values(&mut all, rng);
    rooms(&mut all, rng);
    broken_tables(&mut all, rng);
    refused_rescorings(&mut all, rng);
    most_rescorings(&mut all);
    refused_drawings(&mut all, rng);
    counts_at_limit(&mut all, rng);
    special_sheets(&mut all, rng);
    all
}

pub fn add(all: &mut Vec<Case>, ask: Ask, origin: &Origin, says: &str) {
    all.push(Case { ask, origin: origin.clone(), says: says.into() });
}

pub fn made(rows: Vec<Row>, says: &str) -> Made {
    Made { rows, joints: Vec::new(), says: says.into() }
}

/// A list asked about in every way that takes a list or its table.
pub fn asked_throughout(all: &mut Vec<Case>, rng: &mut Prng, d: u32, made: &Made) {
    let list = list_bytes(&made.rows);
    let origin = Origin { built: true, joints: made.joints.clone() };
    let says = format!("d = {d}, {}", made.says);
    add(all, Ask::Build { d, list: list.clone() }, &origin, &says);
    add(all, Ask::Line { d, list: list.clone(), room: rng.bytes(300) }, &origin, &says);
    add(all, Ask::Whole { d, list, edits: Vec::new() }, &origin, &says);
    let table = Box::new(built(d, made).table);
    add(all, Ask::Fit { table: table.clone() }, &origin, &says);
    add(all, Ask::Tree { table: table.clone(), room: vec![7; 64] }, &origin, &says);
    add(all, Ask::Text { table, room: rng.bytes(160) }, &origin, &says);
}

/// The house list with {1,2} unscored.
fn house_without() -> Vec<Row> {
    let mut rows = house();
    rows[4] = Row::unscored(6);
    rows
}

fn bench_lists() -> Vec<Made> {
    let mut lowered = house_without();
    lowered[3].weight = -4;
    let mut plus = house();
    plus.push(Row::unscored(8));
    let all_four = (1..16).map(|c| Row::scored(c, 0)).collect();
    vec![
        made(house(), "house list"),
        made(house_without(), "house list, one pair unscored"),
        made(lowered, "house list, one pair unscored and one at -4"),
        made(vec![Row::scored(32, -3)], "one taxon"),
        made(vec![Row::unscored(32)], "one taxon unscored"),
        made(plus, "house list and an unscored taxon"),
        made(all_four, "all clusters of four taxa"),
    ]
}

fn bench_examples(all: &mut Vec<Case>, rng: &mut Prng) {
    for d in 3..=5 {
        for made in bench_lists() {
            asked_throughout(all, rng, d, &made);
        }
        let edits = vec![Edit { cluster: 3, weight: 5, state: 1 }];
        rescored_by(all, d, &made(house(), "house list, {0,1} at 5"), edits);
    }
}

/// 128 and 129 records, and lengths right beside what is allowed.
fn list_ends(all: &mut Vec<Case>, rng: &mut Prng) {
    let rows: Vec<Row> = (1..=129).map(|c| Row::scored(c << 3, 0)).collect();
    let whole = list_bytes(&rows);
    for length in [1, 11, 12, 13, 24, 1_524, 1_535, 1_536, 1_537, 1_538, 1_548] {
        let list = whole[..length].to_vec();
        let says = format!("{length} bytes of list");
        add(all, Ask::Build { d: 3, list: list.clone() }, &Origin::default(), &says);
        add(all, Ask::Line { d: 4, list, room: rng.bytes(40) }, &Origin::default(), &says);
    }
    let long = rng.bytes(4_096);
    add(all, Ask::Build { d: 5, list: long }, &Origin::default(), "4,096 bytes of anything");
    for weight in [1_000_000, 1_000_001, -1_000_000, -1_000_001, i32::MIN, i32::MAX] {
        let list = raw_bytes(1, weight, 1).to_vec();
        let says = format!("weight {weight}");
        add(all, Ask::Build { d: 3, list: list.clone() }, &Origin::default(), &says);
        add(all, Ask::Line { d: 3, list, room: rng.bytes(40) }, &Origin::default(), &says);
    }
}

fn refused_lists(all: &mut Vec<Case>, rng: &mut Prng) {
    for faults in single_and_pairs() {
        let says = format!("faults {faults:?}");
        for _ in 0..4 {
            let (d, list) = faulty(rng, &faults);
            add(all, Ask::Build { d, list: list.clone() }, &Origin::default(), &says);
            let room = rng.bytes(60);
            add(all, Ask::Line { d, list: list.clone(), room }, &Origin::default(), &says);
            let edits = vec![Edit { cluster: 1, weight: 0, state: 1 }];
            add(all, Ask::Whole { d, list, edits }, &Origin::default(), &says);
        }
        let (d, list) = faulty(rng, &faults);
        for size in 10..26 {
            let ask = Ask::Line { d, list: list.clone(), room: rng.bytes(size) };
            add(all, ask, &Origin::default(), &says);
        }
    }
}

fn record_edges(all: &mut Vec<Case>, rng: &mut Prng) {
    let none = &Origin::default();
    let good = raw_bytes(0x8000_0001, -1_000_000, 1);
    for length in (0..30).chain([1_536, 1_537, 4_095, 4_096]) {
        let mut bytes = good.repeat(400);
        bytes.truncate(length);
        add(all, Ask::Read { bytes }, none, &format!("{length} bytes"));
    }
    for kind in 0..BAD_KINDS {
        let bytes = bad_record_of(rng, 0x80, kind);
        add(all, Ask::Read { bytes: bytes.to_vec() }, none, &format!("bad record {kind}"));
        add(all, Ask::Read { bytes: bytes[..11].to_vec() }, none, "bad and short");
    }
    for byte in 9..12 {
        for value in [1, 128, 255] {
            let mut bytes = good.to_vec();
            bytes[byte] = value;
            add(all, Ask::Read { bytes }, none, "a spare byte set");
        }
    }
    for state in 0..=255 {
        add(all, Ask::Read { bytes: raw_bytes(9, 0, state).to_vec() }, none, "every state");
    }
}

/// Records at the edges of their rules, read and written.
fn record_values(all: &mut Vec<Case>, rng: &mut Prng) {
    let values = [
        (0, 0, 0),
        (0, 0, 1),
        (1, 0, 0),
        (1, 0, 1),
        (u32::MAX, 1_000_000, 1),
        (u32::MAX, -1_000_000, 1),
        (u32::MAX, -1, 1),
        (1 << 31, 1_000_001, 1),
        (1 << 31, -1_000_001, 1),
        (5, i32::MIN, 1),
        (5, i32::MAX, 1),
        (5, 1, 0),
        (5, -1, 0),
        (5, 0, 2),
        (5, 0, 255),
    ];
    for (cluster, weight, state) in values {
        let bytes = raw_bytes(cluster, weight, state).to_vec();
        add(all, Ask::Read { bytes }, &Origin::default(), "record values at the edge");
        for size in (0..16).chain([511, 512]) {
            let ask = Ask::Write { cluster, weight, state, room: rng.bytes(size) };
            add(all, ask, &Origin::default(), &format!("edge values into {size} bytes"));
        }
    }
}

/// The chain over 32 taxa: 63 records, 31 levels, 148 bytes of text. For
/// bounds above 3 it has too many trees to try, but it is a top over blocks
/// of one taxon.
fn caterpillar(rng: &mut Prng, d: u32, renamed: bool) -> Made {
    let mut names = names(rng);
    if !renamed {
        names.sort();
    }
    let taxon = |t: u32| Top::Block(vec![1 << names[t as usize]]);
    let longer = |chain: Top, t: u32| Top::Join(vec![chain, taxon(t)]);
    let top = (1..32).fold(taxon(0), longer);
    let kind = rng.below(5);
    let clusters = top.clusters();
    let rows = clusters.iter().map(|&c| Row::scored(c, weight(rng, kind))).collect();
    Made { rows, joints: top.joints(d), says: "caterpillar of 32 taxa".into() }
}

fn rooms(all: &mut Vec<Case>, rng: &mut Prng) {
    for d in 3..=5 {
        let lists = [
            made(house(), "house list"),
            made(vec![Row::scored(32, -3)], "one taxon"),
            caterpillar(rng, d, false),
            caterpillar(rng, d, true),
            random_list(rng, d),
        ];
        for made in lists {
            rooms_for(all, rng, d, &made);
        }
    }
}

fn rooms_for(all: &mut Vec<Case>, rng: &mut Prng, d: u32, made: &Made) {
    let Given { table, origin, says } = built(d, made);
    let members = drawn_tree(&table, Rules::TRUE).unwrap_or_default();
    let around = |due: usize| (due.saturating_sub(9)..due + 4).chain([0, 1]);
    for size in around(members.len()).chain([256]) {
        let room: Vec<u32> = (0..size).map(|_| rng.draw() as u32).collect();
        let ask = Ask::Tree { table: Box::new(table.clone()), room };
        add(all, ask, &origin, &format!("into {size} numbers, {says}"));
    }
    let due = text(&members).len();
    for size in around(due).chain([512]) {
        let ask = Ask::Text { table: Box::new(table.clone()), room: rng.bytes(size) };
        add(all, ask, &origin, &format!("into {size} bytes, {says}"));
    }
    let list = list_bytes(&made.rows);
    for size in due..due + 24 {
        let ask = Ask::Line { d, list: list.clone(), room: rng.bytes(size) };
        add(all, ask, &origin, &format!("a line into {size} bytes, {says}"));
    }
}

/// A small table with a row of every kind: scored and not, one taxon and
/// more, with trees and without.
fn of_every_kind() -> Vec<Row> {
    let mut rows = house_without();
    rows.extend([Row::scored(24, 2), Row::scored(31, 0), Row::unscored(128)]);
    rows
}

/// A table with all 128 rows in use.
fn full_table(rng: &mut Prng) -> Table {
    let mut rows: Vec<Row> = (1..=127).map(|c| Row::scored(c, rng.range(-3, 3) as i32)).collect();
    rows[90] = Row::unscored(91);
    rows.push(Row::scored(1 << 20, 5));
    crate::solve::table_of(3, &rows, &[], Rules::TRUE, crate::solve::BUDGET)
        .expect("seven taxa are tried in time")
}

fn broken_tables(all: &mut Vec<Case>, rng: &mut Prng) {
    let full = full_table(rng);
    let kinds = built(3, &made(of_every_kind(), "a row of every kind")).table;
    for (i, (says, change)) in BREAKS.iter().chain(&EDGES).enumerate() {
        let made_up = random_fit(rng);
        for (base, name) in [(&kinds, "small"), (&full, "full"), (&made_up, "made up")] {
            let mut table = base.clone();
            if !change(&mut table, rng) {
                continue;
            }
            let says = format!("{says}, {name}");
            asked_of_table(all, rng, table, &says, i % 2 == 0 && name == "small");
        }
    }
    asked_of_table(all, rng, Table::zero(), "the all-zero table", true);
}

/// A table of unknown fitness asked about in every way.
fn asked_of_table(all: &mut Vec<Case>, rng: &mut Prng, table: Table, says: &str, twice: bool) {
    let none = &Origin::default();
    let table = Box::new(table);
    add(all, Ask::Fit { table: table.clone() }, none, says);
    let edits = random_edits(rng, &table, if twice { 2 } else { 1 });
    add(all, Ask::Rescore { table: table.clone(), edits }, none, says);
    let room = (0..70).map(|_| rng.draw() as u32).collect();
    add(all, Ask::Tree { table: table.clone(), room }, none, says);
    let room = rng.bytes(if twice { 0 } else { 160 });
    add(all, Ask::Text { table, room }, none, says);
}

/// Rescorings refused for one reason or for several at once, mixed with
/// rescorings that are made.
fn refused_rescorings(all: &mut Vec<Case>, rng: &mut Prng) {
    let lawful = Edit { cluster: 3, weight: 9, state: 1 };
    let kinds = [
        Edit { cluster: 0, ..lawful },
        Edit { cluster: 5, ..lawful },
        Edit { cluster: 1 << 32 | 3, ..lawful },
        Edit { cluster: u64::MAX, ..lawful },
        Edit { weight: 1_000_001, ..lawful },
        Edit { weight: -1_000_001, ..lawful },
        Edit { weight: i32::MIN, ..lawful },
        Edit { weight: 1, state: 0, ..lawful },
        Edit { weight: -1, state: 0, ..lawful },
        Edit { weight: 0, state: 2, ..lawful },
        Edit { weight: 0, state: 255, ..lawful },
        Edit { cluster: 5, weight: 1_000_001, state: 1 },
        Edit { cluster: 0, weight: 0, state: 7 },
        Edit { weight: 0, state: 0, ..lawful },
        Edit { weight: 1_000_000, ..lawful },
        Edit { weight: -1_000_000, ..lawful },
        Edit { weight: 4, ..lawful },
    ];
    let good = built(3, &made(house(), "house list"));
    let mut unfit = good.table.clone();
    unfit.n = 4_000_000_000;
    for edit in kinds {
        for edits in [vec![edit], vec![lawful, edit, Edit { cluster: 7, ..lawful }]] {
            let says = format!("house list, {edits:?}");
            let ask = Ask::Rescore { table: Box::new(good.table.clone()), edits: edits.clone() };
            add(all, ask, &good.origin, &says);
            let ask = Ask::Rescore { table: Box::new(unfit.clone()), edits: edits.clone() };
            add(all, ask, &Origin::default(), &format!("unfit, {edits:?}"));
            let ask = Ask::Whole { d: 4, list: list_bytes(&house()), edits };
            add(all, ask, &good.origin, &says);
        }
    }
    let ask = Ask::Rescore { table: Box::new(random_fit(rng)), edits: Vec::new() };
    add(all, ask, &Origin::default(), "no rescorings at all");
}

/// As many rescorings as a case can count. The table isn't fit, so each is
/// refused.
fn most_rescorings(all: &mut Vec<Case>) {
    let edits = vec![Edit { cluster: 3, weight: 9, state: 1 }; u16::MAX as usize];
    let says = format!("{} rescorings", edits.len());
    let table = Box::new(Table::zero());
    let ask = Ask::Rescore { table, edits: edits.clone() };
    add(all, ask, &Origin::default(), &says);
    let ask = Ask::Whole { d: 3, list: Vec::new(), edits };
    add(all, ask, &Origin::default(), &says);
}

/// Trees and texts refused for one reason or for two at once: unfit, no tree,
/// marks that are no tree, room too short.
fn refused_drawings(all: &mut Vec<Case>, rng: &mut Prng) {
    let good = built(3, &made(house(), "house list")).table;
    let barren = built(3, &made(of_every_kind(), "no tree on the leaf set")).table;
    let mut lone = house();
    lone.push(Row::scored(64, 1));
    let rowless = built(3, &made(lone, "no row for the leaf set")).table;
    let mut off = good.clone();
    off.bests[5] += 1;
    let mut rowless_off = rowless.clone();
    rowless_off.bests[5] -= 1;
    let mut blank_behind = house();
    blank_behind.push(Row::unscored(8));
    let before_last = built(3, &made(blank_behind, "a blank behind the leaf set")).table;
    let mut before_last_off = before_last.clone();
    before_last_off.bests[5] += 1;
    let none_scored = built(3, &made(vec![Row::unscored(1), Row::unscored(3)], "blanks")).table;
    let unfit = |t: &Table| Table { d: 6, ..t.clone() };
    let tables = [
        (good.clone(), "a good table"),
        (off.clone(), "marks off"),
        (barren.clone(), "no tree"),
        (rowless.clone(), "no row"),
        (rowless_off.clone(), "no row and marks off elsewhere"),
        (before_last.clone(), "a row before the last"),
        (before_last_off.clone(), "marks off in a row before the last"),
        (none_scored.clone(), "none scored"),
        (unfit(&good), "unfit"),
        (unfit(&off), "unfit and marks off"),
        (unfit(&barren), "unfit and no tree"),
        (unfit(&rowless), "unfit and no row"),
        (unfit(&before_last_off), "unfit and marks off in a row before the last"),
        (unfit(&none_scored), "unfit and none scored"),
    ];
    for (table, says) in tables {
        for size in [0, 4, 5, 10, 11, 40] {
            let says = format!("{says}, room {size}");
            let room = vec![3; size];
            let ask = Ask::Tree { table: Box::new(table.clone()), room };
            add(all, ask, &Origin::default(), &says);
            let ask = Ask::Text { table: Box::new(table.clone()), room: rng.bytes(size) };
            add(all, ask, &Origin::default(), &says);
        }
    }
}

fn counts_at_limit(all: &mut Vec<Case>, rng: &mut Prng) {
    for chain in &CHAINS {
        let list = chain.list(rng);
        asked_throughout(all, rng, chain.d, &list);
        rescored_list(all, rng, chain.d, &list);
    }
    for pair in PAIRS {
        let list = pair_list(rng, pair);
        asked_throughout(all, rng, 3, &list);
        rescored_list(all, rng, 3, &list);
    }
    for d in 3..=5 {
        let mut lists = vec![eight_groups_list(rng, d), eight_groups_list(rng, d)];
        if d > 3 {
            lists.push(many_beside_none(rng, d));
        }
        for list in lists {
            asked_throughout(all, rng, d, &list);
            for _ in 0..6 {
                rescored_list(all, rng, d, &list);
            }
        }
    }
}

/// A list put together from parts, with a few rescorings.
fn rescored_list(all: &mut Vec<Case>, rng: &mut Prng, d: u32, made: &Made) {
    let given = built(d, made);
    let edits = random_edits(rng, &given.table, 3);
    rescored_by(all, d, made, edits);
}

/// A list with the rescorings given, by table and by list.
pub fn rescored_by(all: &mut Vec<Case>, d: u32, made: &Made, edits: Vec<Edit>) {
    let given = built(d, made);
    let says = format!("rescored, {}", given.says);
    let list = list_bytes(&made.rows);
    add(all, Ask::Whole { d, list, edits: edits.clone() }, &given.origin, &says);
    add(all, Ask::Rescore { table: Box::new(given.table), edits }, &given.origin, &says);
}
