//! The seeded generator. Case number N of a seed asks operation N mod 10 + 1;
//! the first cases of each operation are the special ones, the others are
//! drawn at random. Covers every section of docs/RULES.md.

use crate::answer::{Oracle, Origin};
use crate::blanks::leaf_edits;
use crate::blocks::Made;
use crate::broken::{BREAKS, Change, EDGES};
use crate::formulas::{Edit, rescore};
use crate::gels::random_gel;
use crate::given::{Case, Given, built, random_edits};
use crate::limits::random_made;
use crate::lists::{random_list, weight};
use crate::newick::{drawn_tree, line, text};
use crate::prng::Prng;
use crate::records::{list_bytes, raw_bytes};
use crate::refusals::{bad_record, faulty, single_and_pairs};
use crate::sheets::import;
use crate::smudged::smudged;
use crate::special::specials;
use crate::stream::{Ask, KINDS, OPERATIONS};
use crate::table::Table;
use crate::unbuilt::{
    bent, marked_unscored, marks_off, other_tree, random_fit, rows_unscored, too_many_children,
};
use crate::variants::Rules;

pub struct Generator {
    seed: u64,
    special: Vec<Vec<Case>>,
}

impl Generator {
    pub fn new(seed: u64) -> Generator {
        let all = specials(&mut Prng::new(seed, u64::MAX));
        let mut special: Vec<Vec<Case>> = vec![Vec::new(); OPERATIONS.len()];
        for case in all {
            special[case.ask.operation() as usize - 1].push(case);
        }
        Generator { seed, special }
    }

    /// Case `number`, at its first drawing or at a later one.
    pub fn case(&self, number: u64, drawing: u64) -> Case {
        let operation = (number % KINDS) as usize;
        if let Some(case) = self.special[operation].get((number / KINDS) as usize) {
            return case.clone();
        }
        let rng = &mut Prng::new(self.seed, number + (drawing << 40));
        match operation + 1 {
            1 => read_case(rng),
            2 => write_case(rng),
            3 => build_case(rng),
            4 => rescore_case(rng),
            5 => fit_case(rng),
            6 => tree_case(rng),
            7 => text_case(rng),
            8 => line_case(rng),
            9 => whole_case(rng),
            _ => import_case(rng),
        }
    }
}

fn plain(ask: Ask, says: String) -> Case {
    Case { ask, origin: Origin::default(), says }
}

fn from_list(ask: Ask, made: &Made, says: String) -> Case {
    Case { ask, origin: Origin { built: true, joints: made.joints.clone() }, says }
}

/// Bytes of one record: good, bad, or anything; sometimes not twelve.
fn read_case(rng: &mut Prng) -> Case {
    let cluster = (rng.draw() as u32 >> rng.below(32)).max(1);
    let kind = rng.below(5);
    let mut bytes = match rng.below(10) {
        0..=4 => raw_bytes(cluster, weight(rng, kind), 1).to_vec(),
        5 => raw_bytes(cluster, 0, 0).to_vec(),
        6..=8 => bad_record(rng).to_vec(),
        _ => rng.bytes(12),
    };
    if rng.chance(15) {
        let length = rng.pick(&[0, 1, 11, 13, 24, 36, 128, 1_536, 4_096]);
        bytes.resize(length, 0);
    }
    plain(Ask::Read { bytes }, "one record's bytes".into())
}

fn write_case(rng: &mut Prng) -> Case {
    let cluster = if rng.chance(8) { 0 } else { (rng.draw() as u32 >> rng.below(32)).max(1) };
    let kind = rng.below(5);
    let (weight, state) = match rng.below(10) {
        0..=5 => (weight(rng, kind), 1),
        6 => (0, 0),
        7 => (rng.pick(&[1, -1, i32::MIN]), 0),
        8 => (rng.pick(&[1_000_001, -1_000_001, i32::MAX, i32::MIN]), 1),
        _ => (rng.range(-2, 2) as i32, rng.draw() as u8),
    };
    let size = rng.pick(&[0, 1, 6, 10, 11, 12, 12, 12, 13, 14, 20, 24, 100, 512]);
    let room = rng.bytes(size);
    plain(Ask::Write { cluster, weight, state, room }, format!("one record into {size} bytes"))
}

/// A good list and a degree bound for which its trees can be counted.
fn good_list(rng: &mut Prng) -> (u32, Made) {
    let d = 3 + rng.below(3) as u32;
    if rng.chance(10) {
        return (d, random_made(rng, d));
    }
    (d, random_list(rng, d))
}

/// A degree bound and a list: mostly good, else refused for some reason.
fn list_for(rng: &mut Prng) -> (u32, Vec<u8>, Made) {
    if rng.chance(82) {
        let (d, made) = good_list(rng);
        return (d, list_bytes(&made.rows), made);
    }
    let mut all = single_and_pairs();
    // Most pairs hide the last two refusals, so these get more of their own.
    all.extend([vec![5], vec![5], vec![5, 6], vec![6], vec![6], vec![6], vec![6]]);
    let faults = &all[rng.below(all.len())];
    let (d, bytes) = faulty(rng, faults);
    let says = format!("a list with faults {faults:?}");
    (d, bytes, Made { rows: Vec::new(), joints: Vec::new(), says })
}

fn build_case(rng: &mut Prng) -> Case {
    let (d, list, made) = list_for(rng);
    from_list(Ask::Build { d, list }, &made, format!("d = {d}, {}", made.says))
}

/// A room size at or near what is due.
fn size_near(rng: &mut Prng, due: usize, most: usize) -> usize {
    let near = [due.saturating_sub(1), due, due + 1, due + 7, due.saturating_sub(2), 0, 1, most];
    let size = match rng.below(12) {
        0..=4 => due,
        5..=10 => rng.pick(&near),
        _ => rng.below(most + 1),
    };
    size.min(most)
}

fn line_case(rng: &mut Prng) -> Case {
    let (d, list, made) = list_for(rng);
    let built = Oracle::TRUE.build(d, &list, &made.joints).expect("the list was tried before");
    let due = line(d, built.as_ref().map_err(|r| *r), Rules::TRUE).len();
    let size = size_near(rng, due, 512);
    let room = rng.bytes(size);
    let says = format!("d = {d}, {}, into {size} bytes", made.says);
    from_list(Ask::Line { d, list, room }, &made, says)
}

fn random_built(rng: &mut Prng) -> Given {
    let (d, made) = good_list(rng);
    built(d, &made)
}

/// A built table that mostly has a tree to draw.
fn built_to_draw(rng: &mut Prng) -> Given {
    loop {
        let given = random_built(rng);
        if rng.chance(30) || drawn_tree(&given.table, Rules::TRUE).is_ok() {
            return given;
        }
    }
}

fn made_up(table: Table, says: &str) -> Given {
    Given { table, origin: Origin::default(), says: says.into() }
}

/// A fit table that no build made.
fn random_unbuilt(rng: &mut Prng) -> Given {
    let given = if rng.chance(50) {
        made_up(random_fit(rng), "made up and fit")
    } else {
        let from = random_built(rng);
        let table = bent(rng, &from.table);
        made_up(table, &format!("bent, {}", from.says))
    };
    if rng.chance(80) {
        return given;
    }
    made_up(rows_unscored(rng, &given.table), &format!("rows unscored, {}", given.says))
}

/// A table changed by one of `changes`, from any fit one.
fn changed(rng: &mut Prng, changes: &[(&str, Change)]) -> Given {
    loop {
        let from = if rng.chance(50) { random_unbuilt(rng) } else { random_built(rng) };
        let (says, change) = changes[rng.below(changes.len())];
        let mut table = from.table.clone();
        if change(&mut table, rng) {
            return made_up(table, &format!("{says}, {}", from.says));
        }
    }
}

fn broken(rng: &mut Prng) -> Given {
    changed(rng, &BREAKS)
}

fn fit_case(rng: &mut Prng) -> Case {
    let given = match rng.below(10) {
        0..=4 => broken(rng),
        5 => changed(rng, &EDGES),
        6..=7 => random_unbuilt(rng),
        _ => random_built(rng),
    };
    plain(Ask::Fit { table: Box::new(given.table) }, given.says)
}

/// Rescorings of any rows, or such as bear on the leaf set.
fn some_edits(rng: &mut Prng, table: &Table, many: usize) -> Vec<Edit> {
    if table.is_fit() && rng.chance(30) {
        return leaf_edits(rng, table);
    }
    random_edits(rng, table, many)
}

fn rescore_case(rng: &mut Prng) -> Case {
    let given = match rng.below(20) {
        0..=8 => random_built(rng),
        9..=16 => random_unbuilt(rng),
        17 => changed(rng, &EDGES),
        _ => broken(rng),
    };
    let many = rng.pick(&[0, 1, 1, 2, 3, 5]);
    let edits = some_edits(rng, &given.table, many);
    let says = format!("{} rescorings of a table {}", edits.len(), given.says);
    Case { ask: Ask::Rescore { table: Box::new(given.table), edits }, origin: given.origin, says }
}

/// A fit table after rescorings that bear on its leaf set.
fn rescored(rng: &mut Prng, table: &Table) -> Table {
    let mut after = table.clone();
    for edit in leaf_edits(rng, table) {
        rescore(&mut after, edit, Rules::TRUE).expect("each row is named as it stands");
    }
    after
}

/// A table from which a tree is to be drawn.
fn table_to_draw(rng: &mut Prng) -> Given {
    let way = rng.below(20);
    if way < 2 {
        return broken(rng);
    }
    if way < 4 {
        return random_unbuilt(rng);
    }
    let from = built_to_draw(rng);
    let (table, says) = match way {
        4..=5 => (other_tree(rng, &from.table, Rules::TRUE), "another tree marked"),
        6..=7 => (too_many_children(rng, &from.table), "a tree for a larger bound marked"),
        8..=9 => (marks_off(rng, &from.table), "marks a little off"),
        10 => (marked_unscored(rng, &from.table), "a marked row unscored"),
        11 => (Some(rescored(rng, &from.table)), "rescored"),
        _ => (None, ""),
    };
    match table {
        Some(table) => made_up(table, &format!("{says}, {}", from.says)),
        None => from,
    }
}

fn tree_case(rng: &mut Prng) -> Case {
    let given = table_to_draw(rng);
    let due = drawn_tree(&given.table, Rules::TRUE).map_or(5, |m| m.len());
    let size = size_near(rng, due, 256);
    let room: Vec<u32> = (0..size).map(|_| rng.draw() as u32).collect();
    let says = format!("a tree into {size} numbers, table {}", given.says);
    plain(Ask::Tree { table: Box::new(given.table), room }, says)
}

fn text_case(rng: &mut Prng) -> Case {
    let given = table_to_draw(rng);
    let due = drawn_tree(&given.table, Rules::TRUE).map_or(9, |m| text(&m).len());
    let size = size_near(rng, due, 512);
    let room = rng.bytes(size);
    let says = format!("a text into {size} bytes, table {}", given.says);
    plain(Ask::Text { table: Box::new(given.table), room }, says)
}

fn whole_case(rng: &mut Prng) -> Case {
    let (d, list, made) = list_for(rng);
    let built = Oracle::TRUE.build(d, &list, &made.joints).expect("the list was tried before");
    let many = rng.pick(&[0, 1, 1, 2, 3, 6]);
    let edits = some_edits(rng, &built.unwrap_or(Table::zero()), many);
    let says = format!("d = {d}, {}, {} rescorings", made.says, edits.len());
    from_list(Ask::Whole { d, list, edits }, &made, says)
}

/// A sheet, mostly good, else with a line or two spoiled or another end.
fn import_case(rng: &mut Prng) -> Case {
    let (gel, mut says) = random_gel(rng);
    let mut sheet = gel.bytes();
    if rng.chance(20) {
        let any = rng.below(gel.taxa);
        let mut at = vec![rng.pick(&[0, gel.taxa / 2, gel.taxa - 1, any])];
        at.extend(rng.chance(40).then_some(any));
        at.sort();
        at.dedup();
        let (bytes, how) = smudged(rng, gel.lines(), &at);
        sheet = bytes;
        says += &format!(", {how}");
    }
    match rng.below(40) {
        0 => {
            sheet.truncate(rng.below(sheet.len()));
            says += &format!(", cut to {} bytes", sheet.len());
        }
        1 => {
            sheet.push(rng.pick(b"01?\n\r "));
            says += ", a byte more at the end";
        }
        _ => {}
    }
    let due = import(&sheet, Rules::TRUE).map_or(60, |list| 12 * list.rows.len());
    let size = size_near(rng, due, 2_048);
    let room = rng.nonzero_bytes(size);
    plain(Ask::Import { sheet, room }, format!("{says}, into {size} bytes"))
}
