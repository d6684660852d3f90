//! The cases of gel sheets that every run makes: sheets worked by hand, every
//! size, the smallest sheets whole, columns of one kind throughout, lists at
//! the limit, every fault at every place, several refusals at once, rooms
//! around what is due, and every byte for a mark. From RULES 13.

use crate::answer::Origin;
use crate::gels::{Column, Gel, crowd, mixed, unread_column};
use crate::given::Case;
use crate::lists::first_taxa;
use crate::prng::Prng;
use crate::sheets::{COLUMNS, LINES, import};
use crate::smudged::{all_smudges, no_sheets, smudged};
use crate::stream::Ask;
use crate::variants::Rules;
use crate::worked::worked_sheets;

/// The longest room that a case can have.
const ROOM: usize = 2_048;

pub fn special_sheets(all: &mut Vec<Case>, rng: &mut Prng) {
    for worked in worked_sheets() {
        let due = 12 * worked.records();
        let rooms = if due == 0 { vec![40] } else { vec![0, due - 1, due, due + 5] };
        for room in rooms {
            add(all, rng, worked.sheet.clone(), room, worked.says);
        }
    }
    spoiled_lines(all, rng);
    crowds(all, rng);
    several_refusals(all, rng);
    every_size(all, rng);
    one_kind_throughout(all, rng);
    for (bytes, says) in no_sheets(rng) {
        add(all, rng, bytes, 60, &says);
    }
    smallest(all, rng);
    rooms(all, rng);
    every_byte(all, rng);
}

fn add(all: &mut Vec<Case>, rng: &mut Prng, sheet: Vec<u8>, room: usize, says: &str) {
    let says = format!("{says}, into {room} bytes");
    let ask = Ask::Import { sheet, room: rng.nonzero_bytes(room) };
    all.push(Case { ask, origin: Origin::default(), says });
}

/// The bytes that a good sheet's list takes.
fn due(sheet: &[u8]) -> usize {
    import(sheet, Rules::TRUE).map_or(0, |list| 12 * list.rows.len())
}

/// Each way of spoiling a line, in the first, a middle and the last one.
fn spoiled_lines(all: &mut Vec<Case>, rng: &mut Prng) {
    for (says, smudge) in all_smudges() {
        for (taxa, columns) in [(3, 4), (9, 1), (LINES, COLUMNS)] {
            for at in [0, taxa / 2, taxa - 1] {
                let mut lines = mixed(rng, taxa, columns).lines();
                smudge(&mut lines, at, rng);
                let says = format!("{taxa} lines of {columns}, line {at} with {says}");
                add(all, rng, lines.concat(), ROOM, &says);
            }
        }
        let mut lines = mixed(rng, 1, 5).lines();
        smudge(&mut lines, 0, rng);
        add(all, rng, lines.concat(), 12, &format!("one line with {says}"));
    }
}

/// Lists with as many clusters as there is room for, one less, and more.
fn crowds(all: &mut Vec<Case>, rng: &mut Prng) {
    for taxa in [8, 9, 16, 31, 32] {
        for clusters in [127, 128, 129, 130] {
            let sheet = crowd(rng, taxa, clusters).bytes();
            for room in [0, 12 * clusters - 1, 12 * clusters, ROOM] {
                let says = format!("{clusters} clusters on {taxa} taxa");
                add(all, rng, sheet.clone(), room, &says);
            }
        }
    }
    let most = crowd(rng, LINES, LINES + 1 + COLUMNS).bytes();
    for room in [0, 1_536, 161 * 12, ROOM] {
        add(all, rng, most.clone(), room, "161 clusters");
    }
    let columns = (1..=127).map(Column::read).collect();
    let sheet = Gel { taxa: 7, columns }.bytes();
    add(all, rng, sheet, ROOM, "all clusters of 7 taxa");
    filled_by_columns(all, rng);
}

/// Different columns with nothing to add to them, one cluster, 32 or 33; and
/// 128 clusters beside a `?` column that would give one more if it were read.
fn filled_by_columns(all: &mut Vec<Case>, rng: &mut Prng) {
    let whole = Column::read(u32::MAX);
    let singles: Vec<Column> = (0..32).map(|taxon| Column::read(1 << taxon)).collect();
    let pairs: Vec<Column> = (0..31).map(|taxon| Column::read(3 << taxon)).collect();
    let odd: Vec<Column> = (0..128).map(|i| Column::read(0x8000_0007 | i << 8)).collect();
    let unread = Column { ones: 0x7000, unread: 1 << rng.below(12) };
    let sheets = [
        ([&singles[..], &[whole], &odd[..95]].concat(), "nothing to add to 128 clusters"),
        ([&singles[..], &odd[..96]].concat(), "one cluster to add to 128"),
        ([&[whole], &odd[..127]].concat(), "32 clusters to add to 128"),
        (odd.clone(), "33 clusters to add to 128"),
        ([&pairs[..], &odd[..64]].concat(), "33 clusters to add to 95"),
        ([&pairs[..], &odd[..65]].concat(), "33 clusters to add to 96"),
        ([&odd[..95], &[unread]].concat(), "128 clusters, and one if it were read"),
    ];
    for (mut columns, says) in sheets {
        rng.shuffle(&mut columns);
        let sheet = Gel { taxa: LINES, columns }.bytes();
        for room in [1_535, 1_536, 1_548, ROOM] {
            add(all, rng, sheet.clone(), room, says);
        }
    }
}

/// A fault, too many clusters and too short a room, together and in pairs;
/// and two faults.
fn several_refusals(all: &mut Vec<Case>, rng: &mut Prng) {
    for (says, smudge) in all_smudges() {
        for (clusters, room) in [(129, 0), (128, 0), (129, ROOM), (161, 1_547)] {
            let mut lines = crowd(rng, LINES, clusters).lines();
            let at = rng.pick(&[0, LINES / 2, LINES - 1]);
            smudge(&mut lines, at, rng);
            let says = format!("{clusters} clusters, line {at} with {says}");
            add(all, rng, lines.concat(), room, &says);
        }
    }
    for _ in 0..60 {
        let (taxa, columns) = (2 + rng.below(LINES - 1), 1 + rng.below(COLUMNS));
        let lines = mixed(rng, taxa, columns).lines();
        let first = rng.below(taxa - 1);
        let second = first + 1 + rng.below(taxa - 1 - first);
        let (bytes, how) = smudged(rng, lines, &[first, second]);
        add(all, rng, bytes, 12 * taxa, &format!("{taxa} lines of {columns}, {how}"));
    }
}

/// Every number of lines, and numbers of columns up to the most.
fn every_size(all: &mut Vec<Case>, rng: &mut Prng) {
    let any = |rng: &mut Prng| 1 + rng.below(COLUMNS);
    let mut sizes: Vec<(usize, usize)> = Vec::new();
    for taxa in 1..=LINES {
        sizes.extend([(taxa, 1), (taxa, any(rng)), (taxa, COLUMNS)]);
    }
    for columns in [2, 3, 7, 8, 9, 31, 32, 33, 63, 64, 65, 126, 127] {
        sizes.extend([(1, columns), (LINES, columns), (1 + rng.below(LINES), columns)]);
    }
    for (taxa, columns) in sizes {
        let sheet = mixed(rng, taxa, columns).bytes();
        let room = due(&sheet) + rng.below(3);
        add(all, rng, sheet, room, &format!("{taxa} lines of {columns}"));
    }
}

/// The same column, or the same kind of it, from first to last.
fn one_kind_throughout(all: &mut Vec<Case>, rng: &mut Prng) {
    for taxa in [1, 2, 5, 31, LINES] {
        let whole = first_taxa(taxa);
        let last = 1 << (taxa - 1);
        let kinds = [
            (Column::read(0), "zeros"),
            (Column::read(whole), "ones"),
            (Column::read(1), "the first taxon"),
            (Column::read(last), "the last taxon"),
            (Column::read(whole & !1), "all but the first taxon"),
            (Column { ones: 0, unread: whole }, "all unread"),
            (Column { ones: 0, unread: last }, "zeros and a last ?"),
            (Column { ones: whole & !1, unread: 1 }, "ones and a first ?"),
        ];
        for (column, says) in kinds {
            let columns = rng.pick(&[2, 127, COLUMNS]);
            let sheet = Gel { taxa, columns: vec![column; columns] }.bytes();
            let says = format!("{taxa} lines, {columns} times {says}");
            add(all, rng, sheet, 12 * (taxa + 3), &says);
        }
        let columns = (0..COLUMNS).map(|_| unread_column(rng, taxa)).collect();
        let sheet = Gel { taxa, columns }.bytes();
        add(all, rng, sheet, 12 * (taxa + 1), &format!("{taxa} lines, a ? in every column"));
    }
}

/// Every sheet of one or two lines and one or two columns.
fn smallest(all: &mut Vec<Case>, rng: &mut Prng) {
    for (taxa, columns) in [(1, 1), (1, 2), (2, 1), (2, 2)] {
        let marks = taxa * columns;
        for number in 0..3usize.pow(marks as u32) {
            let digit = |place: usize| b"01?"[number / 3usize.pow(place as u32) % 3];
            let marks: Vec<u8> = (0..marks).map(digit).collect();
            let sheet = marks.chunks(columns).flat_map(|line| [line, b"\n"].concat()).collect();
            add(all, rng, sheet, 12 * (taxa + columns), "one of the smallest");
        }
    }
}

/// Every room up to what is due and past it, for a list of five records; and
/// the longest sheet and room that a case can have.
fn rooms(all: &mut Vec<Case>, rng: &mut Prng) {
    for room in 0..64 {
        add(all, rng, b"1?01\n10?1\n0001\n".to_vec(), room, "five records");
    }
    for taxa in [1, 31, LINES] {
        let sheet = mixed(rng, taxa, 40).bytes();
        let due = due(&sheet);
        for room in [due - 12, due - 11, due - 1, due, due + 1, due + 12, ROOM] {
            add(all, rng, sheet.clone(), room, &format!("{taxa} lines of 40"));
        }
    }
    let mut longest = crowd(rng, LINES, 128).bytes();
    longest.resize(8_192, b'\n');
    add(all, rng, longest, ROOM, "a sheet and LFs, 8,192 bytes");
}

/// Every byte in the place of a mark, in any line.
fn every_byte(all: &mut Vec<Case>, rng: &mut Prng) {
    for byte in 0..=255 {
        let mut lines = mixed(rng, 3, 3).lines();
        let (at, place) = (rng.below(3), rng.below(3));
        lines[at][place] = byte;
        add(all, rng, lines.concat(), 84, &format!("the byte {byte} in line {at}"));
    }
}
