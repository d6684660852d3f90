//! Lists that a build refuses, with any faults wanted at once. From RULES 8.

use crate::lists::random_rows;
use crate::prng::Prng;
use crate::records::raw_bytes;

/// The faults that a list or its degree bound can have.
pub const FAULTS: [u8; 6] = [4, 1, 3, 2, 5, 6];

/// Every fault alone, and every pair that can stand together (a list of no
/// bytes has no other fault in it, only a bad degree bound beside it).
pub fn single_and_pairs() -> Vec<Vec<u8>> {
    let mut all: Vec<Vec<u8>> = FAULTS.iter().map(|&f| vec![f]).collect();
    for (i, &a) in FAULTS.iter().enumerate() {
        for &b in &FAULTS[i + 1..] {
            if b != 1 && a != 1 || a == 4 {
                all.push(vec![a, b]);
            }
        }
    }
    all.push(vec![4, 3, 2, 5, 6]);
    all.push(vec![3, 2, 5, 6]);
    all
}

/// Degree bound and list bytes with just these faults.
pub fn faulty(rng: &mut Prng, faults: &[u8]) -> (u32, Vec<u8>) {
    let has = |f: u8| faults.contains(&f);
    let good = 3 + rng.below(3) as u32;
    let bad = rng.pick(&[0, 1, 2, 6, 7, 255, 256, 259, 65_539, u32::MAX, 1 << 31]);
    let d = if has(4) { bad } else { good };
    if has(1) {
        return (d, Vec::new());
    }
    let mut records = good_records(rng, has(3));
    if has(5) {
        for _ in 0..1 + rng.below(2) {
            let at = rng.below(records.len());
            records[at] = bad_record(rng);
        }
    }
    if has(6) {
        repeat(rng, &mut records);
    }
    let mut bytes = records.concat();
    if has(2) {
        bytes.truncate(4_096 - 12);
        let more = 1 + rng.below(11);
        bytes.extend(rng.bytes(more));
    } else if has(3) {
        bytes.truncate(4_092);
    }
    (d, bytes)
}

/// Good records with clusters all different; too many of them if asked for.
fn good_records(rng: &mut Prng, too_many: bool) -> Vec<[u8; 12]> {
    let (mut rows, _) = random_rows(rng);
    rows.truncate(100);
    let mut records: Vec<[u8; 12]> = rows.iter().map(|r| r.bytes()).collect();
    if too_many {
        let wanted = rng.pick(&[129, 129, 130, 200, 341]);
        let mut next = 0x0101_0101u32;
        while records.len() < wanted {
            if rows.iter().all(|r| r.cluster != next) {
                records.push(raw_bytes(next, 0, 1));
            }
            next += 1;
        }
    }
    records
}

/// Repeats the cluster of some record at one or two other places, as good
/// records, without taking the place of the last bad one.
fn repeat(rng: &mut Prng, records: &mut Vec<[u8; 12]>) {
    for _ in 0..1 + rng.below(2) {
        let from = rng.below(records.len());
        let cluster = u32::from_le_bytes(records[from][..4].try_into().unwrap()).max(1);
        let copy = raw_bytes(cluster, rng.range(-2, 2) as i32, 1);
        let to = from + 1 + rng.below(records.len() - from);
        records.insert(to, copy);
    }
}

/// Twelve bytes that break the record rules in one or more ways.
pub fn bad_record(rng: &mut Prng) -> [u8; 12] {
    let cluster = (rng.draw() as u32).max(1);
    let fault = rng.below(BAD_KINDS);
    bad_record_of(rng, cluster, fault)
}

pub const BAD_KINDS: usize = 14;

pub fn bad_record_of(rng: &mut Prng, cluster: u32, kind: usize) -> [u8; 12] {
    let mut out = match kind {
        0 => raw_bytes(0, 5, 1),
        1 => raw_bytes(cluster, 1_000_001, 1),
        2 => raw_bytes(cluster, -1_000_001, 1),
        3 => raw_bytes(cluster, i32::MIN, 1),
        4 => raw_bytes(cluster, i32::MAX, 1),
        5 => raw_bytes(cluster, 0, 2),
        6 => raw_bytes(cluster, 0, 255),
        7 => raw_bytes(cluster, 1, 0),
        8 => raw_bytes(cluster, -1, 0),
        9 => raw_bytes(0, 0, 0),
        10 => raw_bytes(cluster, 1, 128),
        _ => raw_bytes(cluster, 0, rng.below(2) as u8),
    };
    if kind >= 11 {
        out[kind - 2] = 1 + rng.below(255) as u8;
    }
    out
}
