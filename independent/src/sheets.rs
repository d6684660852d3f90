//! Gel sheets, and the cluster lists that they become. A sheet has a line of
//! `0`, `1` and `?` for each taxon from taxon 0, each with an LF at its end.
//! Records and what is sent back are those of RULES 2 and 13.
//!
//! Read from its last line up, a column is its cluster in binary digits; with
//! a `?` in it, it is no such number. The clusters of a list are a set, and
//! the weight of each is counted over all columns by itself.

use std::collections::BTreeSet;

use crate::lists::first_taxa;
use crate::records::{Refusal, Row, refuse};
use crate::variants::{Rules, Variant};

pub const LINES: usize = 32;
pub const COLUMNS: usize = 128;
pub const CLUSTERS: usize = 128;

/// What a sheet becomes: good records, ascending, and how many of its columns
/// have a `?`.
pub struct Imported {
    pub rows: Vec<Row>,
    pub unread: u64,
}

pub fn import(sheet: &[u8], rules: Rules) -> Result<Imported, Refusal> {
    let lines = lines(sheet)?;
    let columns = columns(&lines);
    let unread = columns.iter().filter(|column| column.contains('?')).count() as u64;
    let given: Vec<u32> = columns.iter().filter_map(|column| cluster(column, rules)).collect();
    let mut clusters: BTreeSet<u32> = given.iter().copied().collect();
    clusters.extend((0..lines.len()).map(|taxon| 1 << taxon));
    clusters.insert(first_taxa(lines.len()));
    if clusters.len() > CLUSTERS {
        return Err(refuse(13));
    }
    let weight = |cluster: u32| match given.iter().filter(|&&c| c == cluster).count() as i32 {
        times if rules.has(Variant::EqualColumnsOnce) => times.min(1),
        times => times,
    };
    let rows = clusters.iter().map(|&c| Row::scored(c, weight(c))).collect();
    Ok(Imported { rows, unread })
}

/// The lines without their LFs, or the first one at fault; where there are no
/// bytes, that is line 0.
fn lines(sheet: &[u8]) -> Result<Vec<&[u8]>, Refusal> {
    let at_fault = |at: usize| Refusal { number: 12, position: at as u64 };
    let ended: Vec<&[u8]> = sheet.split_inclusive(|&byte| byte == b'\n').collect();
    let length = ended.first().ok_or(at_fault(0))?.len();
    let good = |at: usize, line: &[u8]| at < LINES && line.len() == length;
    let judged = |(at, line)| marks(line).filter(|_| good(at, line)).ok_or(at_fault(at));
    ended.into_iter().enumerate().map(judged).collect()
}

/// The marks of a line; `None` where it is no line of any sheet.
fn marks(line: &[u8]) -> Option<&[u8]> {
    let marks = line.strip_suffix(b"\n")?;
    let good = (1..=COLUMNS).contains(&marks.len()) && marks.iter().all(|m| b"01?".contains(m));
    good.then_some(marks)
}

/// The columns of a sheet, each from its last line up.
fn columns(lines: &[&[u8]]) -> Vec<String> {
    let column = |at: usize| lines.iter().rev().map(|line| line[at] as char).collect();
    (0..lines[0].len()).map(column).collect()
}

/// The cluster that a column gives, if it gives one.
fn cluster(column: &str, rules: Rules) -> Option<u32> {
    let zero = if rules.has(Variant::UnreadAsZero) { "0" } else { "?" };
    u32::from_str_radix(&column.replace('?', zero), 2).ok().filter(|&cluster| cluster != 0)
}
