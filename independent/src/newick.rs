//! The tree taken out of a table, its text, and the printed line. From RULES 8
//! (the order 8, 7, 8, 11), 9 and 10.

use crate::records::{Refusal, refuse};
use crate::rules::{children, is_tree};
use crate::table::Table;
use crate::variants::Rules;

/// The tree that a table's leaf-set row marks, ascending.
pub fn drawn_tree(table: &Table, rules: Rules) -> Result<Vec<u32>, Refusal> {
    drawn_with_leaves_of(table, table, rules)
}

/// The same with the leaf set of another table, which has the same clusters.
pub fn drawn_with_leaves_of(
    table: &Table,
    other: &Table,
    rules: Rules,
) -> Result<Vec<u32>, Refusal> {
    if !table.is_fit() {
        return Err(refuse(8));
    }
    let top = other.leaf_row(rules).ok_or(refuse(7))?;
    marked_tree(table, top, rules)
}

/// The tree that one row of a fit table marks.
fn marked_tree(table: &Table, top: usize, rules: Rules) -> Result<Vec<u32>, Refusal> {
    if table.counts[top] == 0 {
        return Err(refuse(7));
    }
    let is_marked = |i: &usize| table.members[top] >> i & 1 == 1;
    let marked: Vec<usize> = (0..table.n as usize).filter(is_marked).collect();
    let members: Vec<u32> = marked.iter().map(|&i| table.clusters[i] as u32).collect();
    let weight: i64 = marked.iter().map(|&i| table.weights[i] as i64).sum();
    let all_scored = marked.iter().all(|&i| rules.usable(table.states[i] == 1));
    let whole = table.clusters[top] as u32;
    if all_scored && is_tree(&members, whole, table.d, rules) && weight == table.bests[top] {
        Ok(members)
    } else {
        Err(refuse(8))
    }
}

pub fn text(members: &[u32]) -> String {
    let top = members.iter().fold(0, |u, m| u | m);
    format!("{};", vertex(members, top))
}

fn vertex(members: &[u32], cluster: u32) -> String {
    if cluster.count_ones() == 1 {
        return cluster.trailing_zeros().to_string();
    }
    let mut kids = children(members, cluster);
    kids.sort_by_key(|c| c.trailing_zeros());
    let parts: Vec<String> = kids.iter().map(|&c| vertex(members, c)).collect();
    format!("({})", parts.join(","))
}

/// The line that the program prints for one degree bound, with its line end.
pub fn line(d: u32, built: Result<&Table, Refusal>, rules: Rules) -> String {
    let drawn = built.and_then(|table| {
        let top = table.leaf_row(rules).ok_or(refuse(7))?;
        Ok((table, top, marked_tree(table, top, rules)?))
    });
    match drawn {
        Err(Refusal { number, position }) if number == 5 || number == 6 => {
            format!("{d} refused {number} at {position}\n")
        }
        Err(refusal) => format!("{d} refused {}\n", refusal.number),
        Ok((table, top, members)) => {
            let count = if table.marks[top] == 1 {
                "many".to_string()
            } else {
                table.counts[top].to_string()
            };
            format!("{d} {count} {} {}\n", table.bests[top], text(&members))
        }
    }
}
