//! A comparison program for cluster tables, written from the rules
//! (docs/RULES.md) by trying sets of clusters. `main.rs` holds the commands;
//! `bin/mock.rs` is a stand-in for the program under test, for trying out the
//! comparison itself.

pub mod answer;
pub mod blanks;
pub mod blocks;
pub mod broken;
pub mod cases;
pub mod compare;
pub mod coverage;
pub mod facts;
pub mod formulas;
pub mod gels;
pub mod given;
pub mod leaf_coverage;
pub mod limits;
pub mod lists;
pub mod malformed;
pub mod newick;
pub mod prng;
pub mod records;
pub mod refusals;
pub mod rules;
pub mod selfcheck;
pub mod sheets;
pub mod smudged;
pub mod solve;
pub mod special;
pub mod special_leaves;
pub mod special_sheets;
pub mod stream;
pub mod table;
pub mod tuples;
pub mod unbuilt;
pub mod variants;
pub mod worked;
pub mod worked_lists;
