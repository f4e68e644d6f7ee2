//! A second implementation of the base of document 01 and of document 02's Nos. 1 to 3, 5 and 6, written from the documents
//! alone.

pub mod bad_entries;
pub mod blank_cells;
pub mod blocks;
pub mod case;
pub mod checker;
pub mod collector;
pub mod compare;
pub mod decision;
pub mod edges;
pub mod extension;
pub mod intake;
pub mod invent;
pub mod late_faults;
pub mod plan;
pub mod random;
pub mod refusal;
pub mod schedule;
pub mod sender;
pub mod several_pages;
pub mod shrink;
pub mod side;
pub mod slot_verdicts;
pub mod stored;
pub mod text;
pub mod zero_parameter;
