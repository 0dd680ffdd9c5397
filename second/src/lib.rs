//! An independent second program for the rules page (01).
//!
//! It reads path tables, runs the greedy check over them and activates
//! listening pairs, written straight from the text of the rules.

#![forbid(unsafe_code)]

pub mod batch;
pub mod check;
pub mod greedy;
pub mod heard;
pub mod limits;
pub mod lines;
pub mod machine_batch;
pub mod path;
pub mod print;
pub mod record;
pub mod refusal;
pub mod ring;
pub mod rounds;
pub mod rows;
pub mod run;
pub mod step;
pub mod table;

pub use check::{check, Answer, Verdict};
pub use heard::{choice, first_bad_offset, standing};
pub use refusal::{Reason, Refusal};
pub use run::{run, RunNumbers};
pub use step::step;
pub use table::Table;
