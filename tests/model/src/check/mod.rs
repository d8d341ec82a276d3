//! Holding `replay` and the seam against the model.
//!
//! | module | what it holds |
//! |---|---|
//! | `program`, `archive` | the two things under test |
//! | `transcripts`, `side_by_side` | comparing texts, and chains of calls |
//! | `differences` | differences in words |
//! | `ways` | comparing the model's two ways |
//! | `cuts` | what is demanded of a call that is cut off |
//! | `copies` | fresh disks at the seam, and what is demanded of them |
//! | `pairs`, `table` | the pairs of call and answer that the paper makes possible, and their count |
//! | `shelves` | shelves at the seam |
//! | `run`, `again`, `kept` | many scripts and chains; one that is kept in a file |

pub mod again;
pub mod archive;
pub mod copies;
pub mod cuts;
pub mod differences;
pub mod kept;
pub mod pairs;
pub mod program;
pub mod run;
pub mod shelves;
pub mod side_by_side;
pub mod table;
pub mod transcripts;
pub mod ways;
