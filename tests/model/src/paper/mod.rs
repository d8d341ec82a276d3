//! The calls of the paper ("01"), done the plain way and written from the
//! paper alone. The modules follow its headings, so that both can be read side
//! by side:
//!
//! | heading of the paper | module |
//! |---|---|
//! | The calls we serve | `calls` |
//! | Volume and entry | `geometry`, `names`, `directory` |
//! | Inspection at log-in | `inspection`, `bad_slots`, `held`, `state` |
//! | Control block and position | `control` |
//! | What each call does when it succeeds | `files`, `records` |
//! | Numbers of refusal, in order of test | `refusals`; the rows from 255 on in `files`, `records` |
//! | (02, i) Eight-inch floppies | `floppy` |
//! | (02, ii) Several records a call | `several` |
//! | (02, vii) What the shelf holds | `shelf` |
//! | (02, x) Sigla by column | `sigla` |
//! | (02, xi) The hard disk of the second machine | `geometry`; `Entry::map` in `directory` |
//! | (02, xii) If the emulator is closed halfway | `stores` |
//! | (02, xiv) A fresh disk from a worn one | `fresh` |
//! | Examples to hold it to | `lister`, and `tests/examples.rs` |

pub mod bad_slots;
pub mod calls;
pub mod control;
pub mod directory;
pub mod files;
pub mod floppy;
pub mod fresh;
pub mod geometry;
pub mod held;
pub mod inspection;
pub mod lister;
pub mod names;
pub mod records;
pub mod refusals;
pub mod several;
pub mod shelf;
pub mod sigla;
pub mod state;
pub mod stores;
