//! The two doors to the calls, as the model has them: the program `replay`
//! (`script` is what it reads, `replay` what it must print) and the emulator's
//! seam (`drive_bytes` is the lent state, `seam`, `cut`, `telling`, `shelf`, `fresh`
//! and `desk` the entries, `chain` a run of calls there).

pub mod chain;
pub mod cut;
pub mod desk;
pub mod drive_bytes;
pub mod fresh;
pub mod reader;
pub mod replay;
pub mod script;
pub mod seam;
pub mod shelf;
pub mod telling;
