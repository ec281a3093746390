//! The proved calls of the static library, the proved programs, and the comparison
//! of their answers with the second implementation's.

mod calls;
mod compare;
mod program;
mod rivals;
mod verdict;

pub use calls::{certify, check, post};
pub use compare::{measure, Agreement};
pub use program::{measure_program, Program, ProgramAgreement, BUFFER};
pub use rivals::measure_rivals;
pub use verdict::{seeds, verdict};
