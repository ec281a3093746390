//! Second implementation of document 01, "EPM plan certificates: equations,
//! prices and the board", and of document 02's requests as far as they have
//! landed, written from those documents alone.
//!
//! It exists to test the proved implementation: the same inputs go to both
//! and the answers are compared. It is therefore written for reading and not
//! for speed. All sums are exact in `i128` or `u128`; `sums` states why they
//! fit.
//!
//! The law is in `shape`, `data`, `columns`, `rows`, `prices`, `sums`,
//! `calls`, `program` and `rival`; `explain` says an answer in words. The inputs for
//! the tests come from `generator`; `optimum` works out the least cost of small ones,
//! `coverage` counts which answers the inputs reach, `storage_count` what they have of
//! batteries, `cable_count` of lines between zones, `season_count` of links by season,
//! `product_count` of products and `default_count` of texts without a SCAL line,
//! `rival_count` the rivals that certificates are held to.
//! `earlier` has certificates that were accepted before request (iv).

pub mod cable_count;
pub mod calls;
pub mod columns;
pub mod coverage;
pub mod data;
pub mod default_count;
pub mod earlier;
pub mod explain;
pub mod fraction;
pub mod generator;
pub mod met;
pub mod model;
pub mod mps;
pub mod optimum;
pub mod prices;
pub mod product_count;
pub mod program;
pub mod refusal;
pub mod rival;
pub mod rival_count;
pub mod rounding;
pub mod rows;
pub mod season_count;
pub mod shape;
pub mod storage_count;
pub mod sums;
pub mod wide;

pub use calls::{certify, check, post};
pub use explain::explain;
pub use program::run;
pub use refusal::Refusal;
