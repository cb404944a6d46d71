//! The proved EF9365 / EF9366, as its static library exports it, held against the independent model `second`.
//! Nothing is proved here. What a comparison cannot see: calls it never makes.

pub mod bench;
#[cfg(not(linked))]
pub mod bridge;
pub mod call;
pub mod card;
pub mod case;
pub mod convert;
pub mod coverage;
pub mod differ;
pub mod difference;
pub mod draw;
#[cfg(linked)]
pub mod ffi;
pub mod flat;
pub mod formula;
pub mod frame_coverage;
pub mod lent;
pub mod library;
pub mod lines;
pub mod log;
pub mod memory;
pub mod model;
pub mod panel;
pub mod pbm_coverage;
pub mod positions;
pub mod program;
pub mod random;
pub mod scene;
#[cfg(not(linked))]
pub mod shared;
pub mod shrink;
pub mod slant_coverage;
pub mod tally;
