//! Speed: the library against a plain card, one tuned by hand, and the model's formulas.

pub mod figures;
pub mod morning;
pub mod plain;
pub mod rounds;
pub mod runner;
pub mod tuned;
pub mod workload;
