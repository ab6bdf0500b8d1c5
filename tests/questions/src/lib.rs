//! Questions for the test programs. Nothing here uses a solver.

pub mod batches;
pub mod conversion;
pub mod diamonds;
pub mod editions;
pub mod largest;
pub mod marks;
pub mod open;
pub mod problem;
pub mod random;
pub mod reduced;
pub mod relations;
pub mod rows;
