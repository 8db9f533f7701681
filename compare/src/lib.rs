//! Random scripts, what holds of every text that is shown, and the comparison of two programs that play scripts.

pub mod judge;
pub mod kind;
pub mod letters;
pub mod limit;
pub mod odd;
pub mod order;
pub mod program;
pub mod properties;
pub mod random;
pub mod report;
pub mod run;
pub mod scene;
pub mod shrink;
