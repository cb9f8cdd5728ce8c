//! Skelfora judged from outside: two implementations of document 01 that share no logic
//! (`judge`, slow and literal; `yardstick`, fast), the inputs to try them on (`seeds`) and
//! the means to set them against each other and against the proved code (`door`, `port`).
pub mod comparison;
pub mod door;
pub mod judge;
pub mod port;
pub mod seeds;
pub mod value;
pub mod yardstick;
