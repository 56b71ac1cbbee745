//! An independent implementation of the rules by which deployments are planned, checked and run,
//! in plain Rust. It shares no code with the library beside which it is run.

pub mod answers;
pub mod calls;
pub mod check;
pub mod closing;
pub mod cloud;
pub mod gaps;
pub mod host;
pub mod line;
pub mod order;
pub mod plan;
pub mod random;
pub mod rules;
pub mod run;
pub mod sets;
pub mod sketch;
pub mod table;
pub mod universe;
pub mod verifying;

#[cfg(test)]
mod tests;
#[cfg(test)]
mod word_by_word;
