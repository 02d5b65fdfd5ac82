//! The independent engine, written from documents 00 and 01 and requests F-1, F-3, F-4 and F-5 of document 02, and what makes cases for it and for the proved
//! one.

pub mod choices;
pub mod dice;
pub mod dimacs;
pub mod engine;
pub mod fixed;
pub mod frame;
pub mod inputs;
pub mod limbs;
pub mod maps;
pub mod order;
pub mod random;
pub mod reading;

#[cfg(test)]
mod call_tests;
#[cfg(test)]
mod export_tests;
#[cfg(test)]
mod option_tests;
#[cfg(test)]
mod order_tests;
#[cfg(test)]
mod run_tests;
