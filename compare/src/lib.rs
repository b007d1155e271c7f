//! A second opinion on the rules: an independent second program, inputs
//! for two receivers, and their comparison.

pub mod compare;
pub mod inputs;
pub mod layout;
pub mod product;
pub mod receiver;
pub mod second;
pub mod table;
