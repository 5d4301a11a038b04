//! What the outside tests share: cards made from a seed, the rules of a whole card (RULES), and memory to lend.

pub mod cards;
pub mod options;
pub mod plan;
pub mod rng;
pub mod room;
pub mod rules;
