//! An independent receiver and sender, an independent mender and comparer of recordings and an independent reader of deltas, written
//! from document 01, its readings, source 001, the orders' pages and the scripted console's paper.

pub mod console;
pub mod delta;
pub mod mend;
pub mod notation;
pub mod receiver;
pub mod replay;
pub mod script;
pub mod sender;
pub mod windows;
pub mod writer;
