//! For those who look at a case: a raw update made a script, answers told in words, a
//! session record made and listed, what changed between two items, and what is wrong
//! with an input that is no script.

pub mod diff;
pub mod explain;
pub mod import;
mod order;
pub mod record;
mod unfit;
mod words;

pub use unfit::{pdu as unfit_pdu, session as unfit_session};
pub use words::condition;
