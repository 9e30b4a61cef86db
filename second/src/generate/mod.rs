//! Seeded generators: the same seed and count give the same bytes everywhere.

pub mod chunk_fault;
pub mod explain;
pub mod fault;
pub mod pdu;
pub mod random;
pub mod report;
pub mod session;
mod windows;
