//! The proved contact store compared with an independent rendering of document 01, on both engines.

pub mod answers;
pub mod comparison;
pub mod coverage;
pub mod engines;
pub mod failures;
pub mod frame;
pub mod generate;
mod library;
pub mod merge;
pub mod random;
pub mod rendering;
pub mod replay;
pub mod request_vectors;
pub mod session;
pub mod settings;
pub mod shrink;
pub mod sweep;
pub mod trace;
pub mod trace_vectors;
pub mod vectors;
pub mod voyages;

pub use library::Library;
