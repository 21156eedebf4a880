//! The oracle: the Rust originals run on stores in this engine's layout, a model of the rules,
//! and what is needed to compare engines with both.

#[cfg(feature = "archive")]
pub mod archive;
pub mod canon;
pub mod case;
pub mod compare;
pub mod expect;
pub mod heaps;
pub mod model;
pub mod notation;
pub mod rust;
pub mod store;
pub mod word;
