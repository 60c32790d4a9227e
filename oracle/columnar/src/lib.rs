//! The Rust's optional index, unchanged, under the names that it expects around it.
#![allow(dead_code, unused_imports, unexpected_cfgs)]

pub type RowId = u32;
pub type DocId = u32;

/// What the Rust asks of value columns in the one place where they meet the index.
pub trait ColumnValues<T>: Send + Sync {
    fn iter(&self) -> Box<dyn Iterator<Item = T> + '_>;
}

include!(concat!(env!("OUT_DIR"), "/rust/root.rs"));

pub use column_index::optional_index::{OptionalIndex, SelectCursor, Set, open_optional_index, serialize_optional_index};
pub use iterable::Iterable;
