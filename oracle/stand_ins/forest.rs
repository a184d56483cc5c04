//! Stand-in for `forest/mod.rs`: its trait as it is there, without bocage, order and traversal.

#[path = "../rust/forest/node.rs"]
pub mod node;
#[path = "../rust/forest/null_forest.rs"]
pub mod null_forest;

pub use self::null_forest::NullForest;

use std::fmt;
use cfg::Symbol;

use item::CompletedItem;

pub trait Forest {
    /// Reference to a node.
    type NodeRef: Copy + fmt::Debug;
    type LeafValue;

    const FOREST_BYTES_PER_RECOGNIZER_BYTE: usize;

    fn begin_sum(&mut self);

    fn push_summand(&mut self, item: CompletedItem<Self::NodeRef>);

    fn sum(&mut self, lhs_sym: Symbol, origin: u32) -> Self::NodeRef;

    fn leaf(&mut self, token: Symbol, pos: u32, value: Self::LeafValue) -> Self::NodeRef;

    fn nulling(&self, token: Symbol) -> Self::NodeRef;
}
