//! What runs today: the unchanged files of gearley 0.0.4 over the stand-ins of oracle/, as a crate that timing.rs calls. With the crate's own forest or without.

#[path = "../oracle/rust/binary_heap.rs"]
mod binary_heap;
#[path = "../oracle/stand_ins/bit_matrix.rs"]
mod bit_matrix;
#[path = "../oracle/stand_ins/bit_vec.rs"]
mod bit_vec;
#[path = "../oracle/stand_ins/cfg.rs"]
mod cfg;
#[path = "../oracle/rust/events.rs"]
mod events;
#[path = "../oracle/rust/forest/mod.rs"]
mod forest;
#[path = "../oracle/stand_ins/grammar.rs"]
mod grammar;
#[path = "../oracle/rust/item.rs"]
mod item;
#[path = "../oracle/rust/recognizer.rs"]
mod recognizer;

use cfg::Symbol;
use forest::{Bocage, Forest, NullForest};
use grammar::InternalGrammar;
use recognizer::Recognizer;

/// A grammar with its tables. They are made once: the crate has no file and no check, and a parse borrows them.
pub struct Grammar(InternalGrammar);

/// What a parse ends with: the number of its latest set, the number of its items, and whether it is finished.
#[derive(Clone, Copy, Debug, PartialEq)]
pub struct Ended {
    pub set: usize,
    pub items: usize,
    pub finished: bool,
}

impl Grammar {
    /// The file must have passed the grammar check.
    pub fn new(file: &[u8]) -> Grammar {
        Grammar(InternalGrammar::from_file(file))
    }

    /// Starts a parse and reads positions up to the first that is refused.
    pub fn read<'a, P>(&self, with_forest: bool, positions: P) -> Ended
        where P: Iterator<Item = &'a [u16]>
    {
        if with_forest {
            read(Recognizer::new(&self.0, Bocage::new(&self.0)), 0, positions)
        } else {
            read(Recognizer::new(&self.0, NullForest), (), positions)
        }
    }
}

fn read<'a, F, P>(mut parse: Recognizer<F>, value: F::LeafValue, positions: P) -> Ended
    where F: Forest,
          F::LeafValue: Copy,
          P: Iterator<Item = &'a [u16]>
{
    for kinds in positions {
        for &kind in kinds {
            parse.scan(Symbol::from(u32::from(kind)), value);
        }
        if !parse.end_earleme() {
            break;
        }
    }
    Ended { set: parse.earleme(), items: parse.medial.len(), finished: parse.is_finished() }
}
