//! The lent words within their capacities, as items, set starts, predicted rows, queue and store.

use std::ops::{BitOr, BitXor, Range};

use crate::grammar::{is_below, Grammar, Row, NONE, ROW_WORDS};
use crate::nodes::{Heads, FILLER};
use crate::{State, Words};

const MAX_ITEMS: usize = 4096;
const MAX_SETS: usize = 1024;
const MAX_QUEUED: usize = 1024;
const MAX_UNITS: usize = 32768;

/// Origin, rule, and the handle of the first symbol's node.
pub type Item = [u32; 3];

/// A place and a right factor.
pub type Entry = [u32; 2];

pub struct Chart<'a> {
    pub items: &'a mut [Item],
    pub starts: &'a mut [u32],
    pub rows: &'a mut [Row],
    pub queue: &'a mut [Entry],
    pub store: &'a mut [u16],
}

impl<'a> Chart<'a> {
    /// The words within the capacities, if there is room for a set.
    pub fn within(words: &'a mut Words) -> Option<Chart<'a>> {
        let items = words.items.as_chunks_mut().0;
        let rows = words.rows.as_chunks_mut().0;
        let item_room = items.len().min(MAX_ITEMS);
        let set_room = words.starts.len().saturating_sub(1).min(rows.len()).min(MAX_SETS);
        let queue = words.queue.as_chunks_mut().0;
        let queue_room = queue.len().min(MAX_QUEUED);
        let unit_room = words.store.len().min(MAX_UNITS);
        if set_room == 0 {
            return None;
        }
        Some(Chart {
            items: &mut items[..item_room],
            starts: &mut words.starts[..=set_room],
            rows: &mut rows[..set_room],
            queue: &mut queue[..queue_room],
            store: &mut words.store[..unit_room],
        })
    }

    pub fn clear(&mut self) {
        self.items.fill([0; 3]);
        self.starts.fill(0);
        self.rows.fill([0; ROW_WORDS]);
        self.queue.fill([0; 2]);
        self.store.fill(FILLER);
    }

    /// The places of a set's items.
    pub fn places(&self, set: usize) -> Range<usize> {
        self.starts[set] as usize..self.starts[set + 1] as usize
    }

    pub fn set(&self, set: usize) -> &[Item] {
        &self.items[self.places(set)]
    }

    pub fn is_well_formed(&self, grammar: &Grammar, state: State) -> bool {
        let State { set: e, items: count, used } = state;
        e < self.rows.len()
            && count <= self.items.len()
            && used <= self.store.len()
            && self.has_fit_starts(e, count)
            && (0..=e).all(|k| self.has_fit_items(grammar, k))
            && self.rows[..=e].iter().all(|row| is_below(row, grammar.symbols))
            && are_all(self.items[count..].as_flattened(), 0)
            && are_all(&self.starts[e + 2..], 0)
            && are_all(self.rows[e + 1..].as_flattened(), 0)
            && are_all(self.queue.as_flattened(), 0)
            && are_all(&self.store[used..], FILLER)
            && Heads::of(&self.store[..used]).is_some_and(|heads| self.items[..count].iter().all(|&[_, _, handle]| heads.has(handle)))
    }

    fn has_fit_starts(&self, e: usize, count: usize) -> bool {
        let starts = &self.starts[..e + 2];
        starts[..2] == [0, 0] && starts.is_sorted() && starts[e + 1] as usize == count
    }

    /// Whether the items of set k have fit origins and rules, and rise strictly.
    fn has_fit_items(&self, grammar: &Grammar, k: usize) -> bool {
        let items = self.set(k);
        items.iter().all(|&[origin, rule, _]| {
            (origin as usize) < k && grammar.rules.get(rule as usize).is_some_and(|rule| rule.second != NONE)
        }) && items.is_sorted_by(|&a, &b| set_order(grammar, a) < set_order(grammar, b))
    }
}

/// Whether all words are this one. There is no exit on the way, so that many are looked at at a time.
fn are_all<T: Copy + Default + PartialEq + BitXor<Output = T> + BitOr<Output = T>>(words: &[T], due: T) -> bool {
    words.iter().fold(T::default(), |differing, &word| differing | (word ^ due)) == T::default()
}

/// The order of the items in the queue: origin, rule.
pub fn queue_order([origin, rule, _]: Item) -> u64 {
    u64::from(origin) << 32 | u64::from(rule)
}

/// The order of the items in a set: second (none last), rule, origin. Rules and origins of stored items are below 65,536.
pub fn set_order(grammar: &Grammar, [origin, rule, _]: Item) -> u64 {
    u64::from(grammar.rules[rule as usize].second) << 32 | u64::from(rule) << 16 | u64::from(origin)
}
