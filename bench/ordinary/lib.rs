//! The rule reader as an ordinary Rust program: document 01's grammar check and calls on a parse, with document 02's forest and positions of several
//! kinds, over lent words, with the same limits and refusals as the proved library. It is what that library's speed is measured against, and
//! `bench/compare` holds it to the model.
#![forbid(unsafe_code)]

mod chart;
mod grammar;
mod nodes;
mod queue;
mod step;

use std::{iter, slice};

use chart::Chart;
use grammar::Grammar;
use step::Tables;

/// Why a call is refused, by document 01's number.
#[derive(Clone, Copy, Debug, PartialEq, Eq)]
pub enum Refusal {
    Malformed = 1,
    Broken = 2,
    NoSets = 3,
    IllFormed = 4,
    NoToken = 5,
    NotPredicted = 6,
    ItemsFull = 7,
    QueueFull = 8,
    SetsFull = 9,
    StoreFull = 14,
}

/// A parse by value: the number of the latest set, the number of items in all sets, and the number of used units of the store.
#[derive(Clone, Copy, Debug, Default, PartialEq, Eq)]
pub struct State {
    pub set: usize,
    pub items: usize,
    pub used: usize,
}

/// The words that the caller lends.
pub struct Words<'a> {
    pub items: &'a mut [u32],
    pub starts: &'a mut [u32],
    pub rows: &'a mut [u64],
    pub queue: &'a mut [u32],
    pub store: &'a mut [u16],
}

/// What a run answers: the state as it is now, the number of positions taken, and the refusal of the next one, if any.
pub struct Ran {
    pub state: State,
    pub taken: usize,
    pub refusal: Option<Refusal>,
}

/// Checks a grammar file.
pub fn check(file: &[u8]) -> Result<(), Refusal> {
    Grammar::read(file).map(|_| ())
}

/// Starts a parse: clears the words, fills the store, and predicts what the wrapper begins with.
pub fn start(file: &[u8], words: &mut Words) -> Result<State, Refusal> {
    let grammar = Grammar::read(file)?;
    let mut chart = Chart::within(words).ok_or(Refusal::NoSets)?;
    chart.clear();
    chart.rows[0] = grammar.beginnings();
    Ok(State::default())
}

/// Reads one token.
pub fn token(file: &[u8], state: State, words: &mut Words, token: u16) -> Result<State, Refusal> {
    kinds(file, state, words, &[token])
}

/// Reads one position: its kinds of token, strictly rising.
pub fn kinds(file: &[u8], state: State, words: &mut Words, kinds: &[u16]) -> Result<State, Refusal> {
    let ran = read(file, state, words, iter::once(kinds));
    ran.refusal.map_or(Ok(ran.state), Err)
}

/// Reads tokens up to the first that is refused.
pub fn run(file: &[u8], state: State, words: &mut Words, tokens: &[u16]) -> Ran {
    read(file, state, words, tokens.iter().map(slice::from_ref))
}

/// Reads positions up to the first that is refused: of each how many kinds, then the kinds.
pub fn run_kinds(file: &[u8], state: State, words: &mut Words, positions: &[u16]) -> Ran {
    read(file, state, words, Positions(positions))
}

struct Positions<'a>(&'a [u16]);

impl<'a> Iterator for Positions<'a> {
    type Item = &'a [u16];

    /// One that the words cut off has no kind.
    fn next(&mut self) -> Option<&'a [u16]> {
        let (&count, rest) = self.0.split_first()?;
        let (kinds, rest) = rest.split_at_checked(usize::from(count)).unwrap_or_default();
        self.0 = rest;
        Some(kinds)
    }
}

fn read<'a>(file: &[u8], state: State, words: &mut Words, positions: impl Iterator<Item = &'a [u16]>) -> Ran {
    let (grammar, mut chart) = match open(file, state, words) {
        Ok(opened) => opened,
        Err(refusal) => return Ran { state, taken: 0, refusal: Some(refusal) },
    };
    let tables = Tables::new(&grammar);
    let mut summands = Vec::new();
    let mut ran = Ran { state, taken: 0, refusal: None };
    for kinds in positions {
        match step::step(&tables, &mut chart, &mut summands, ran.state, kinds) {
            Ok(next) => ran = Ran { state: next, taken: ran.taken + 1, refusal: None },
            Err(refusal) => return Ran { refusal: Some(refusal), ..ran },
        }
    }
    ran
}

/// The handle of the start symbol's node, where the tokens so far are a sentence.
pub fn finished(file: &[u8], state: State, words: &mut Words) -> Result<Option<u32>, Refusal> {
    let (_, chart) = open(file, state, words)?;
    Ok(chart.set(state.set).last().filter(|&&[_, rule, _]| rule == 0).map(|&[_, _, handle]| handle))
}

/// The part of the item words that holds the latest set.
pub fn latest_set<'a>(file: &[u8], state: State, words: &'a mut Words) -> Result<&'a [u32], Refusal> {
    let (_, chart) = open(file, state, words)?;
    let places = chart.places(state.set);
    Ok(&words.items[3 * places.start..3 * places.end])
}

/// The checks that every call on a running parse makes first.
fn open<'a>(file: &[u8], state: State, words: &'a mut Words) -> Result<(Grammar, Chart<'a>), Refusal> {
    let grammar = Grammar::read(file)?;
    let chart = Chart::within(words).ok_or(Refusal::IllFormed)?;
    if !chart.is_well_formed(&grammar, state) {
        return Err(Refusal::IllFormed);
    }
    Ok((grammar, chart))
}
