//! Runs the unchanged recognizer and tells its whole state. The streams of numbers are described in ../README.md.
//!
//!     recognize states < cases         states after the start and after each token, and the summands in pop order
//!     recognize told < cases           what the forest is told: leaves, sums, summands and their nodes, and the nodes of the items
//!     recognize latest < cases         the items of the latest set, as `medial_items` tells them; tokens are passed over
//!     recognize panics < cases         the line of recognizer.rs (else 1) at which the case's tokens panic, or 0
//!     recognize heap < cases           places in pop order, for given items and pushes
//!     recognize show FILE TOKEN ..     the same states in words, for a grammar file and tokens

#[path = "../rust/binary_heap.rs"]
mod binary_heap;
#[path = "../stand_ins/bit_matrix.rs"]
mod bit_matrix;
#[path = "../stand_ins/cfg.rs"]
mod cfg;
#[path = "../rust/events.rs"]
mod events;
#[path = "../stand_ins/forest.rs"]
mod forest;
#[path = "../stand_ins/grammar.rs"]
mod grammar;
#[path = "../rust/item.rs"]
mod item;
mod numbers;
#[path = "../rust/recognizer.rs"]
mod recognizer;

use std::env;
use std::fs;
use std::panic::{self, AssertUnwindSafe};
use std::sync::atomic::{AtomicUsize, Ordering};

use bit_matrix::BitMatrix;
use cfg::Symbol;
use forest::Forest;
use grammar::InternalGrammar;
use item::{CompletedItem, CompletedItemLinked, Item};
use numbers::Numbers;
use recognizer::Recognizer;

const FROM_START: u32 = 0;
const FROM_WELL_FORMED: u32 = 1;
const FROM_ANY_SHAPE: u32 = 2;

/// In place of a token: call the crate's `reset`.
const RESET: u32 = 0xFFFF_FFFF;

/// In a token: the next one is another kind of the same position.
const AND_NEXT: u32 = 0x8000_0000;

/// The words of a row in the streams, whatever the number of symbols. Those past the crate's own row are 0.
const ROW_WORDS: usize = 8;

const ACCEPTED: u32 = 0;
const EXHAUSTED: u32 = 6;

/// In place of a node's number: none.
const NO_NODE: u32 = 0xFFFF_FFFF;

/// A forest that numbers leaves and sums and remembers the summands in pop order.
///
/// An item is told apart from all others of its state by origin, rule and the number of its left node: that gives back
/// the item's place, which the forest is not told.
struct SummandLog {
    nodes: u32,
    latest_leaf: u32,
    sums: Vec<Sum>,
    summands: Vec<CompletedItem<u32>>,
}

struct Sum {
    origin: u32,
    left_side: usize,
    node: u32,
    summands: Vec<CompletedItem<u32>>,
}

impl SummandLog {
    fn after(nodes: usize) -> Self {
        SummandLog { nodes: nodes as u32, latest_leaf: NO_NODE, sums: vec![], summands: vec![] }
    }

    fn next_node(&mut self) -> u32 {
        self.nodes += 1;
        self.nodes - 1
    }
}

impl Forest for SummandLog {
    type NodeRef = u32;
    type LeafValue = ();

    const FOREST_BYTES_PER_RECOGNIZER_BYTE: usize = 0;

    fn begin_sum(&mut self) {}

    fn push_summand(&mut self, item: CompletedItem<u32>) {
        self.summands.push(item);
    }

    fn sum(&mut self, lhs_sym: Symbol, origin: u32) -> u32 {
        let summands = self.summands.split_off(0);
        let node = self.next_node();
        self.sums.push(Sum { origin, left_side: lhs_sym.usize(), node, summands });
        node
    }

    fn leaf(&mut self, _: Symbol, _: u32, _: ()) -> u32 {
        self.latest_leaf = self.next_node();
        self.latest_leaf
    }

    fn nulling(&self, _: Symbol) -> u32 {
        unreachable!("asked for trivial derivations only")
    }
}

type Parse<'g> = Recognizer<'g, SummandLog>;

fn read_items(numbers: &mut Numbers, count: usize) -> Vec<Item<u32>> {
    (0..count).map(|place| Item { origin: numbers.next(), dot: numbers.next(), node: place as u32 }).collect()
}

fn read_rows(numbers: &mut Numbers, count: usize, symbols: usize) -> BitMatrix {
    let mut rows = BitMatrix::new(count, symbols);
    for row in 0..count {
        let words: Vec<u64> = numbers.list(ROW_WORDS);
        for symbol in (0..64 * ROW_WORDS).filter(|symbol| words[symbol / 64] >> (symbol % 64) & 1 == 1) {
            rows.set(row, symbol, true);
        }
    }
    rows
}

fn read_parse<'g>(numbers: &mut Numbers, grammar: &'g InternalGrammar) -> Parse<'g> {
    let mut parse = Recognizer::new(grammar, SummandLog::after(0));
    let kind: u32 = numbers.next();
    if kind != FROM_START {
        parse.earleme = numbers.next();
        let items = numbers.next();
        parse.medial = read_items(numbers, items);
        parse.forest = SummandLog::after(items);
        let (starts, rows) = match kind {
            FROM_WELL_FORMED => (parse.earleme + 2, parse.earleme + 1),
            FROM_ANY_SHAPE => (numbers.next(), numbers.next()),
            _ => panic!("no such kind of state: {}", kind),
        };
        parse.indices = numbers.list(starts);
        parse.predicted = read_rows(numbers, rows, grammar.num_syms());
        parse.current_medial_start = parse.indices.last().cloned().unwrap_or(0);
    }
    parse
}

/// What an accepted position did.
struct Taken {
    /// The most items and the most queued entries that there were at a time.
    most_items: usize,
    most_queued: usize,
    /// Each sum's origin, left side and places in pop order.
    sums: Vec<(u32, usize, Vec<usize>)>,
}

/// Reads a position, a token or more. `None` where the recognizer calls itself exhausted.
fn take(parse: &mut Parse, kinds: &[u32]) -> Option<Taken> {
    parse.forest.sums.clear();
    for kind in kinds {
        parse.scan(Symbol::from(*kind), ());
    }
    // `end_earleme` in its parts: between them the popped items still stand at the places that were queued.
    if parse.is_exhausted() {
        return None;
    }
    // `complete_all_sums_entirely`, with a look at the queue whenever it has grown: a sum pops first and pushes then.
    let mut most_queued = parse.complete.len();
    while parse.next_sum().map(|mut sum| sum.complete_entire_sum()).is_some() {
        most_queued = most_queued.max(parse.complete.len());
    }
    let most_items = parse.medial.len();
    let place = |popped: &CompletedItem<u32>| {
        let popped: Item<u32> = (*popped).into();
        parse.medial.iter().position(|item| *item == popped && item.node == popped.node).expect("a stored item")
    };
    let sums = parse.forest.sums.iter().map(|sum| {
        (sum.origin, sum.left_side, sum.summands.iter().map(&place).collect())
    }).collect();
    parse.advance_without_completion();
    assert!(parse.complete.is_empty(), "the queue is empty between tokens");
    Some(Taken { most_items, most_queued, sums })
}

fn row_words(row: &[u64]) -> Vec<u64> {
    (0..ROW_WORDS).map(|k| row.get(k).cloned().unwrap_or(0)).collect()
}

fn print_state(parse: &Parse) {
    print!("{} {} {} ", parse.earleme(), parse.is_finished() as u32, parse.medial.len());
    for item in &parse.medial {
        print!(" {} {}", item.origin, item.dot);
    }
    print!(" ");
    for start in &parse.indices {
        print!(" {}", start);
    }
    print!(" ");
    for set in 0..parse.earleme() + 1 {
        for word in row_words(&parse.predicted[set]) {
            print!(" {}", word);
        }
    }
    println!();
}

/// The kinds of each position.
fn positions(tokens: Vec<u32>) -> Vec<Vec<u32>> {
    let mut positions = vec![];
    let mut kinds = vec![];
    for token in tokens {
        if token != RESET && token & AND_NEXT != 0 {
            kinds.push(token & !AND_NEXT);
        } else {
            kinds.push(token);
            positions.push(kinds.split_off(0));
        }
    }
    assert!(kinds.is_empty(), "a position is cut off");
    positions
}

/// Reads each case of standard input and does something with its parse and positions.
fn for_each_case<F>(what: F)
    where F: Fn(Parse, Vec<Vec<u32>>)
{
    let mut numbers = Numbers::from_stdin();
    while !numbers.at_end() {
        let length = numbers.next();
        let file: Vec<u8> = numbers.list(length);
        let grammar = InternalGrammar::from_file(&file);
        let parse = read_parse(&mut numbers, &grammar);
        let count = numbers.next();
        what(parse, positions(numbers.list(count)));
    }
}

fn states(mut parse: Parse, positions: Vec<Vec<u32>>) {
    print_state(&parse);
    for kinds in positions {
        if kinds == [RESET] {
            parse.reset();
            print_state(&parse);
        } else if let Some(taken) = take(&mut parse, &kinds) {
            print!("{} {} {} {}", ACCEPTED, taken.most_items, taken.most_queued, taken.sums.len());
            for (origin, left_side, places) in taken.sums {
                print!("  {} {} {}", origin, left_side, places.len());
                for place in places {
                    print!(" {}", place);
                }
            }
            println!();
            print_state(&parse);
        } else {
            println!("{}", EXHAUSTED);
        }
    }
}

fn told(mut parse: Parse, positions: Vec<Vec<u32>>) {
    for kinds in positions {
        let answer = if take(&mut parse, &kinds).is_some() { ACCEPTED } else { EXHAUSTED };
        println!("{} {}", answer, parse.forest.latest_leaf);
        if answer == ACCEPTED {
            println!("{}", parse.forest.sums.len());
            for sum in &parse.forest.sums {
                print!("{} {} {} {}", sum.origin, sum.left_side, sum.node, sum.summands.len());
                for item in &sum.summands {
                    print!("  {} {} {}", item.dot, item.left_node, item.right_node.unwrap_or(NO_NODE));
                }
                println!();
            }
            print!("{} {} ", parse.finished_node().unwrap_or(NO_NODE), parse.medial.len());
            for item in &parse.medial {
                print!(" {}", item.node);
            }
            println!();
        }
    }
}

fn latest(parse: Parse, _: Vec<Vec<u32>>) {
    let items: Vec<_> = parse.medial_items().collect();
    print!("{}", items.len());
    for item in items {
        print!("  {} {}", item.origin, item.dot);
    }
    println!();
}

static PANIC_LINE: AtomicUsize = AtomicUsize::new(0);

fn panics(mut parse: Parse, positions: Vec<Vec<u32>>) {
    PANIC_LINE.store(0, Ordering::SeqCst);
    let _ = panic::catch_unwind(AssertUnwindSafe(|| {
        for kinds in positions {
            take(&mut parse, &kinds);
        }
        parse.medial_items().count()
    }));
    println!("{}", PANIC_LINE.load(Ordering::SeqCst));
}

fn note_panic_lines() {
    panic::set_hook(Box::new(|panic| {
        let place = panic.location().expect("a place");
        let line = if place.file().ends_with("recognizer.rs") { place.line() } else { 1 };
        PANIC_LINE.store(line as usize, Ordering::SeqCst);
    }));
}

const PUSH: u32 = 0;

fn heap() {
    // The heap looks at items only. Any grammar will do: this one is W ::= S end, S ::= 0.
    let grammar = InternalGrammar::from_file(&[
        1, 0, 0, 0, 23, 0, 4, 0, 1, 0, 2, 0, 2, 0, 1, 0, 3, 0, 1, 0, 0, 255, 255,
    ]);
    let mut numbers = Numbers::from_stdin();
    while !numbers.at_end() {
        let mut parse = Recognizer::new(&grammar, SummandLog::after(0));
        let items = numbers.next();
        parse.medial = read_items(&mut numbers, items);
        let operations: usize = numbers.next();
        for _ in 0..operations {
            if numbers.next::<u32>() == PUSH {
                parse.heap_push_linked(CompletedItemLinked { idx: numbers.next(), node: None });
            } else {
                print!("{} ", parse.heap_pop().expect("a queued item").left_node);
            }
        }
        println!();
    }
}

fn show_state(parse: &Parse) {
    println!("  set {}, finished {}", parse.earleme(), if parse.is_finished() { "yes" } else { "no" });
    println!("  starts {:?}", parse.indices);
    for (place, item) in parse.medial.iter().enumerate() {
        println!("  item {}: origin {}, rule {}", place, item.origin, item.dot);
    }
    for set in 0..parse.earleme() + 1 {
        println!("  row {}: {:x?}", set, row_words(&parse.predicted[set]));
    }
}

fn show(file: &str, tokens: &[String]) {
    let grammar = InternalGrammar::from_file(&fs::read(file).expect("a grammar file"));
    let mut parse = Recognizer::new(&grammar, SummandLog::after(0));
    println!("start");
    show_state(&parse);
    for token in tokens {
        println!("token {}", token);
        match take(&mut parse, &[token.parse().expect("a token's number")]) {
            None => println!("  exhausted"),
            Some(taken) => {
                for (origin, left_side, places) in taken.sums {
                    println!("  sum of {} from set {}: item places {:?} in pop order", left_side, origin, places);
                }
                show_state(&parse);
            }
        }
    }
}

fn main() {
    let arguments: Vec<String> = env::args().skip(1).collect();
    match arguments.first().map(|word| &word[..]) {
        Some("states") => for_each_case(states),
        Some("told") => for_each_case(told),
        Some("latest") => for_each_case(latest),
        Some("panics") => {
            note_panic_lines();
            for_each_case(panics)
        }
        Some("heap") => heap(),
        Some("show") if arguments.len() > 1 => show(&arguments[1], &arguments[2..]),
        _ => panic!("usage: recognize states | told | latest | panics | heap | show FILE TOKEN .."),
    }
}
