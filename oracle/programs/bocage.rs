//! Runs the unchanged recognizer with the unchanged bocage and tells the store that it makes.
//!
//!     bocage stores < cases    cases from the start (../README.md). For each token 6 or 0; where it is 0, the finished node or 4294967295, and
//!                              where that is one, what `mark_alive` finds below it: the number of handles, and for each the handle and
//!                              `0 symbol` (a leaf) or `1`, 1 or 0 (whether there is a Sum), the number of summands, and each summand's
//!                              action, left factor, right factor or 4294967295. After the tokens the number of units and the units.

#[path = "../rust/binary_heap.rs"]
mod binary_heap;
#[path = "../stand_ins/bit_matrix.rs"]
mod bit_matrix;
#[path = "../stand_ins/bit_vec.rs"]
mod bit_vec;
#[path = "../stand_ins/cfg.rs"]
mod cfg;
#[path = "../rust/events.rs"]
mod events;
#[path = "../rust/forest/mod.rs"]
mod forest;
#[path = "../stand_ins/grammar.rs"]
mod grammar;
#[path = "../rust/item.rs"]
mod item;
mod numbers;
#[path = "../rust/recognizer.rs"]
mod recognizer;

use std::env;

use cfg::Symbol;
use forest::node::{Node, NodeHandle};
use forest::order::NullOrder;
use forest::Bocage;
use grammar::InternalGrammar;
use numbers::Numbers;
use recognizer::Recognizer;

const FROM_START: u32 = 0;

const ACCEPTED: u32 = 0;
const EXHAUSTED: u32 = 6;

const NO_NODE: u32 = 0xFFFF_FFFF;

type Parse<'g> = Recognizer<'g, Bocage<&'g InternalGrammar>>;

fn print_product(node: Node) {
    match node {
        Node::Product { action, left_factor, right_factor } => {
            print!("  {} {} {}", action, left_factor.0, right_factor.map_or(NO_NODE, |factor| factor.0));
        }
        other => panic!("no Product: {:?}", other),
    }
}

fn print_node(parse: &Parse, handle: usize) {
    let mut nodes = parse.forest.graph.iter_from(NodeHandle(handle as u32));
    print!("{} ", handle);
    match nodes.next().expect("a node") {
        Node::Sum { count, .. } => {
            print!("1 1 {}", count);
            for _ in 0..count {
                print_product(nodes.next().expect("a summand"));
            }
        }
        Node::Evaluated { symbol } => print!("0 {}", symbol.usize()),
        product => {
            print!("1 0 1");
            print_product(product);
        }
    }
    println!();
}

fn print_below(parse: &mut Parse, finished: NodeHandle) {
    parse.forest.mark_alive(finished, NullOrder::new());
    let alive: Vec<usize> = {
        let units = parse.forest.graph.vec.len();
        (0..units).filter(|&unit| parse.forest.gc.liveness[unit]).collect()
    };
    println!("{} {}", finished.0, alive.len());
    for handle in alive {
        print_node(parse, handle);
    }
}

fn tell(grammar: &InternalGrammar, tokens: Vec<u32>) {
    let mut parse = Recognizer::new(grammar, Bocage::new(grammar));
    for token in tokens {
        parse.scan(Symbol::from(token), 0);
        if !parse.end_earleme() {
            println!("{}", EXHAUSTED);
            continue;
        }
        println!("{}", ACCEPTED);
        match parse.finished_node() {
            Some(finished) => print_below(&mut parse, finished),
            None => println!("{}", NO_NODE),
        }
    }
    let units = &parse.forest.graph.vec;
    print!("{} ", units.len());
    for unit in units {
        print!(" {}", unit.get());
    }
    println!();
}

fn main() {
    assert_eq!(env::args().nth(1).as_ref().map(|word| &word[..]), Some("stores"), "usage: bocage stores");
    let mut numbers = Numbers::from_stdin();
    while !numbers.at_end() {
        let length = numbers.next();
        let file: Vec<u8> = numbers.list(length);
        assert_eq!(numbers.next::<u32>(), FROM_START, "a case from the start");
        let count = numbers.next();
        tell(&InternalGrammar::from_file(&file), numbers.list(count));
    }
}
