//! Writes and reads nodes with the unchanged node store. The streams of numbers are described in ../README.md.
//!
//!     nodes write < nodes      the units of each node at its position
//!     nodes read < stores      the nodes of each store, from a position to the end

#[path = "../stand_ins/cfg.rs"]
mod cfg;
#[path = "../stand_ins/forest.rs"]
mod forest;
#[path = "../rust/item.rs"]
mod item;
mod numbers;

use std::cell::Cell;
use std::env;

use cfg::Symbol;
use forest::node::{Graph, Node, NodeHandle};
use numbers::Numbers;

fn read_node(numbers: &mut Numbers) -> Node {
    let kind: u32 = numbers.next();
    let fields: Vec<u32> = numbers.list(4);
    match kind {
        0 => Node::Sum { count: fields[0], nonterminal: Symbol::from(fields[1]) },
        1 => Node::Product {
            action: fields[0],
            left_factor: NodeHandle(fields[1]),
            right_factor: if fields[2] == 1 { Some(NodeHandle(fields[3])) } else { None },
        },
        2 => Node::NullingLeaf { symbol: Symbol::from(fields[0]) },
        3 => Node::Evaluated { symbol: Symbol::from(fields[0]) },
        _ => panic!("no such kind of node: {}", kind),
    }
}

fn node_numbers(node: Node) -> [u32; 5] {
    match node {
        Node::Sum { count, nonterminal } => [0, count, nonterminal.usize() as u32, 0, 0],
        Node::Product { action, left_factor, right_factor } => {
            let (present, right) = right_factor.map_or((0, 0), |right| (1, right.0));
            [1, action, left_factor.0, present, right]
        }
        Node::NullingLeaf { symbol } => [2, symbol.usize() as u32, 0, 0, 0],
        Node::Evaluated { symbol } => [3, symbol.usize() as u32, 0, 0, 0],
    }
}

fn write() {
    let mut numbers = Numbers::from_stdin();
    while !numbers.at_end() {
        let position: usize = numbers.next();
        let node = read_node(&mut numbers);
        let mut graph = Graph::with_capacity(position + 6);
        graph.vec.resize(position, Cell::new(0));
        graph.push(node);
        let units = &graph.vec[position..];
        print!("{}", units.len());
        for unit in units {
            print!(" {}", unit.get());
        }
        println!();
    }
}

fn read() {
    let mut numbers = Numbers::from_stdin();
    while !numbers.at_end() {
        let length = numbers.next();
        let units: Vec<u16> = numbers.list(length);
        let position = numbers.next();
        let mut graph = Graph::with_capacity(length);
        graph.vec.extend(units.into_iter().map(Cell::new));
        let mut reader = graph.iter_from(NodeHandle(position));
        let mut answers = vec![];
        while let Some(node) = reader.next() {
            answers.push((node_numbers(node), reader.handle.0));
        }
        print!("{}", answers.len());
        for (node, behind) in answers {
            print!("  {} {} {} {} {} {}", node[0], node[1], node[2], node[3], node[4], behind);
        }
        println!();
    }
}

fn main() {
    match env::args().nth(1).as_ref().map(|word| &word[..]) {
        Some("write") => write(),
        Some("read") => read(),
        _ => panic!("usage: nodes write | nodes read"),
    }
}
