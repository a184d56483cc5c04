//! A host in Rust: what examples/host.c does, through the safe wrapper. `tests/host` builds and runs it.
use brinesaddle::{check, read_node, walk_nodes, write_node, Item, Node, Parse, Refusal, State, Unwritten, Words, ITEM_WORDS, MAX_LINE, MAX_TOKENS};
use std::error::Error;

/// Document 01's grammar A: S ::= S P | num, P ::= plus S.
const GRAMMAR: [u8; 35] = [
    1, 0, 0, 0, 0x23, 0, 6, 0, 2, 0, 4, 0, 4, 0, 2, 0, 5, 0, 2, 0, 2, 0, 3, 0, 2, 0, 0, 0xFF, 0xFF, 0, 3, 0, 1, 0, 2,
];

fn number(answer: Result<(), Refusal>) -> u32 {
    answer.map_or_else(Refusal::number, |()| 0)
}

fn show(words: &mut Words, tokens: &[u16]) -> Result<State, Box<dyn Error>> {
    let mut parse = Parse::start(&GRAMMAR, words.lend())?;
    let ran = parse.run(tokens);
    let node = parse.finished()?;
    let finished = if node.is_some() { "yes" } else { "no" };
    let items: String = parse.latest_set()?.chunks(ITEM_WORDS).map(|item| format!(" ({}, {}, {})", item[0], item[1], item[2])).collect();
    println!("start 0, read {}, stopped {}, finished {finished}, set {}:{items}", ran.taken, number(ran.answer), parse.state().set);
    if let Some(handle) = node {
        ways(parse.nodes(), handle)?;
    }
    Ok(parse.state())
}

/// The ways to derive what is below a Sum: of each the rule, and the nodes of its symbols.
fn ways(nodes: &[u16], handle: u32) -> Result<(), Box<dyn Error>> {
    let Some((Node::Sum { count, nonterminal }, mut behind)) = read_node(nodes, handle as usize)? else { Err("no Sum is there")? };
    print!("node {handle}: symbol {nonterminal}");
    for _ in 0..count {
        let Some((Node::Product { action, left, right }, next)) = read_node(nodes, behind)? else { Err("no Product is there")? };
        let other = right.map_or(String::new(), |right| format!(" and node {right}"));
        print!(", by rule {action} from node {left}{other}");
        behind = next;
    }
    println!();
    Ok(())
}

/// What support tells of a refused token: what could have stood there, and the latest set, as text and for the console as records.
fn explain(parse: &Parse) -> Result<(), Box<dyn Error>> {
    let tokens: String = parse.expected(&mut [0; MAX_TOKENS])?.iter().map(|token| format!(" {token}")).collect();
    println!("could have stood here:{tokens}");
    print!("{}", parse.listing(&mut [0; MAX_LINE * 64])?);
    let Err(short @ Unwritten::TooShort { needed }) = parse.latest_records(&mut [Item::default()]) else { Err("it did for two")? };
    println!("a place of 1 record: {}, needed {needed}", short.number());
    for Item { rule, left, first, second, origin } in parse.latest_records(&mut [Item::default(); 64])? {
        println!("rule {rule}, left {left}, first {first}, second {second}, origin {origin}");
    }
    Ok(())
}

fn main() -> Result<(), Box<dyn Error>> {
    println!("check {}", number(check(&GRAMMAR)));
    let mut words = Words::new(64, 16, 16, 256);
    show(&mut words, &[0, 1, 0])?;
    show(&mut words, &[0, 1, 0, 1, 0])?;
    let state = show(&mut words, &[0, 0])?;
    explain(&Parse::resume(&GRAMMAR, words.lend(), state))?;
    println!("token 70000: {}", number(Parse::resume(&GRAMMAR, words.lend(), state).token(70000)));
    words.starts[0] = 1;
    println!("damaged: {}", number(Parse::resume(&GRAMMAR, words.lend(), state).token(1)));

    let mut store = [0xFFFF; 48];
    let product = Node::Product { action: 9, left: 20, right: Some(35) };
    let behind = write_node(&mut store, 40, product)?;
    println!("write 0, behind {behind}, units {:04X} {:04X}", store[40], store[41]);
    let Some((Node::Product { action, left, right: Some(right) }, behind)) = read_node(&store, 0)? else { Err("another node")? };
    println!("read 0, kind 1, action {action}, left {left}, right {right}, behind {behind}");
    let walked = walk_nodes(&store, 0);
    println!("walk {}, nodes {}, behind {}", walked.answer.map_or_else(|at| at.refusal.number(), |()| 0), walked.nodes, walked.behind);
    let end = read_node(&store, behind)?.is_none();
    println!("read on 0, end {}", if end { "yes" } else { "no" });
    let own_factor = Node::Product { action: 9, left: 40, right: Some(35) };
    let Err(unfit) = write_node(&mut store, 40, own_factor) else { Err("a node is its own factor")? };
    println!("its own factor: {} at {}", unfit.refusal.number(), unfit.place);
    store[40] = 0xF000;
    let Err(fault) = walk_nodes(&store, 0).answer else { Err("no fault was seen")? };
    println!("a bad unit: {} at {}", fault.refusal.number(), fault.place);
    Ok(())
}
