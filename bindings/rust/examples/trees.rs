//! The trees of a rule, by name: reads tokens of document 01's grammar A and prints each of their derivations, a symbol a line, the symbols of a
//! rule's right side two blanks behind its left side. `tests/trees` builds and runs it.
use brinesaddle::{count_trees, trees, Parse, Words};
use std::env;
use std::error::Error;

/// Sum ::= Sum More | num, More ::= plus Sum.
const GRAMMAR: [u8; 35] = [
    1, 0, 0, 0, 0x23, 0, 6, 0, 2, 0, 4, 0, 4, 0, 2, 0, 5, 0, 2, 0, 2, 0, 3, 0, 2, 0, 0, 0xFF, 0xFF, 0, 3, 0, 1, 0, 2,
];

/// The symbols by their numbers, the tokens first.
const NAMES: [&str; 4] = ["num", "plus", "Sum", "More"];
const TOKENS: usize = 2;

/// The symbols on the right of a rule: the second and third number of its record, the third all ones where there is none.
fn right_side(rule: u32) -> impl Iterator<Item = usize> {
    let record = &GRAMMAR[11 + 6 * rule as usize..][..6];
    [[record[2], record[3]], [record[4], record[5]]].into_iter().map(u16::from_be_bytes).filter(|&symbol| symbol != 0xFFFF).map(usize::from)
}

/// A tree of a symbol, whose words come first of those that are left: the symbol says whether a token or the number of a rule is due.
fn show(symbol: usize, depth: usize, words: &mut impl Iterator<Item = u32>) {
    println!("{:1$}{2}", "", 2 * depth, NAMES[symbol]);
    let word = words.next().expect("a tree ends where its words do");
    if symbol >= TOKENS {
        right_side(word).for_each(|next| show(next, depth + 1, words));
    }
}

fn main() -> Result<(), Box<dyn Error>> {
    let mut words = Words::new(200, 40, 200, 4000);
    let mut parse = Parse::start(&GRAMMAR, words.lend())?;
    for name in env::args().skip(1) {
        let token = NAMES[..TOKENS].iter().position(|&known| known == name).ok_or("the tokens are num and plus")?;
        parse.token(token as u32)?;
    }
    let handle = parse.finished()?.ok_or("no sentence")? as usize;
    println!("{} trees", count_trees(parse.nodes(), handle)?);
    let mut place = vec![0; parse.nodes().len()];
    let start = right_side(0).next().expect("rule 0 has the start symbol first");
    for tree in trees(parse.nodes(), handle)? {
        println!("tree {}: {:?}", tree.number(), tree.words(&mut place)?);
        show(start, 1, &mut tree.words(&mut place)?.iter().copied());
    }
    Ok(())
}
