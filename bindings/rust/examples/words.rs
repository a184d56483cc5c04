//! A host in Rust whose words may be of several kinds: what examples/words.c does, through the safe wrapper. `tests/host` builds and runs
//! it, with the path of the language: examples/routes.
use brinesaddle::{read_node, Node, Parse, Refusal, Words, MAX_TOKENS};
use std::error::Error;
use std::{env, fs};

/// The grammar file of a language, and the names of its tokens by number.
struct Language {
    grammar: Vec<u8>,
    names: Vec<String>,
    name: u16,
    number: u16,
}

impl Language {
    fn learn(path: &str) -> Result<Language, Box<dyn Error>> {
        let grammar = fs::read(format!("{path}.grammar"))?;
        let tokens = u16::from_be_bytes([grammar[7], grammar[8]]) as usize;
        let text = fs::read_to_string(format!("{path}.names"))?;
        let names: Vec<String> = text.lines().take(tokens).filter_map(|line| Some(line.split_once(' ')?.1.into())).collect();
        let named = |text| names.iter().position(|name| name == text).map(|token| token as u16).ok_or("a name is missing");
        let (name, number) = (named("NAME")?, named("NUMBER")?);
        Ok(Language { grammar, names, name, number })
    }

    /// The kinds of a word, rising. The names of the language come behind its keywords.
    fn kinds_of(&self, word: &str) -> Vec<u16> {
        let keyword = self.names.iter().take(self.name as usize).position(|name| name == word).map(|token| token as u16);
        let other = if word.bytes().all(|byte| byte.is_ascii_digit()) { self.number } else { self.name };
        keyword.into_iter().chain([other]).collect()
    }

    fn names_of(&self, tokens: impl IntoIterator<Item = u16>) -> String {
        tokens.into_iter().map(|token| format!(" {}", self.names[token as usize])).collect()
    }
}

fn number(answer: Result<(), Refusal>) -> u32 {
    answer.map_or_else(Refusal::number, |()| 0)
}

/// The kinds that were used, leaf by leaf.
fn leaves(nodes: &[u16]) -> Result<Vec<u16>, Box<dyn Error>> {
    let (mut leaves, mut position) = (vec![], 0);
    while let Some((node, behind)) = read_node(nodes, position)? {
        if let Node::Evaluated { symbol } = node {
            leaves.push(symbol as u16);
        }
        position = behind;
    }
    Ok(leaves)
}

/// A rule, each word as one token, and each as all its kinds, in one call each.
fn read_rule(language: &Language, parse: &mut Parse, rule: &str) -> Result<(), Box<dyn Error>> {
    println!("{rule}");
    let kinds: Vec<Vec<u16>> = rule.split(' ').map(|word| language.kinds_of(word)).collect();
    let plain: Vec<u16> = kinds.iter().map(|kinds| kinds[0]).collect();
    parse.restart()?;
    let ran = parse.run(&plain);
    println!("  keywords reserved: read {}, stopped {}", ran.taken, number(ran.answer));

    let positions: Vec<u16> = kinds.iter().flat_map(|kinds| [&[kinds.len() as u16], kinds.as_slice()].concat()).collect();
    parse.restart()?;
    let ran = parse.run_kinds(&positions);
    let finished = if parse.finished()?.is_some() { "yes" } else { "no" };
    println!("  words of several kinds: read {}, stopped {}, finished {finished}", ran.taken, number(ran.answer));
    println!("  read as:{}", language.names_of(leaves(parse.nodes())?));
    if ran.answer == Err(Refusal::NotPredicted) {
        println!("  could have stood here:{}", language.names_of(parse.expected(&mut [0; MAX_TOKENS])?.iter().copied()));
    }
    Ok(())
}

fn main() -> Result<(), Box<dyn Error>> {
    let language = Language::learn(&env::args().nth(1).ok_or("usage: words LANGUAGE   e.g. words examples/routes")?)?;
    let mut words = Words::new(256, 32, 64, 2048);
    let mut parse = Parse::start(&language.grammar, words.lend())?;
    for rule in ["when host is pool then pool pool", "when then is host then drop", "always pool sticky weight 3 sticky", "always pool weight"] {
        read_rule(&language, &mut parse, rule)?;
    }
    for word in ["weight", "weight", "7"] {
        println!("  and {word}: {}", number(parse.kinds(&language.kinds_of(word))));
    }
    Ok(())
}
