//! Each refusal is an error that tells a person what is the matter, and its number: `cargo test`.
use brinesaddle::{
    check, read_node, translate, walk_nodes, write_node, Item, Node, Parse, Refusal, RefusedAt, State, Untranslated, Unwritten, Words,
};
use std::error::Error;

/// Document 01's grammar A: S ::= S P | num, P ::= plus S.
const GRAMMAR: [u8; 35] = [
    1, 0, 0, 0, 0x23, 0, 6, 0, 2, 0, 4, 0, 4, 0, 2, 0, 5, 0, 2, 0, 2, 0, 3, 0, 2, 0, 0, 0xFF, 0xFF, 0, 3, 0, 1, 0, 2,
];

/// The error of a run from the start in words of this size, and how many tokens were taken before it.
fn run(items: usize, sets: usize, queue: usize, units: usize, tokens: &[u16]) -> (usize, Refusal) {
    let mut words = Words::new(items, sets, queue, units);
    let ran = Parse::start(&GRAMMAR, words.lend()).expect("there is room for a set").run(tokens);
    (ran.taken, ran.answer.expect_err("the run is refused"))
}

fn text(error: impl Error) -> String {
    error.to_string()
}

#[test]
fn of_a_grammar() {
    let malformed = check(&GRAMMAR[1..]).unwrap_err();
    assert_eq!(text(malformed), "the file is no grammar file of version 1, or its length is not what it says (refusal 1)");
    let mut broken = GRAMMAR;
    broken[34] = 9;
    assert_eq!(text(check(&broken).unwrap_err()), "the grammar breaks a rule for grammars (refusal 2)");
}

#[test]
fn of_a_parse() {
    let none = Parse::start(&GRAMMAR, Words::new(8, 0, 8, 40).lend()).err().expect("there is no room");
    assert_eq!(text(none), "there is no room for a set (refusal 3)");
    let mut words = Words::new(8, 8, 8, 40);
    let forged = Parse::resume(&GRAMMAR, words.lend(), State { set: 3, items: 9, used: 0 }).finished().unwrap_err();
    assert_eq!(text(forged), "the state is not well formed in these words under this grammar (refusal 4)");
    assert_eq!(text(run(8, 8, 8, 40, &[2]).1), "the grammar has no such token or position (refusal 5)");
    assert_eq!(text(run(8, 8, 8, 40, &[1]).1), "no sentence goes on with this token or position (refusal 6)");
    assert_eq!(text(run(2, 8, 8, 40, &[0]).1), "there is no room for another item (refusal 7)");
    assert_eq!(text(run(8, 8, 0, 40, &[0]).1), "there is no room for another queue entry (refusal 8)");
    assert_eq!(text(run(8, 1, 8, 40, &[0]).1), "there is no room for another set (refusal 9)");
    assert_eq!(text(run(8, 8, 8, 2, &[0]).1), "there is no room for another node (refusal 14)");
}

#[test]
fn a_run_keeps_the_tokens_before_the_refused_one() {
    let mut words = Words::new(64, 16, 16, 256);
    let mut parse = Parse::start(&GRAMMAR, words.lend()).expect("there is room");
    let ran = parse.run(&[0, 1, 0, 0]);
    assert_eq!((ran.taken, ran.answer), (3, Err(Refusal::NotPredicted)));
    assert_eq!((parse.state().set, parse.finished()), (3, Ok(Some(10))));
}

#[test]
fn a_store_that_is_full_keeps_the_tokens_before() {
    let mut words = Words::new(64, 16, 16, 12);
    let mut parse = Parse::start(&GRAMMAR, words.lend()).expect("there is room");
    let ran = parse.run(&[0, 1, 0]);
    assert_eq!((ran.taken, ran.answer, parse.finished()), (2, Err(Refusal::StoreFull), Ok(None)));
    assert_eq!((parse.nodes(), parse.state().used), ([0x8000, 0x0102, 0x2202, 0x8001].as_slice(), 4));
    parse.restart().expect("a start empties the store");
    assert_eq!((parse.nodes().len(), parse.run(&[0]).answer, parse.finished()), (0, Ok(()), Ok(Some(1))));
}

/// The parse after so many calls, whole: its state, its finished node, its nodes and its latest set.
fn whole(parse: &Parse) -> (State, Result<Option<u32>, Refusal>, Vec<u16>, Vec<u32>) {
    (parse.state(), parse.finished(), parse.nodes().to_vec(), parse.latest_set().expect("it is well formed").to_vec())
}

#[test]
fn a_position_passes_over_what_is_not_predicted() {
    let (mut words, mut others) = (Words::new(64, 16, 16, 256), Words::new(64, 16, 16, 256));
    let mut parse = Parse::start(&GRAMMAR, words.lend()).expect("there is room");
    let mut tokens = Parse::start(&GRAMMAR, others.lend()).expect("there is room");
    for token in [0, 1, 0] {
        assert_eq!((parse.kinds(&[0, 1]), tokens.token(token)), (Ok(()), Ok(())));
        assert_eq!(whole(&parse), whole(&tokens));
    }
    for kinds in [[].as_slice(), &[1, 0], &[1, 1], &[1, 2]] {
        assert_eq!(parse.kinds(kinds), Err(Refusal::NoToken));
    }
    assert_eq!((parse.kinds(&[0]), whole(&parse)), (Err(Refusal::NotPredicted), whole(&tokens)));
}

#[test]
fn a_run_of_positions_keeps_those_before_the_refused_one() {
    let (mut words, mut others) = (Words::new(64, 16, 16, 256), Words::new(64, 16, 16, 256));
    let mut parse = Parse::start(&GRAMMAR, words.lend()).expect("there is room");
    let mut tokens = Parse::start(&GRAMMAR, others.lend()).expect("there is room");
    assert_eq!(tokens.run(&[0, 1]).answer, Ok(()));
    for (positions, refusal) in [
        ([2, 0, 1, 1, 1, 0].as_slice(), Refusal::NoToken), // no kind
        (&[2, 0, 1, 1, 1, 3, 0, 1], Refusal::NoToken),     // cut off
        (&[2, 0, 1, 1, 1, 1, 1], Refusal::NotPredicted),
    ] {
        parse.restart().expect("there is room");
        let ran = parse.run_kinds(positions);
        assert_eq!((ran.taken, ran.answer), (2, Err(refusal)));
        assert_eq!(whole(&parse), whole(&tokens));
    }
    assert_eq!((parse.run_kinds(&[]).taken, parse.run_kinds(&[1, 0]).answer, parse.finished()), (0, Ok(()), Ok(Some(10))));
}

/// Grammar A after "0": a plus could stand next, and the latest set has two items.
const LISTING: &str = "2 ::= 2 * 3 @ 0\n4 ::= 2 * 5 @ 0\n";
const ITEMS: [Item; 2] = [
    Item { rule: 1, left: 2, first: 2, second: 3, origin: 0 },
    Item { rule: 0, left: 4, first: 2, second: 5, origin: 0 },
];

#[test]
fn a_place_too_short_is_left_and_its_length_told() {
    let mut words = Words::new(64, 16, 16, 256);
    let mut parse = Parse::start(&GRAMMAR, words.lend()).expect("there is room");
    assert_eq!(parse.token(0), Ok(()));
    let too_short = |needed| Unwritten::TooShort { needed };
    let (mut bytes, mut fives, mut records) = ([7; 31], [7; 9], [Item::default()]);
    assert_eq!(parse.expected(&mut []).unwrap_err(), too_short(1));
    assert_eq!(parse.listing(&mut bytes).unwrap_err(), too_short(32));
    assert_eq!(parse.latest_words(&mut fives).unwrap_err(), too_short(10));
    assert_eq!(parse.latest_records(&mut records).unwrap_err(), too_short(2));
    assert_eq!((bytes, fives, records), ([7; 31], [7; 9], [Item::default()]));
    let error = parse.listing(&mut bytes).unwrap_err();
    assert_eq!((error.number(), text(error)), (13, "the place is too short, a length of 32 is needed (refusal 13)".into()));
}

#[test]
fn a_place_is_filled_in_front() {
    let mut words = Words::new(64, 16, 16, 256);
    let mut parse = Parse::start(&GRAMMAR, words.lend()).expect("there is room");
    assert_eq!((parse.listing(&mut []), parse.latest_records(&mut [])), (Ok(""), Ok([].as_slice())));
    assert_eq!(parse.run(&[0, 0]).answer, Err(Refusal::NotPredicted));
    let (mut tokens, mut bytes, mut fives, mut records) = ([7; 3], [7; 33], [7; 11], [Item::default(); 3]);
    assert_eq!(parse.expected(&mut tokens), Ok([1].as_slice()));
    assert_eq!(parse.listing(&mut bytes), Ok(LISTING));
    assert_eq!(parse.latest_words(&mut fives), Ok([1, 2, 2, 3, 0, 0, 4, 2, 5, 0].as_slice()));
    assert_eq!(parse.latest_records(&mut records), Ok(ITEMS.as_slice()));
    assert_eq!((tokens, bytes[32], fives[10], records[2]), ([1, 7, 7], 7, 7, Item::default()));
}

#[test]
fn a_report_on_a_forged_state_is_refused() {
    let mut words = Words::new(8, 8, 8, 40);
    let parse = Parse::resume(&GRAMMAR, words.lend(), State { set: 3, items: 9, used: 0 });
    let refused = Unwritten::Refused(Refusal::IllFormed);
    assert_eq!((parse.expected(&mut []), parse.listing(&mut [])), (Err(refused), Err(refused)));
    assert_eq!((parse.latest_words(&mut []), parse.latest_records(&mut [])), (Err(refused), Err(refused)));
    assert_eq!((refused.number(), text(refused)), (4, text(Refusal::IllFormed)));
}

#[test]
fn of_a_node() {
    let mut store = [0xFFFF, 0, 0xF000, 0];
    let unfit = write_node(&mut store, 0, Node::Sum { count: 1 << 28, nonterminal: 0 }).unwrap_err();
    assert_eq!(unfit.to_string(), "a value is unfit for a node at its position (refusal 10), at 0");
    let own_factor = write_node(&mut store, 1, Node::Product { action: 0, left: 1, right: None }).unwrap_err();
    assert_eq!((own_factor.refusal, own_factor.place), (Refusal::Unfit, 1));
    let no_room = write_node(&mut store, 4, Node::Evaluated { symbol: 0 }).unwrap_err();
    assert_eq!(no_room.to_string(), "the node does not fit the store from its position (refusal 11), at 4");
    let no_node = RefusedAt { refusal: Refusal::NoNode, place: 2 };
    assert_eq!(read_node(&store, 2), Err(no_node));
    assert_eq!(no_node.to_string(), "the units at the position are no node (refusal 12), at 2");
    assert_eq!(store, [0xFFFF, 0, 0xF000, 0]);
    let walked = walk_nodes(&store, 0);
    assert_eq!((walked.nodes, walked.behind, walked.answer), (1, 2, Err(no_node)));
    assert_eq!(read_node(&[0xFFFF, 0xA000, 1, 0x1000, 0], 0), Err(RefusedAt { refusal: Refusal::NoNode, place: 2 }));
}

/// S ::= | a S.
const WRITTEN: [u8; 21] = [2, 0, 1, 0, 1, 0, 2, 0, 1, 0, 1, 0, 0, 0, 1, 0, 2, 0, 0, 0, 1];

#[test]
fn of_a_written_grammar() {
    let mut place = [7; 40];
    let made = translate(&WRITTEN, &mut place).expect("there is room");
    assert_eq!((made.file.len(), made.empty, check(made.file)), (29, true, Ok(())));
    assert_eq!(place[29..], [7; 11]);

    let circular = [2, 0, 1, 0, 1, 0, 1, 0, 1, 0, 1, 0, 1, 0, 1]; // S ::= S
    let barren = [2, 0, 1, 0, 1, 0, 0, 0, 1]; // no rule
    let lost = [2, 0, 1, 0, 2, 0, 2, 0, 1, 0, 1, 0, 1, 0, 0, 0, 2, 0, 0]; // S ::= a, A ::=
    let empty = [2, 0, 1, 0, 1, 0, 1, 0, 1, 0, 1, 0, 0]; // S ::=
    let mut same = [7; 28];
    let refused: Vec<u32> = [&WRITTEN[..20], &circular, &barren, &lost, &empty, &WRITTEN]
        .iter()
        .map(|written| translate(written, &mut same).unwrap_err().number())
        .collect();
    assert_eq!((refused, same), (vec![16, 17, 18, 19, 20, 21], [7; 28]));
    assert_eq!(Untranslated::NoSentence.to_string(), "there is no sentence but the empty one (refusal 20)");
}
