//! The plain engine's answers, and why it gives none: `cargo test`.
use brinesaddle::{plain, table_words, Refusal, Unsettled};

/// Document 01's grammar A: S ::= S P | num, P ::= plus S.
const GRAMMAR: [u8; 35] = [
    1, 0, 0, 0, 0x23, 0, 6, 0, 2, 0, 4, 0, 4, 0, 2, 0, 5, 0, 2, 0, 2, 0, 3, 0, 2, 0, 0, 0xFF, 0xFF, 0, 3, 0, 1, 0, 2,
];
const UNTOUCHED: u64 = 0xBAD;

#[test]
fn every_stretch() {
    let mut words = [UNTOUCHED; table_words(3) + 1];
    let table = plain(&GRAMMAR, &[0, 1, 0], &mut words).expect("there is room");
    assert!(table.is_sentence());
    let derived: Vec<(u16, usize, usize)> = (0..512)
        .flat_map(|symbol| (0..=3).flat_map(move |from| (from..=3).map(move |to| (symbol, from, to))))
        .filter(|&(symbol, from, to)| table.derives(symbol, from..to))
        .collect();
    assert_eq!(derived, [(0, 0, 1), (0, 2, 3), (1, 1, 2), (2, 0, 1), (2, 0, 3), (2, 2, 3), (3, 1, 3)]);
    assert!(!table.derives(65535, 0..3));
    assert_eq!(words[table_words(3)], UNTOUCHED);
}

#[test]
fn no_tokens_are_no_sentence() {
    assert!(!plain(&GRAMMAR, &[], &mut []).expect("nothing is needed").is_sentence());
}

#[test]
#[should_panic(expected = "the stretch 1..4 ends behind 3 tokens")]
fn past_the_tokens() {
    plain(&GRAMMAR, &[0, 1, 0], &mut [0; table_words(3)]).expect("there is room").derives(2, 1..4);
}

#[test]
fn refused() {
    let mut words = [UNTOUCHED; 7];
    let mut why = |grammar: &[u8], tokens: &[u16]| {
        let refused = plain(grammar, tokens, &mut words).expect_err("it is refused");
        assert_eq!(words, [UNTOUCHED; 7]);
        (refused.number(), refused.to_string())
    };
    let mut broken = GRAMMAR;
    broken[34] = 9;
    assert_eq!(why(&GRAMMAR[1..], &[0]), (1, "the file is no grammar file of version 1, or its length is not what it says (refusal 1)".into()));
    assert_eq!(why(&broken, &[0]), (2, "the grammar breaks a rule for grammars (refusal 2)".into()));
    assert_eq!(why(&GRAMMAR, &[2]), (5, "the grammar has no such token or position (refusal 5)".into()));
    assert_eq!(why(&GRAMMAR, &[0; 65]), (22, "there are more than 64 tokens (refusal 22)".into()));
    assert_eq!(why(&GRAMMAR, &[0]), (13, "the table is too short, a length of 8 is needed (refusal 13)".into()));
    assert_eq!(plain(&GRAMMAR, &[0; 64], &mut []).err(), Some(Unsettled::TooShort { needed: table_words(64) }));
    assert_eq!(plain(&GRAMMAR, &[7; 65], &mut []).err(), Some(Unsettled::Refused(Refusal::NoToken)));
    assert_eq!((table_words(64), table_words(1000), table_words(0)), (16640, 16640, 0));
}
