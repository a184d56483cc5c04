//! Trees by their numbers, and why there is none: `cargo test`.
use brinesaddle::{count_trees, trees, NoTree, Parse, Tree, Words};

/// Document 01's grammar A: S ::= S P | num, P ::= plus S.
const GRAMMAR: [u8; 35] = [
    1, 0, 0, 0, 0x23, 0, 6, 0, 2, 0, 4, 0, 4, 0, 2, 0, 5, 0, 2, 0, 2, 0, 3, 0, 2, 0, 0, 0xFF, 0xFF, 0, 3, 0, 1, 0, 2,
];

#[test]
fn each_once_and_in_order() {
    let mut words = Words::new(100, 20, 50, 400);
    let mut parse = Parse::start(&GRAMMAR, words.lend()).expect("there is room");
    let mut counts = Vec::new();
    for numbers in 1..=6 {
        assert_eq!(parse.run(if numbers == 1 { &[0] } else { &[1, 0] }).answer, Ok(()));
        let handle = parse.finished().unwrap().expect("a sum is a sentence") as usize;
        let mut place = [0; 64];
        let mut told: Vec<Vec<u32>> = trees(parse.nodes(), handle).unwrap().map(|tree| tree.words(&mut place).unwrap().to_vec()).collect();
        counts.push(count_trees(parse.nodes(), handle).unwrap());
        assert_eq!(told.len() as u64, counts[numbers - 1]);
        told.sort();
        told.dedup();
        assert_eq!(told.len() as u64, counts[numbers - 1]);
    }
    assert_eq!(counts, [1, 1, 2, 5, 14, 42]);
}

#[test]
fn by_number() {
    let store = [0x8000, 0x8001, 0x0202, 0x2202, 0x2401]; // 2 ::= 1 by rule 2, 2 ::= 0 by rule 1
    let all = trees(&store, 2).unwrap();
    assert_eq!(all.size_hint(), (2, Some(2)));
    assert_eq!(all.clone().map(|tree| tree.number()).collect::<Vec<_>>(), [0, 1]);
    assert_eq!(all.clone().nth(1).unwrap().words(&mut [7; 3]), Ok([1, 0].as_slice()));
    assert!(all.clone().nth(2).is_none());
    let mut place = [7; 3];
    assert_eq!(Tree::numbered(&store, 2, 0).words(&mut place), Ok([2, 1].as_slice()));
    assert_eq!(place, [2, 1, 7]);
    assert_eq!(trees(&[0x8000, 0x0002], 1).unwrap().count(), 0);
}

#[test]
fn refused() {
    let store = [0x8000, 0x0102, 0x2202];
    let mut place = [7];
    let short = Tree::numbered(&store, 1, 0).words(&mut place).unwrap_err();
    assert_eq!((short.number(), short.to_string()), (13, "the place is too short, a length of 2 is needed (refusal 13)".into()));
    let none = Tree::numbered(&store, 1, 1).words(&mut place).unwrap_err();
    assert_eq!((none.number(), none.to_string()), (24, "there is no tree with this number (refusal 24)".into()));
    let faulty = trees(&store, 2).unwrap_err();
    assert_eq!((faulty.number(), faulty.to_string()), (12, "there is no forest below the handle (refusal 12), at 2".into()));
    assert_eq!(Tree::numbered(&store, 2, 9).words(&mut place), Err(NoTree::Faulty { place: 2 }));
    assert_eq!(place, [7]);
}

/// A leaf, and Sums of 2, 4, 8 .. trees, 70 of them; and Sums that share, the last with one tree of 2^40 - 1 words.
#[test]
fn too_many_and_too_long() {
    let mut store = vec![0x8000];
    let mut handle = 0;
    for _ in 0..70 {
        let next = store.len();
        let back = ((next + 1 - handle) << 8) as u16;
        store.extend([0x0202, 0x2001 + back, 0x2102 + back]);
        handle = next;
    }
    assert_eq!(count_trees(&store, handle), Err(NoTree::TooMany));
    assert_eq!(NoTree::TooMany.to_string(), "there are more trees than 64 bits tell (refusal 23)");
    assert_eq!(trees(&store, handle).unwrap().next().unwrap().words(&mut [0; 71]).unwrap().len(), 71);
    assert_eq!(Tree::numbered(&store, handle, u64::MAX).words(&mut [0; 71]).unwrap().len(), 71);

    let mut store = vec![0x8000, 0x0102, 0x6202, 1];
    while store.len() < 3 * 39 {
        store.extend([0x0102, 0x6404, 1]);
    }
    let long = Tree::numbered(&store, 3 * 39 - 2, 0).words(&mut []).unwrap_err();
    assert_eq!((long, long.to_string()), (NoTree::TooShort { needed: None }, "the place is too short, and no parse has a tree so long (refusal 13)".into()));
}
