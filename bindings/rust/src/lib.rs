//! The rule reader of the load balancer, over its proved static library. Safe: no call here can be made in a way that the library does
//! not take. Nothing is allocated but by the caller. A call needs up to 80 KiB of stack, the one for records 120 KiB, a translation 208 KiB, one on nodes 512 bytes, one on trees
//! up to 3,200 KiB ([`trees`], include/brinesaddle.h).
//!
//! ```
//! use brinesaddle::{read_node, Node, Parse, Refusal, Words, MAX_TOKENS};
//!
//! // S ::= S P | num, P ::= plus S; num is token 0, plus token 1.
//! let grammar = [1, 0, 0, 0, 35, 0, 6, 0, 2, 0, 4, 0, 4, 0, 2, 0, 5, 0, 2, 0, 2, 0, 3, 0, 2, 0, 0, 255, 255, 0, 3, 0, 1, 0, 2];
//! let mut words = Words::largest();
//! let mut parse = Parse::start(&grammar, words.lend())?;
//! parse.run(&[0, 1, 0]).answer?;
//! let node = parse.finished()?.expect("a sum is a sentence");
//! assert_eq!(read_node(parse.nodes(), node as usize)?, Some((Node::Sum { count: 1, nonterminal: 2 }, 11)));
//! assert_eq!(parse.token(0), Err(Refusal::NotPredicted));
//! assert_eq!(parse.expected(&mut [0; MAX_TOKENS])?, [1]); // a plus could have stood there
//! # Ok::<(), Box<dyn std::error::Error>>(())
//! ```
//!
//! The build script looks for `libhost.a` in the folder that the environment variable BRINESADDLE_LIB_DIR names, and without one in the
//! repository's target/staticlib, where `oracle/archive` writes it.

mod plain;
mod raw;
mod trees;

pub use trees::{count_trees, trees, NoTree, Tree, Trees};

pub use plain::{plain, table_words, Table, Unsettled, MAX_PLAIN_TOKENS};

use std::error::Error;
use std::{fmt, str};

/// Why a call was refused: document 01's numbers 1 to 12, and 14. A refused run has taken the tokens or positions before the refused one, and
/// a refused walk tells the nodes before; every other refused call leaves all as it was.
#[derive(Clone, Copy, Debug, PartialEq, Eq)]
#[repr(u32)]
pub enum Refusal {
    Malformed = 1,
    Broken = 2,
    NoSets = 3,
    IllFormed = 4,
    NoToken = 5,
    NotPredicted = 6,
    ItemsFull = 7,
    QueueFull = 8,
    SetsFull = 9,
    Unfit = 10,
    NoRoom = 11,
    NoNode = 12,
    StoreFull = 14,
}

impl Refusal {
    const ALL: [Refusal; 13] = [
        Refusal::Malformed,
        Refusal::Broken,
        Refusal::NoSets,
        Refusal::IllFormed,
        Refusal::NoToken,
        Refusal::NotPredicted,
        Refusal::ItemsFull,
        Refusal::QueueFull,
        Refusal::SetsFull,
        Refusal::Unfit,
        Refusal::NoRoom,
        Refusal::NoNode,
        Refusal::StoreFull,
    ];

    /// The number of document 01.
    pub fn number(self) -> u32 {
        self as u32
    }

    fn sentence(self) -> &'static str {
        match self {
            Refusal::Malformed => "the file is no grammar file of version 1, or its length is not what it says",
            Refusal::Broken => "the grammar breaks a rule for grammars",
            Refusal::NoSets => "there is no room for a set",
            Refusal::IllFormed => "the state is not well formed in these words under this grammar",
            Refusal::NoToken => "the grammar has no such token or position",
            Refusal::NotPredicted => "no sentence goes on with this token or position",
            Refusal::ItemsFull => "there is no room for another item",
            Refusal::QueueFull => "there is no room for another queue entry",
            Refusal::SetsFull => "there is no room for another set",
            Refusal::Unfit => "a value is unfit for a node at its position",
            Refusal::NoRoom => "the node does not fit the store from its position",
            Refusal::NoNode => "the units at the position are no node",
            Refusal::StoreFull => "there is no room for another node",
        }
    }
}

/// A sentence for a person, and the number.
impl fmt::Display for Refusal {
    fn fmt(&self, f: &mut fmt::Formatter<'_>) -> fmt::Result {
        write!(f, "{} (refusal {})", self.sentence(), self.number())
    }
}

impl Error for Refusal {}

fn answer(number: u32) -> Result<(), Refusal> {
    match Refusal::ALL.into_iter().find(|refusal| refusal.number() == number) {
        Some(refusal) => Err(refusal),
        None => {
            assert_eq!(number, 0, "every other answer is a refusal");
            Ok(())
        }
    }
}

/// A refusal that has a place in a store: of 10 and 11 the position asked for, of 12 the unit at which the fault was seen.
#[derive(Clone, Copy, Debug, PartialEq, Eq)]
pub struct RefusedAt {
    pub refusal: Refusal,
    pub place: usize,
}

/// The refusal's sentence and number, and the place.
impl fmt::Display for RefusedAt {
    fn fmt(&self, f: &mut fmt::Formatter<'_>) -> fmt::Result {
        write!(f, "{}, at {}", self.refusal, self.place)
    }
}

impl Error for RefusedAt {}

fn answer_at(number: u32, place: usize) -> Result<(), RefusedAt> {
    answer(number).map_err(|refusal| RefusedAt { refusal, place })
}

/// Why a call left the place that it was lent as it was.
#[derive(Clone, Copy, Debug, PartialEq, Eq)]
pub enum Unwritten {
    /// The call was refused, whatever the place.
    Refused(Refusal),
    /// Refusal 13: the place is too short, and the least length that would do.
    TooShort { needed: usize },
}

const TOO_SHORT: u32 = 13;

impl Unwritten {
    /// The number of the refusal.
    pub fn number(self) -> u32 {
        match self {
            Unwritten::Refused(refusal) => refusal.number(),
            Unwritten::TooShort { .. } => TOO_SHORT,
        }
    }
}

/// A sentence for a person, and the number.
impl fmt::Display for Unwritten {
    fn fmt(&self, f: &mut fmt::Formatter<'_>) -> fmt::Result {
        match self {
            Unwritten::Refused(refusal) => refusal.fmt(f),
            Unwritten::TooShort { needed } => write!(f, "the place is too short, a length of {needed} is needed (refusal {TOO_SHORT})"),
        }
    }
}

impl Error for Unwritten {}

impl From<Refusal> for Unwritten {
    fn from(refusal: Refusal) -> Unwritten {
        Unwritten::Refused(refusal)
    }
}

/// The part of a place that a call has filled.
fn filled<T>(number: u32, place: &[T], count: usize) -> Result<&[T], Unwritten> {
    if number == TOO_SHORT {
        return Err(Unwritten::TooShort { needed: count });
    }
    answer(number)?;
    Ok(&place[..count])
}

/// Checks a grammar file of version 1: refused 1 or 2.
pub fn check(file: &[u8]) -> Result<(), Refusal> {
    answer(unsafe { raw::brinesaddle_check(file.as_ptr(), file.len()) })
}

/// The words of a row: each set has one.
pub const ROW_WORDS: usize = 8;

/// The words of an item: origin, rule, and the position of the node of its first symbol.
pub const ITEM_WORDS: usize = 3;

/// The words of a queue entry.
pub const ENTRY_WORDS: usize = 2;

/// The words that a parse lives in: [`ITEM_WORDS`] an item; one a set and one more; [`ROW_WORDS`] a set; [`ENTRY_WORDS`] a queue entry; and the
/// units of its nodes. More may be lent than count; words and units past the capacities are never touched.
///
/// The store of nodes only grows until the next start: with a forest a parse ends at some length, refused [`Refusal::StoreFull`].
pub struct Lent<'a> {
    pub items: &'a mut [u32],
    pub starts: &'a mut [u32],
    pub rows: &'a mut [u64],
    pub queue: &'a mut [u32],
    pub store: &'a mut [u16],
}

/// Words of one's own.
pub struct Words {
    pub items: Vec<u32>,
    pub starts: Vec<u32>,
    pub rows: Vec<u64>,
    pub queue: Vec<u32>,
    pub store: Vec<u16>,
}

impl Words {
    /// Room for so many items, sets, queue entries and units.
    pub fn new(items: usize, sets: usize, queue: usize, units: usize) -> Words {
        Words {
            items: vec![0; ITEM_WORDS * items],
            starts: vec![0; sets + 1],
            rows: vec![0; ROW_WORDS * sets],
            queue: vec![0; ENTRY_WORDS * queue],
            store: vec![0; units],
        }
    }

    /// The largest capacities.
    pub fn largest() -> Words {
        Words::new(4096, 1024, 1024, 32768)
    }

    pub fn lend(&mut self) -> Lent<'_> {
        Lent { items: &mut self.items, starts: &mut self.starts, rows: &mut self.rows, queue: &mut self.queue, store: &mut self.store }
    }
}

/// A state by value. It means something only with the grammar and the words that it came with; with others a call answers 4, or reads
/// another parse.
#[derive(Clone, Copy, Debug, PartialEq, Eq, Default)]
pub struct State {
    pub set: usize,
    pub items: usize,
    pub used: usize,
}

/// What a run came to: how many tokens or positions were taken, and the first refusal if there was one. The parse stands behind those taken
/// either way.
#[derive(Clone, Copy, Debug, PartialEq, Eq)]
pub struct Ran {
    pub taken: usize,
    pub answer: Result<(), Refusal>,
}

/// The most tokens of a grammar: a place of so many always suffices for [`Parse::expected`].
pub const MAX_TOKENS: usize = 509;

/// The most bytes of a line of [`Parse::listing`], its newline among them.
pub const MAX_LINE: usize = 25;

/// An item of the latest set, with the symbols of its rule.
#[derive(Clone, Copy, Debug, PartialEq, Eq, Default)]
#[repr(C)]
pub struct Item {
    pub rule: u32,
    pub left: u32,
    pub first: u32,
    pub second: u32,
    pub origin: u32,
}

/// A parse: a grammar, words, and the state in them.
pub struct Parse<'a> {
    file: &'a [u8],
    words: Lent<'a>,
    state: State,
}

/// A call that may write the words: grammar, state and words as all of them take these, then what is its own.
macro_rules! write_call {
    ($call:ident, $parse:ident $(, $own:expr)*) => {{
        let Parse { file, words: Lent { items, starts, rows, queue, store }, state: State { set, items: held, used } } = $parse;
        let (i, s, r, q, n) = (items.as_mut_ptr(), starts.as_mut_ptr(), rows.as_mut_ptr(), queue.as_mut_ptr(), store.as_mut_ptr());
        let (is, ss, rs, qs, ns) = (items.len(), starts.len(), rows.len(), queue.len(), store.len());
        unsafe { raw::$call(file.as_ptr(), file.len(), set, held, used, i, is, s, ss, r, rs, q, qs, n, ns $(, $own)*) }
    }};
}

/// The same of a call that only reads them.
macro_rules! read_call {
    ($call:ident, $parse:ident $(, $own:expr)*) => {{
        let Parse { file, words: Lent { items, starts, rows, queue, store }, state: State { set, items: held, used } } = $parse;
        let (i, s, r, q, n) = (items.as_ptr(), starts.as_ptr(), rows.as_ptr(), queue.as_ptr(), store.as_ptr());
        let (is, ss, rs, qs, ns) = (items.len(), starts.len(), rows.len(), queue.len(), store.len());
        unsafe { raw::$call(file.as_ptr(), file.len(), *set, *held, *used, i, is, s, ss, r, rs, q, qs, n, ns $(, $own)*) }
    }};
}

impl<'a> Parse<'a> {
    /// Starts a parse: refused 1, 2 or 3, the words are as they were.
    pub fn start(file: &'a [u8], words: Lent<'a>) -> Result<Parse<'a>, Refusal> {
        let mut parse = Parse { file, words, state: State::default() };
        parse.restart()?;
        Ok(parse)
    }

    /// A parse whose words and state were kept. Nothing is looked at here; a call on a state that is not well formed answers 4.
    pub fn resume(file: &'a [u8], words: Lent<'a>, state: State) -> Parse<'a> {
        Parse { file, words, state }
    }

    /// Starts anew in the same words. Refused, state and words are as they were.
    pub fn restart(&mut self) -> Result<(), Refusal> {
        answer(write_call!(brinesaddle_start, self))
    }

    /// Reads one token. Refused, state and words are as they were.
    pub fn token(&mut self, token: u32) -> Result<(), Refusal> {
        answer(write_call!(brinesaddle_token, self, token))
    }

    /// Reads tokens up to the first that is refused. Those before it stay taken; with 1, 2 and 4 none was, and all is as it was.
    pub fn run(&mut self, tokens: &[u16]) -> Ran {
        let mut taken = 0;
        let number = write_call!(brinesaddle_run, self, tokens.as_ptr(), tokens.len(), &mut taken);
        Ran { taken, answer: answer(number) }
    }

    /// Reads one position: a word that may be of several kinds of token, these strictly rising. Kinds that are not predicted here are passed
    /// over, and it is refused [`Refusal::NotPredicted`] where all are; no kind, kinds that do not rise or one that is no token are
    /// [`Refusal::NoToken`]. Refused, state and words are as they were.
    ///
    /// ```
    /// # use brinesaddle::{Parse, Refusal, Words};
    /// // S ::= 0 0 | 1 1
    /// let grammar = [1, 0, 0, 0, 29, 0, 5, 0, 2, 0, 3, 0, 3, 0, 2, 0, 4, 0, 2, 0, 0, 0, 0, 0, 2, 0, 1, 0, 1];
    /// let mut words = Words::largest();
    /// let mut parse = Parse::start(&grammar, words.lend())?;
    /// parse.kinds(&[0, 1])?; // it may be either, and what follows decides
    /// parse.kinds(&[1])?;
    /// assert!(parse.finished()?.is_some());
    /// assert_eq!(parse.kinds(&[1, 0]), Err(Refusal::NoToken));
    /// # Ok::<(), Box<dyn std::error::Error>>(())
    /// ```
    pub fn kinds(&mut self, kinds: &[u16]) -> Result<(), Refusal> {
        answer(write_call!(brinesaddle_kinds, self, kinds.as_ptr(), kinds.len()))
    }

    /// Reads positions up to the first that is refused. They stand one behind the other, of each the number of its kinds and then the kinds:
    /// `[2, 0, 1, 1, 0]` are the positions `[0, 1]` and `[0]`. One that is cut off is refused [`Refusal::NoToken`]. Those before the refused one
    /// stay taken; with 1, 2 and 4 none was, and all is as it was.
    pub fn run_kinds(&mut self, positions: &[u16]) -> Ran {
        let mut taken = 0;
        let number = write_call!(brinesaddle_run_kinds, self, positions.as_ptr(), positions.len(), &mut taken);
        Ran { taken, answer: answer(number) }
    }

    /// Where the tokens taken since the start are a sentence, or one kind of each position taken, the position of the start symbol's node: all
    /// derivations of all such sentences. It stays good until the next start.
    pub fn finished(&self) -> Result<Option<u32>, Refusal> {
        let (mut yes, mut handle) = (0, 0);
        answer(read_call!(brinesaddle_finished, self, &mut yes, &mut handle))?;
        Ok((yes == 1).then_some(handle))
    }

    /// The units of the nodes of all that was read since the start, for [`read_node`] and [`walk_nodes`]: as many as the state tells, or all
    /// that there are where a forged state tells more.
    pub fn nodes(&self) -> &[u16] {
        &self.words.store[..self.state.used.min(self.words.store.len())]
    }

    /// The item words of the latest set: origin, rule and node of each item.
    pub fn latest_set(&self) -> Result<&[u32], Refusal> {
        let (mut first, mut count) = (0, 0);
        answer(read_call!(brinesaddle_latest_set, self, &mut first, &mut count))?;
        Ok(&self.words.items[first..first + count])
    }

    /// The tokens that could stand next, rising: exactly those of the grammar that would not be refused [`Refusal::NotPredicted`]. Here and
    /// in the next three the answer is the filled part of the place; where there is an error, the place is as it was.
    pub fn expected<'p>(&self, place: &'p mut [u16]) -> Result<&'p [u16], Unwritten> {
        let mut count = 0;
        let number = read_call!(brinesaddle_expected, self, place.as_mut_ptr(), place.len(), &mut count);
        filled(number, place, count)
    }

    /// The latest set as text, a line an item: `left ::= first * second @ origin`. [`MAX_LINE`] bytes an item always suffice.
    pub fn listing<'p>(&self, place: &'p mut [u8]) -> Result<&'p str, Unwritten> {
        let mut count = 0;
        let number = read_call!(brinesaddle_listing, self, place.as_mut_ptr(), place.len(), &mut count);
        // Looked at once more, and so sound whatever the library wrote; that it wrote digits, blanks, newlines and `:=*@` alone is proved.
        filled(number, place, count).map(|text| str::from_utf8(text).expect("a listing is ASCII"))
    }

    /// The latest set as words, five an item: rule, left side, first, second and origin.
    pub fn latest_words<'p>(&self, place: &'p mut [u32]) -> Result<&'p [u32], Unwritten> {
        let mut count = 0;
        let number = read_call!(brinesaddle_latest_words, self, place.as_mut_ptr(), place.len(), &mut count);
        filled(number, place, count)
    }

    /// The latest set, a record an item.
    pub fn latest_records<'p>(&self, place: &'p mut [Item]) -> Result<&'p [Item], Unwritten> {
        let mut count = 0;
        let number = read_call!(brinesaddle_latest_records, self, place.as_mut_ptr(), place.len(), &mut count);
        filled(number, place, count)
    }

    pub fn state(&self) -> State {
        self.state
    }
}

/// A node of a forest. Factors are positions in the same store, before the Product's own. Whether a Product has a right factor is a flag at
/// the library's door, where any number but 0 counts as 1; here it is an option.
#[derive(Clone, Copy, Debug, PartialEq, Eq)]
pub enum Node {
    Sum { count: u32, nonterminal: u32 },
    Product { action: u32, left: u32, right: Option<u32> },
    NullingLeaf { symbol: u32 },
    Evaluated { symbol: u32 },
}

const END: u32 = 4;

impl Node {
    fn numbers(self) -> [u32; 5] {
        match self {
            Node::Sum { count, nonterminal } => [0, count, nonterminal, 0, 0],
            Node::Product { action, left, right: Some(right) } => [1, action, left, 1, right],
            Node::Product { action, left, right: None } => [1, action, left, 0, 0],
            Node::NullingLeaf { symbol } => [2, symbol, 0, 0, 0],
            Node::Evaluated { symbol } => [3, symbol, 0, 0, 0],
        }
    }

    fn told([kind, first, second, present, right]: [u32; 5]) -> Option<Node> {
        match kind {
            0 => Some(Node::Sum { count: first, nonterminal: second }),
            1 => Some(Node::Product { action: first, left: second, right: (present != 0).then_some(right) }),
            2 => Some(Node::NullingLeaf { symbol: first }),
            3 => Some(Node::Evaluated { symbol: first }),
            _ => None,
        }
    }
}

/// What a walk came to: the nodes read, the position behind the last, and the 12 that ended it, if one did. Nodes and position are told either
/// way.
#[derive(Clone, Copy, Debug, PartialEq, Eq)]
pub struct Walked {
    pub nodes: usize,
    pub behind: usize,
    pub answer: Result<(), RefusedAt>,
}

/// Writes a node at a position, and answers the position behind it. Refused 10 or 11, the store is as it was.
pub fn write_node(store: &mut [u16], position: usize, node: Node) -> Result<usize, RefusedAt> {
    let (mut behind, mut place) = (position, position);
    let number = unsafe {
        raw::brinesaddle_node_write(store.as_mut_ptr(), store.len(), position, &node.numbers(), &mut behind, &mut place)
    };
    answer_at(number, place)?;
    Ok(behind)
}

/// The first node from a position on, with the position behind it; none at the end; refused 12 where the units are no node.
pub fn read_node(store: &[u16], position: usize) -> Result<Option<(Node, usize)>, RefusedAt> {
    let (mut numbers, mut behind, mut place) = ([END, 0, 0, 0, 0], position, position);
    let number =
        unsafe { raw::brinesaddle_node_read(store.as_ptr(), store.len(), position, &mut numbers, &mut behind, &mut place) };
    answer_at(number, place)?;
    Ok(Node::told(numbers).map(|node| (node, behind)))
}

/// Reads on from a position to the end or the first 12.
pub fn walk_nodes(store: &[u16], position: usize) -> Walked {
    let (mut nodes, mut behind, mut place) = (0, position, position);
    let number =
        unsafe { raw::brinesaddle_node_walk(store.as_ptr(), store.len(), position, &mut nodes, &mut behind, &mut place) };
    Walked { nodes, behind, answer: answer_at(number, place) }
}

/// Why a written grammar is not translated: numbers 16 to 21. The place lent is as it was.
#[derive(Clone, Copy, Debug, PartialEq, Eq)]
#[repr(u32)]
pub enum Untranslated {
    NotWritten = 16,
    Circular = 17,
    Barren = 18,
    Unreachable = 19,
    NoSentence = 20,
    NoRoom = 21,
}

impl Untranslated {
    const ALL: [Untranslated; 6] = [
        Untranslated::NotWritten,
        Untranslated::Circular,
        Untranslated::Barren,
        Untranslated::Unreachable,
        Untranslated::NoSentence,
        Untranslated::NoRoom,
    ];

    /// The number of the refusal.
    pub fn number(self) -> u32 {
        self as u32
    }

    fn sentence(self) -> &'static str {
        match self {
            Untranslated::NotWritten => "the bytes are no written grammar of version 2",
            Untranslated::Circular => "a nonterminal derives itself",
            Untranslated::Barren => "a nonterminal derives no token string",
            Untranslated::Unreachable => "a nonterminal is unreachable",
            Untranslated::NoSentence => "there is no sentence but the empty one",
            Untranslated::NoRoom => "the file would have too many symbols or rules, or more bytes than are lent",
        }
    }
}

/// A sentence for a person, and the number.
impl fmt::Display for Untranslated {
    fn fmt(&self, f: &mut fmt::Formatter<'_>) -> fmt::Result {
        write!(f, "{} (refusal {})", self.sentence(), self.number())
    }
}

impl Error for Untranslated {}

/// The bytes of the longest grammar file: a place of so many always suffices for a translation.
pub const MAX_FILE: usize = 12_299;

/// A written grammar's file, and whether the empty sentence was there, which no file can tell.
#[derive(Clone, Copy, Debug, PartialEq, Eq)]
pub struct Translation<'p> {
    pub file: &'p [u8],
    pub empty: bool,
}

/// Translates a written grammar of version 2 into the front of a place; the bytes behind the file stay as they were. It takes milliseconds
/// for a grammar that a person wrote, and minutes for the largest that a stranger could send; and 208 KiB of stack.
///
/// ```
/// // S ::= | a S
/// let written = [2, 0, 1, 0, 1, 0, 2, 0, 1, 0, 1, 0, 0, 0, 1, 0, 2, 0, 0, 0, 1];
/// let mut place = [0; brinesaddle::MAX_FILE];
/// let made = brinesaddle::translate(&written, &mut place)?;
/// assert!(made.empty && brinesaddle::check(made.file).is_ok());
/// # Ok::<(), Box<dyn std::error::Error>>(())
/// ```
pub fn translate<'p>(written: &[u8], place: &'p mut [u8]) -> Result<Translation<'p>, Untranslated> {
    let (mut length, mut empty) = (0, 0);
    let number = unsafe {
        raw::brinesaddle_translate(written.as_ptr(), written.len(), place.as_mut_ptr(), place.len(), &mut length, &mut empty)
    };
    match number.checked_sub(Untranslated::NotWritten.number()) {
        None => Ok(Translation { file: &place[..length], empty: empty == 1 }),
        Some(which) => Err(Untranslated::ALL[which as usize]),
    }
}
