//! Every tree of a forest, each once. A count needs 356 KiB of stack; a tree up to 1,800 KiB where the store is a parse's, and 3,200 KiB on any
//! other (include/brinesaddle.h).
use std::error::Error;
use std::fmt;
use std::ops::Range;

mod raw {
    extern "C" {
        pub fn brinesaddle_count(store: *const u16, store_len: usize, handle: usize, trees: &mut u64, place: &mut usize) -> u32;
        pub fn brinesaddle_tree(
            store: *const u16,
            store_len: usize,
            handle: usize,
            k: u64,
            out: *mut u32,
            out_len: usize,
            count: &mut usize,
            place: &mut usize,
        ) -> u32;
    }
}

/// Why trees are not counted, or a tree is not told: 12, 13, 23 and 24. The place lent is as it was.
#[derive(Clone, Copy, Debug, PartialEq, Eq)]
pub enum NoTree {
    /// 12: no forest is below the handle. The place is that of the lowest faulty Sum, or the handle where no Sum is there.
    Faulty { place: usize },
    /// 13: the place lent is too short, and the number of words needed; none where that is above 32,768, which no tree of a parse comes to.
    TooShort { needed: Option<usize> },
    /// 23: there are more trees than 64 bits tell.
    TooMany,
    /// 24: there is no tree with this number.
    NoSuch,
}

impl NoTree {
    /// The number of the refusal.
    pub fn number(self) -> u32 {
        match self {
            NoTree::Faulty { .. } => 12,
            NoTree::TooShort { .. } => 13,
            NoTree::TooMany => 23,
            NoTree::NoSuch => 24,
        }
    }

    fn of(number: u32, count: usize, place: usize) -> Option<NoTree> {
        match number {
            0 => None,
            12 => Some(NoTree::Faulty { place }),
            13 => Some(NoTree::TooShort { needed: (count != usize::MAX).then_some(count) }),
            23 => Some(NoTree::TooMany),
            24 => Some(NoTree::NoSuch),
            _ => unreachable!("there is no other answer"),
        }
    }
}

/// A sentence for a person, and the number.
impl fmt::Display for NoTree {
    fn fmt(&self, f: &mut fmt::Formatter<'_>) -> fmt::Result {
        match self {
            NoTree::Faulty { place } => write!(f, "there is no forest below the handle (refusal 12), at {place}"),
            NoTree::TooShort { needed: Some(needed) } => write!(f, "the place is too short, a length of {needed} is needed (refusal 13)"),
            NoTree::TooShort { needed: None } => write!(f, "the place is too short, and no parse has a tree so long (refusal 13)"),
            NoTree::TooMany => write!(f, "there are more trees than 64 bits tell (refusal 23)"),
            NoTree::NoSuch => write!(f, "there is no tree with this number (refusal 24)"),
        }
    }
}

impl Error for NoTree {}

/// How many trees there are under a handle of a store: refused 12 or 23.
pub fn count_trees(store: &[u16], handle: usize) -> Result<u64, NoTree> {
    let (mut trees, mut place) = (0, 0);
    let number = unsafe { raw::brinesaddle_count(store.as_ptr(), store.len(), handle, &mut trees, &mut place) };
    NoTree::of(number, 0, place).map_or(Ok(trees), Err)
}

/// All trees under a handle, in their order: refused 12. Of trees past 64 bits there are as many as 64 bits tell.
///
/// ```
/// use brinesaddle::{trees, Parse, Words};
///
/// // S ::= S P | num, P ::= plus S; num is token 0, plus token 1.
/// let grammar = [1, 0, 0, 0, 35, 0, 6, 0, 2, 0, 4, 0, 4, 0, 2, 0, 5, 0, 2, 0, 2, 0, 3, 0, 2, 0, 0, 255, 255, 0, 3, 0, 1, 0, 2];
/// let mut words = Words::largest();
/// let mut parse = Parse::start(&grammar, words.lend())?;
/// parse.run(&[0, 1, 0, 1, 0]).answer?;
/// let handle = parse.finished()?.expect("a sum is a sentence");
/// let mut place = [0; 64];
/// for tree in trees(parse.nodes(), handle as usize)? {
///     println!("tree {}: {:?}", tree.number(), tree.words(&mut place)?);
/// }
/// # Ok::<(), Box<dyn std::error::Error>>(())
/// ```
pub fn trees(store: &[u16], handle: usize) -> Result<Trees<'_>, NoTree> {
    let count = match count_trees(store, handle) {
        Err(NoTree::TooMany) => u64::MAX,
        counted => counted?,
    };
    Ok(Trees { store, handle, numbers: 0..count })
}

/// The trees under a handle. Each is told when it is asked for its words, in a place that the caller lends.
#[derive(Clone, Debug)]
pub struct Trees<'s> {
    store: &'s [u16],
    handle: usize,
    numbers: Range<u64>,
}

impl<'s> Trees<'s> {
    fn tree(&self, number: u64) -> Tree<'s> {
        Tree { store: self.store, handle: self.handle, number }
    }
}

impl<'s> Iterator for Trees<'s> {
    type Item = Tree<'s>;

    fn next(&mut self) -> Option<Tree<'s>> {
        self.numbers.next().map(|number| self.tree(number))
    }

    /// No tree is told on the way to the one asked for.
    fn nth(&mut self, n: usize) -> Option<Tree<'s>> {
        self.numbers.nth(n).map(|number| self.tree(number))
    }

    fn size_hint(&self) -> (usize, Option<usize>) {
        self.numbers.size_hint()
    }
}

/// A tree under a handle, by its number.
#[derive(Clone, Copy, Debug)]
pub struct Tree<'s> {
    store: &'s [u16],
    handle: usize,
    number: u64,
}

impl<'s> Tree<'s> {
    /// The tree with a number, whether there is one or not.
    pub fn numbered(store: &'s [u16], handle: usize, number: u64) -> Tree<'s> {
        Tree { store, handle, number }
    }

    pub fn number(&self) -> u64 {
        self.number
    }

    /// Its words in preorder: the rule of each node, then the trees of the rule's symbols; of a leaf the token. As many words as the parse has used
    /// units always suffice. Refused 12, 24 or 13; one from [`trees`] on a store that has not changed, 13 alone.
    pub fn words<'p>(&self, place: &'p mut [u32]) -> Result<&'p [u32], NoTree> {
        let (mut count, mut fault) = (0, 0);
        let (from, length) = (self.store.as_ptr(), self.store.len());
        let (out, room) = (place.as_mut_ptr(), place.len());
        let number = unsafe { raw::brinesaddle_tree(from, length, self.handle, self.number, out, room, &mut count, &mut fault) };
        match NoTree::of(number, count, fault) {
            None => Ok(&place[..count]),
            Some(refused) => Err(refused),
        }
    }
}
