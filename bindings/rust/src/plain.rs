//! The plain engine, for auditors: no sets, no queue, no prediction, but a table of which symbol derives which stretch of the tokens. A call needs up
//! to 40 KiB of stack (include/brinesaddle.h).
use crate::Refusal;
use std::error::Error;
use std::fmt;
use std::ops::Range;

mod raw {
    extern "C" {
        pub fn brinesaddle_plain(
            file: *const u8,
            file_len: usize,
            tokens: *const u16,
            tokens_len: usize,
            table: *mut u64,
            table_len: usize,
            yes: &mut u32,
            count: &mut usize,
        ) -> u32;
    }
}

/// The most tokens that the plain engine takes.
pub const MAX_PLAIN_TOKENS: usize = 64;

/// The words of a row: a bit a symbol.
const ROW: usize = 8;

/// The words of the table of so many tokens; as many as that of [`MAX_PLAIN_TOKENS`] always suffice.
pub const fn table_words(tokens: usize) -> usize {
    let most = if tokens < MAX_PLAIN_TOKENS { tokens } else { MAX_PLAIN_TOKENS };
    ROW * (most * (most + 1) / 2)
}

/// Why the plain engine does not answer: 1, 2 or 5, 22, and 13. The table lent is as it was.
#[derive(Clone, Copy, Debug, PartialEq, Eq)]
pub enum Unsettled {
    /// 1, 2 or 5: the grammar, or some token, wherever it stands.
    Refused(Refusal),
    /// 22: there are more than 64 tokens.
    TooMany,
    /// 13: the table lent is too short, and the number of words needed.
    TooShort { needed: usize },
}

impl Unsettled {
    /// The number of the refusal.
    pub fn number(self) -> u32 {
        match self {
            Unsettled::Refused(refusal) => refusal.number(),
            Unsettled::TooMany => 22,
            Unsettled::TooShort { .. } => 13,
        }
    }
}

/// A sentence for a person, and the number.
impl fmt::Display for Unsettled {
    fn fmt(&self, f: &mut fmt::Formatter<'_>) -> fmt::Result {
        match self {
            Unsettled::Refused(refusal) => refusal.fmt(f),
            Unsettled::TooMany => write!(f, "there are more than {MAX_PLAIN_TOKENS} tokens (refusal 22)"),
            Unsettled::TooShort { needed } => write!(f, "the table is too short, a length of {needed} is needed (refusal 13)"),
        }
    }
}

impl Error for Unsettled {}

/// Which symbol derives which stretch of some tokens.
#[derive(Clone, Copy, Debug)]
pub struct Table<'t> {
    rows: &'t [u64],
    tokens: usize,
    sentence: bool,
}

impl Table<'_> {
    /// Whether all the tokens are a sentence. No tokens are none.
    pub fn is_sentence(&self) -> bool {
        self.sentence
    }

    /// Whether a symbol derives the tokens of a range. A token derives itself; nothing derives an empty range.
    ///
    /// # Panics
    /// Where the range ends behind the tokens.
    pub fn derives(&self, symbol: u16, stretch: Range<usize>) -> bool {
        assert!(stretch.end <= self.tokens, "the stretch {stretch:?} ends behind {} tokens", self.tokens);
        let (length, word) = (stretch.len(), usize::from(symbol / 64));
        if length == 0 || word >= ROW {
            return false;
        }
        let shorter = (0..length - 1).map(|less| self.tokens - less).sum::<usize>();
        self.rows[ROW * (shorter + stretch.start) + word] >> (symbol % 64) & 1 == 1
    }
}

/// Whether tokens are a sentence, with every stretch of them settled in the front of a table that is lent; the words behind it stay as they were.
///
/// ```
/// use brinesaddle::{plain, table_words};
///
/// // S ::= S P | num, P ::= plus S; num is token 0, plus token 1, S symbol 2, P symbol 3.
/// let grammar = [1, 0, 0, 0, 35, 0, 6, 0, 2, 0, 4, 0, 4, 0, 2, 0, 5, 0, 2, 0, 2, 0, 3, 0, 2, 0, 0, 255, 255, 0, 3, 0, 1, 0, 2];
/// let mut words = [0; table_words(3)];
/// let table = plain(&grammar, &[0, 1, 0], &mut words)?;
/// assert!(table.is_sentence() && table.derives(3, 1..3) && !table.derives(2, 1..3));
/// # Ok::<(), Box<dyn std::error::Error>>(())
/// ```
pub fn plain<'t>(grammar: &[u8], tokens: &[u16], table: &'t mut [u64]) -> Result<Table<'t>, Unsettled> {
    let (mut yes, mut count) = (0, 0);
    let (place, room) = (table.as_mut_ptr(), table.len());
    let number =
        unsafe { raw::brinesaddle_plain(grammar.as_ptr(), grammar.len(), tokens.as_ptr(), tokens.len(), place, room, &mut yes, &mut count) };
    match number {
        13 => Err(Unsettled::TooShort { needed: count }),
        22 => Err(Unsettled::TooMany),
        _ => match crate::answer(number) {
            Ok(()) => Ok(Table { rows: &table[..count], tokens: tokens.len(), sentence: yes == 1 }),
            Err(refusal) => Err(Unsettled::Refused(refusal)),
        },
    }
}
