//! Grammar file version 1: its check, its rules, and what is worked out from them.

use crate::Refusal;

const VERSION: u8 = 1;
const HEADER: usize = 11;
const RULE: usize = 6;

pub const MAX_SYMBOLS: usize = 512;
pub const MAX_RULES: usize = 2048;
pub const ROW_WORDS: usize = MAX_SYMBOLS / 64;

/// What stands for the second symbol of a rule that has one symbol.
pub const NONE: u16 = 0xFFFF;

/// A set of symbols: symbol s is bit s % 64 of word s / 64.
pub type Row = [u64; ROW_WORDS];

#[derive(Clone, Copy)]
pub struct Rule {
    pub left: u16,
    pub first: u16,
    pub second: u16,
}

impl Rule {
    fn word(&self) -> u64 {
        u64::from(self.left) << 32 | u64::from(self.first) << 16 | u64::from(self.second)
    }
}

pub struct Grammar {
    pub symbols: usize,
    pub tokens: usize,
    pub rules: Vec<Rule>,
}

pub fn holds(row: &Row, symbol: usize) -> bool {
    row[symbol / 64] >> (symbol % 64) & 1 == 1
}

fn add(row: &mut Row, symbol: usize) {
    row[symbol / 64] |= 1 << (symbol % 64);
}

pub fn unite(row: &mut Row, other: &Row) {
    for (word, more) in row.iter_mut().zip(other) {
        *word |= more;
    }
}

/// Whether the row holds no symbol at `symbols` or above.
pub fn is_below(row: &Row, symbols: usize) -> bool {
    row.iter().enumerate().all(|(k, word)| {
        let bits = symbols.saturating_sub(64 * k) as u32;
        word.checked_shr(bits).unwrap_or(0) == 0
    })
}

impl Grammar {
    /// The grammar of an accepted file.
    pub fn read(file: &[u8]) -> Result<Grammar, Refusal> {
        let Some((header, body)) = file.split_first_chunk::<HEADER>() else {
            return Err(Refusal::Malformed);
        };
        let [version, l3, l2, l1, l0, n1, n0, t1, t0, r1, r0] = *header;
        let length = u32::from_be_bytes([l3, l2, l1, l0]) as usize;
        let count = usize::from(u16::from_be_bytes([r1, r0]));
        if version != VERSION || length != file.len() || length != HEADER + RULE * count {
            return Err(Refusal::Malformed);
        }
        let symbols = usize::from(u16::from_be_bytes([n1, n0]));
        let tokens = usize::from(u16::from_be_bytes([t1, t0]));
        if tokens < 1 || symbols < tokens + 3 || symbols > MAX_SYMBOLS || !(1..=MAX_RULES).contains(&count) {
            return Err(Refusal::Broken);
        }
        let (triples, _) = body.as_chunks::<RULE>();
        let rules = triples
            .iter()
            .map(|&[a1, a0, b1, b0, c1, c0]| Rule {
                left: u16::from_be_bytes([a1, a0]),
                first: u16::from_be_bytes([b1, b0]),
                second: u16::from_be_bytes([c1, c0]),
            })
            .collect();
        let grammar = Grammar { symbols, tokens, rules };
        if grammar.is_wrapped()
            && grammar.has_fit_symbols()
            && grammar.has_fit_order()
            && !grammar.has_equal_pair()
            && grammar.is_productive()
            && grammar.is_reachable()
        {
            Ok(grammar)
        } else {
            Err(Refusal::Broken)
        }
    }

    pub fn wrapper(&self) -> usize {
        self.symbols - 2
    }

    fn is_nonterminal(&self, symbol: u16) -> bool {
        (self.tokens..self.wrapper()).contains(&usize::from(symbol))
    }

    /// Whether rule 0 is W ::= S end with S a nonterminal.
    fn is_wrapped(&self) -> bool {
        let Rule { left, first, second } = self.rules[0];
        usize::from(left) == self.symbols - 2 && usize::from(second) == self.symbols - 1 && self.is_nonterminal(first)
    }

    /// Whether every other rule has a nonterminal on the left and only symbols 0..N-3 on the right.
    fn has_fit_symbols(&self) -> bool {
        let fits = |symbol: u16| usize::from(symbol) < self.wrapper();
        self.rules[1..]
            .iter()
            .all(|rule| self.is_nonterminal(rule.left) && fits(rule.first) && (rule.second == NONE || fits(rule.second)))
    }

    /// Whether the rules of one left side are adjacent, and no rule of B stands up to a rule A ::= B.
    fn has_fit_order(&self) -> bool {
        let mut met = [false; MAX_SYMBOLS];
        let mut block = None;
        for rule in &self.rules {
            if block != Some(rule.left) {
                if met[usize::from(rule.left)] {
                    return false;
                }
                met[usize::from(rule.left)] = true;
                block = Some(rule.left);
            }
            if rule.second == NONE && met[usize::from(rule.first)] {
                return false;
            }
        }
        true
    }

    /// Whether two rules are equal: all pairs are looked at, up to the first that is. As single words, which are compared faster.
    fn has_equal_pair(&self) -> bool {
        let words: Vec<u64> = self.rules.iter().map(Rule::word).collect();
        (1..words.len()).any(|r| words[..r].contains(&words[r]))
    }

    /// Whether every nonterminal derives some string of tokens. Rules of one symbol lead to later ones, so that it goes from the last rule to the first.
    fn is_productive(&self) -> bool {
        let mut marked = [false; MAX_SYMBOLS];
        marked[..self.tokens].fill(true);
        loop {
            let mut changed = false;
            for rule in self.rules[1..].iter().rev() {
                let left = usize::from(rule.left);
                if !marked[left]
                    && marked[usize::from(rule.first)]
                    && (rule.second == NONE || marked[usize::from(rule.second)])
                {
                    marked[left] = true;
                    changed = true;
                }
            }
            if !changed {
                return marked[self.tokens..self.wrapper()].iter().all(|&mark| mark);
            }
        }
    }

    /// Whether every nonterminal is reachable from S. The rules of one left side are adjacent by now.
    fn is_reachable(&self) -> bool {
        let mut begins = vec![self.rules.len(); self.symbols];
        for (number, rule) in self.rules.iter().enumerate().rev() {
            begins[usize::from(rule.left)] = number;
        }
        let mut marked = [false; MAX_SYMBOLS];
        marked[usize::from(self.rules[0].first)] = true;
        let mut due = vec![self.rules[0].first];
        while let Some(left) = due.pop() {
            for rule in self.rules[begins[usize::from(left)]..].iter().take_while(|rule| rule.left == left) {
                for symbol in [rule.first, rule.second] {
                    if symbol != NONE && !marked[usize::from(symbol)] {
                        marked[usize::from(symbol)] = true;
                        due.push(symbol);
                    }
                }
            }
        }
        marked[self.tokens..self.wrapper()].iter().all(|&mark| mark)
    }

    /// What W begins with: its row of the table, without the others.
    pub fn beginnings(&self) -> Row {
        let mut row = [0; ROW_WORDS];
        add(&mut row, self.wrapper());
        loop {
            let before = row;
            for rule in &self.rules {
                if holds(&row, usize::from(rule.left)) {
                    add(&mut row, usize::from(rule.first));
                }
            }
            if row == before {
                return row;
            }
        }
    }

    /// The prediction table: row X holds X and every symbol reached from X by first symbols.
    pub fn table(&self) -> Vec<Row> {
        let mut table = vec![[0; ROW_WORDS]; self.symbols];
        for (symbol, row) in table.iter_mut().enumerate() {
            add(row, symbol);
        }
        for rule in &self.rules {
            add(&mut table[usize::from(rule.left)], usize::from(rule.first));
        }
        // Warshall's order. A token leads nowhere.
        for through in self.tokens..self.symbols {
            let reached = table[through];
            for row in &mut table[self.tokens..] {
                if holds(row, through) {
                    unite(row, &reached);
                }
            }
        }
        table
    }

    pub fn by_first(&self) -> ByFirst {
        ByFirst::new(self)
    }
}

/// The rules of each first symbol, those of one symbol apart from those of two, in number order.
pub struct ByFirst {
    begins: Vec<u16>,
    numbers: Vec<u16>,
}

impl ByFirst {
    fn new(grammar: &Grammar) -> ByFirst {
        let class = |rule: &Rule| 2 * usize::from(rule.first) + usize::from(rule.second != NONE);
        let mut begins = vec![0; 2 * grammar.symbols + 1];
        for rule in &grammar.rules {
            begins[class(rule) + 1] += 1;
        }
        let mut begin = 0;
        for place in &mut begins {
            begin += *place;
            *place = begin;
        }
        let mut numbers = vec![0; grammar.rules.len()];
        let mut places = begins.clone();
        for (number, rule) in grammar.rules.iter().enumerate() {
            let place = &mut places[class(rule)];
            numbers[usize::from(*place)] = number as u16;
            *place += 1;
        }
        ByFirst { begins, numbers }
    }

    pub fn unary(&self, first: usize) -> &[u16] {
        self.class(2 * first)
    }

    pub fn binary(&self, first: usize) -> &[u16] {
        self.class(2 * first + 1)
    }

    fn class(&self, class: usize) -> &[u16] {
        &self.numbers[usize::from(self.begins[class])..usize::from(self.begins[class + 1])]
    }
}
