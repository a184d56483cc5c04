//! Stand-in for `grammar.rs`: the tables that the recognizer and the bocage ask for, filled from a grammar file of version 1.
//!
//! The tables follow `populate_grammar_with_lhs`, `populate_grammar_with_rhs`, `populate_prediction_matrix` and
//! `compute_unary_completion_table` / `compute_binary_completion_table`. A dot is a rule's number in the file: the file
//! already has the rules of one left side together and unit rules before those they predict, as `grammar.rs` asks in
//! its properties 4 and 6. Hints, events, traces, nulling and symbol maps are empty: our grammars have none. A rule's origin is its own number.

use bit_matrix::BitMatrix;
use cfg::Symbol;
use item::Dot;

#[derive(Clone, Copy)]
pub struct PredictionTransition {
    pub symbol: Symbol,
    pub dot: Dot,
}

#[derive(Eq, PartialEq, Ord, PartialOrd)]
pub enum MaybePostdot {
    Binary(Symbol),
    Unary,
}

pub type ExternalDottedRule = (u32, u32);
pub type NullingEliminated = Option<(Symbol, bool)>;
pub type NullingIntermediateRule = (Symbol, Symbol, Symbol);
pub type Event = (Option<u32>, Option<u32>);

pub struct InternalGrammar {
    symbols: usize,
    lhs: Vec<Symbol>,
    rhs1: Vec<Option<Symbol>>,
    prediction_matrix: BitMatrix,
    unary_completions: Vec<Vec<PredictionTransition>>,
    binary_completions: Vec<Vec<PredictionTransition>>,
}

const NO_SECOND: u32 = 0xFFFF;

impl InternalGrammar {
    /// The file must have passed the grammar check. Only its length is looked at here.
    pub fn from_file(file: &[u8]) -> Self {
        let word = |at: usize| u32::from(file[at]) << 8 | u32::from(file[at + 1]);
        let symbols = word(5) as usize;
        let rules = word(9) as usize;
        assert_eq!(file.len(), 11 + 6 * rules, "length of the grammar file");
        let mut grammar = InternalGrammar {
            symbols,
            lhs: vec![],
            rhs1: vec![],
            prediction_matrix: BitMatrix::new(symbols, symbols),
            unary_completions: vec![vec![]; symbols],
            binary_completions: vec![vec![]; symbols],
        };
        for dot in 0..rules {
            let at = 11 + 6 * dot;
            grammar.add_rule(dot as Dot, word(at), word(at + 2), word(at + 4));
        }
        grammar.prediction_matrix.transitive_closure();
        for symbol in 0..symbols {
            grammar.prediction_matrix.set(symbol, symbol, true);
        }
        grammar
    }

    fn add_rule(&mut self, dot: Dot, left: u32, first: u32, second: u32) {
        let symbol = Symbol::from(left);
        let transition = PredictionTransition { symbol, dot };
        self.lhs.push(symbol);
        self.prediction_matrix.set(left as usize, first as usize, true);
        if second == NO_SECOND {
            self.rhs1.push(None);
            self.unary_completions[first as usize].push(transition);
        } else {
            self.rhs1.push(Some(Symbol::from(second)));
            self.binary_completions[first as usize].push(transition);
        }
    }

    pub fn num_syms(&self) -> usize {
        self.symbols
    }

    pub fn start_sym(&self) -> Symbol {
        Symbol::from(self.symbols - 2)
    }

    pub fn eof(&self) -> Symbol {
        Symbol::from(self.symbols - 1)
    }

    pub fn dot_before_eof(&self) -> Dot {
        0
    }

    pub fn prediction_matrix(&self) -> &BitMatrix {
        &self.prediction_matrix
    }

    pub fn get_lhs(&self, dot: Dot) -> Symbol {
        self.lhs[dot as usize]
    }

    pub fn get_rhs1(&self, dot: Dot) -> Option<Symbol> {
        self.rhs1[dot as usize]
    }

    pub fn get_rhs1_cmp(&self, dot: Dot) -> MaybePostdot {
        match self.get_rhs1(dot) {
            None => MaybePostdot::Unary,
            Some(rhs1) => MaybePostdot::Binary(rhs1),
        }
    }

    pub fn rhs1(&self) -> &[Option<Symbol>] {
        &self.rhs1
    }

    pub fn unary_completions(&self, symbol: Symbol) -> &[PredictionTransition] {
        &self.unary_completions[symbol.usize()]
    }

    pub fn binary_completions(&self, symbol: Symbol) -> &[PredictionTransition] {
        &self.binary_completions[symbol.usize()]
    }

    pub fn to_internal(&self, symbol: Symbol) -> Option<Symbol> {
        Some(symbol)
    }

    pub fn has_trivial_derivation(&self) -> bool {
        false
    }

    pub fn nulling(&self, _dot: Dot) -> NullingEliminated {
        None
    }

    pub fn eliminated_nulling_intermediate(&self) -> &[NullingIntermediateRule] {
        &[]
    }

    pub fn max_nulling_symbol(&self) -> Option<usize> {
        None
    }

    pub fn external_origin(&self, dot: Dot) -> Option<u32> {
        Some(dot)
    }

    pub fn externalized_start_sym(&self) -> Symbol {
        unreachable!("asked for trivial derivations only")
    }

    pub fn can_follow(&self, _before: Symbol, _after: Option<Symbol>) -> bool {
        unreachable!("asked for hints only")
    }

    pub fn first(&self, _outer: Symbol, _inner: Option<Symbol>) -> bool {
        unreachable!("asked for hints only")
    }

    pub fn events(&self) -> (&[Event], &[Event]) {
        (&[], &[])
    }

    pub fn trace(&self) -> [&[Option<ExternalDottedRule>]; 3] {
        [&[], &[], &[]]
    }
}
