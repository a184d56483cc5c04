//! One position, by document 01's steps.

use crate::chart::{set_order, Chart, Entry, Item};
use crate::grammar::{holds, unite, ByFirst, Grammar, Row, NONE, ROW_WORDS};
use crate::nodes::{self, Units, FILLER, NO_FACTOR};
use crate::{queue, Refusal, State};

/// A grammar with what is worked out from it once a call.
pub struct Tables<'g> {
    grammar: &'g Grammar,
    by_first: ByFirst,
    predicted: Vec<Row>,
}

impl<'g> Tables<'g> {
    pub fn new(grammar: &'g Grammar) -> Tables<'g> {
        Tables { grammar, by_first: grammar.by_first(), predicted: grammar.table() }
    }
}

/// A position on a well-formed state, with a list to work in. A refusal leaves the words as they were.
pub fn step(tables: &Tables, chart: &mut Chart, summands: &mut Vec<Entry>, state: State, kinds: &[u16]) -> Result<State, Refusal> {
    let is_token = |kind: &u16| usize::from(*kind) < tables.grammar.tokens;
    if kinds.is_empty() || !kinds.iter().all(is_token) || !kinds.is_sorted_by(|a, b| a < b) {
        return Err(Refusal::NoToken);
    }
    let row = &chart.rows[state.set];
    if !kinds.iter().any(|&kind| holds(row, usize::from(kind))) {
        return Err(Refusal::NotPredicted);
    }
    let mut pass = Pass { tables, chart, stored: state.items, queued: 0, used: state.used, summands };
    let completed = pass.complete_position(state.set, kinds).and_then(|()| pass.complete_sums());
    let Pass { stored, queued, used, .. } = pass;
    let advanced = completed.and_then(|()| advance(tables, chart, State { used, ..state }, stored));
    if advanced.is_err() {
        chart.items[state.items..stored].fill([0; 3]);
        chart.queue[..queued].fill([0; 2]);
        chart.store[state.used..used].fill(FILLER);
    }
    advanced
}

/// Steps 2 and 3: items are stored behind those of the sets, completed ones queued, and nodes written behind the used units.
struct Pass<'p, 'c> {
    tables: &'p Tables<'p>,
    chart: &'p mut Chart<'c>,
    stored: usize,
    queued: usize,
    used: usize,
    /// The entries of the sum that is being completed.
    summands: &'p mut Vec<Entry>,
}

impl Pass<'_, '_> {
    fn store(&mut self, item: Item) -> Result<(), Refusal> {
        *self.chart.items.get_mut(self.stored).ok_or(Refusal::ItemsFull)? = item;
        self.stored += 1;
        Ok(())
    }

    /// Writes a node, and answers its handle.
    fn append(&mut self, (units, length): Units) -> Result<u32, Refusal> {
        let (at, end) = (self.used, self.used + length);
        self.chart.store.get_mut(at..end).ok_or(Refusal::StoreFull)?.copy_from_slice(&units[..length]);
        self.used = end;
        Ok(at as u32)
    }

    fn enqueue(&mut self, place: usize, right: u32) -> Result<(), Refusal> {
        if self.queued == self.chart.queue.len() {
            return Err(Refusal::QueueFull);
        }
        queue::push(self.chart.queue, self.queued, [place as u32, right], self.chart.items);
        self.queued += 1;
        Ok(())
    }

    /// Each kind that is predicted, in rising order, behind its node. The others leave no trace.
    fn complete_position(&mut self, k: usize, kinds: &[u16]) -> Result<(), Refusal> {
        for &kind in kinds {
            if holds(&self.chart.rows[k], usize::from(kind)) {
                let link = self.append(nodes::evaluated(kind))?;
                self.complete(k, usize::from(kind), link)?;
            }
        }
        Ok(())
    }

    /// Completes a symbol whose node is `link`.
    fn complete(&mut self, k: usize, symbol: usize, link: u32) -> Result<(), Refusal> {
        let row = self.chart.rows[k];
        if !holds(&row, symbol) {
            return Ok(());
        }
        let second = |item: &Item| usize::from(self.tables.grammar.rules[item[1] as usize].second);
        let places = self.chart.places(k);
        let set = self.chart.set(k);
        let from = set.partition_point(|item| second(item) < symbol);
        let count = set[from..].iter().take_while(|item| second(item) == symbol).count();
        let first = places.start + from;
        for place in first..first + count {
            self.enqueue(place, link)?;
        }
        let predicted = |number: u16| holds(&row, usize::from(self.tables.grammar.rules[usize::from(number)].left));
        for &number in self.tables.by_first.unary(symbol) {
            if predicted(number) {
                self.store([k as u32, u32::from(number), link])?;
                self.enqueue(self.stored - 1, NO_FACTOR)?;
            }
        }
        for &number in self.tables.by_first.binary(symbol) {
            if predicted(number) {
                self.store([k as u32, u32::from(number), link])?;
            }
        }
        Ok(())
    }

    /// The origin and the left side of the greatest entry.
    fn next_sum(&self) -> Option<(u32, u16)> {
        let [place, _] = *self.chart.queue[..self.queued].first()?;
        let [origin, rule, _] = self.chart.items[place as usize];
        Some((origin, self.tables.grammar.rules[rule as usize].left))
    }

    fn complete_sums(&mut self) -> Result<(), Refusal> {
        while let Some(sum) = self.next_sum() {
            self.summands.clear();
            while self.next_sum() == Some(sum) {
                self.summands.push(self.chart.queue[0]);
                queue::pop(self.chart.queue, self.queued, self.chart.items);
                self.queued -= 1;
            }
            let (origin, left) = sum;
            let link = self.append(nodes::sum(self.summands.len() as u32, u32::from(left)))?;
            for k in 0..self.summands.len() {
                let [place, right] = self.summands[k];
                let [_, rule, handle] = self.chart.items[place as usize];
                self.append(nodes::product(self.used as u32, rule, handle, right))?;
            }
            self.complete(origin as usize, usize::from(left), link)?;
        }
        Ok(())
    }
}

/// Steps 4 to 6, where the items behind those of the state, up to `stored`, are new.
fn advance(tables: &Tables, chart: &mut Chart, state: State, stored: usize) -> Result<State, Refusal> {
    let grammar = tables.grammar;
    let new = &mut chart.items[state.items..stored];
    let count = keep_binary(grammar, new);
    new[..count].sort_unstable_by_key(|&item| set_order(grammar, item));
    let greatest = new[..count].iter().map(|&[origin, ..]| origin as usize).max().unwrap_or(state.set);
    let pruned = state.set - greatest > 1;
    let kept = if pruned { greatest + 1 } else { state.set };
    if kept + 1 >= chart.rows.len() {
        return Err(Refusal::SetsFull);
    }
    let mut begin = state.items;
    if pruned {
        begin = chart.starts[kept + 1] as usize;
        chart.items.copy_within(state.items..state.items + count, begin);
        chart.starts[kept + 2..state.set + 2].fill(0);
        chart.rows[kept..=state.set].fill([0; ROW_WORDS]);
    }
    let end = begin + count;
    chart.items[end..stored].fill([0; 3]);
    chart.starts[kept + 2] = end as u32;
    let row = &mut chart.rows[kept + 1];
    for &[_, rule, _] in &chart.items[begin..end] {
        let second = usize::from(grammar.rules[rule as usize].second);
        // A row that holds a symbol holds all that it leads to.
        if !holds(row, second) {
            unite(row, &tables.predicted[second]);
        }
    }
    Ok(State { set: kept + 1, items: end, used: state.used })
}

/// Moves the items whose rule has a second symbol to the front, and answers how many they are.
fn keep_binary(grammar: &Grammar, items: &mut [Item]) -> usize {
    let mut count = 0;
    for at in 0..items.len() {
        if grammar.rules[items[at][1] as usize].second != NONE {
            items[count] = items[at];
            count += 1;
        }
    }
    count
}
