//! Times the ways to find the items of a symbol in a set, on lookups that searches.py recorded.
//!
//!     searches FILE          nanoseconds a lookup, a way a line: medians of rounds in which the ways take turns
//!     searches FILE check    each way once on each lookup, for a tool that counts instructions
//!
//! Both first see that all ways find the same. The words are laid out as in the proved code, and a second is found from an item as there.
//! The proved code has no checks of bounds, so the ways have none: a file is checked when it is read.

use std::hint::{black_box, select_unpredictable};
use std::{env, fs, process};

/// Samples of each way, and the least microseconds of one.
const SAMPLES: usize = 21;
const SAMPLE_MICROS: f64 = 5_000.0;

unsafe extern "C" {
    /// C's: the processor time of this process, in microseconds where POSIX holds.
    safe fn clock() -> std::ffi::c_long;
}

/// Decoded rules, three words a rule, and items, three words an item. The seconds of a set's items rise.
struct Words {
    rules: Vec<u16>,
    items: Vec<u32>,
}

impl Words {
    #[inline(always)]
    fn second(&self, place: usize) -> usize {
        // The places of a lookup are those of items, and an item's rule is one of the rules: `read` has seen to it.
        unsafe {
            let rule = *self.items.get_unchecked(3 * place + 1) as usize;
            usize::from(*self.rules.get_unchecked(3 * rule + 2))
        }
    }

    // Each of these answers the first place from `from` on whose second is not below `x`, or `to`.

    #[inline(always)]
    fn scan(&self, from: usize, to: usize, x: usize) -> usize {
        let mut place = from;
        while place < to && self.second(place) < x {
            place += 1;
        }
        place
    }

    #[inline(always)]
    fn halves(&self, from: usize, to: usize, x: usize) -> usize {
        let (mut low, mut high) = (from, to);
        while low < high {
            let middle = low + (high - low) / 2;
            if self.second(middle) < x {
                low = middle + 1;
            } else {
                high = middle;
            }
        }
        low
    }

    /// Steps that double, then halves of the last step: the proved code's.
    #[inline(always)]
    fn gallop(&self, from: usize, to: usize, x: usize) -> usize {
        let mut low = from;
        while low - from < to - low {
            let probe = low + (low - from);
            if self.second(probe) >= x {
                return self.halves(low, probe, x);
            }
            low = probe + 1;
        }
        self.halves(low, to, x)
    }

    /// Halves whose number depends on the size alone. Without the hint rustc makes a branch of the choice.
    #[inline(always)]
    fn branchless(&self, from: usize, to: usize, x: usize) -> usize {
        let (mut low, mut left) = (from, to - from);
        while left > 1 {
            let half = left / 2;
            low = select_unpredictable(self.second(low + half - 1) < x, low + half, low);
            left -= half;
        }
        low + usize::from(left == 1 && self.second(low) < x)
    }
}

/// The first place and the number of the items from `from` to `to` whose second is `x`.
type Way = fn(words: &Words, from: usize, to: usize, x: usize) -> (usize, usize);

/// A way that is one search for the first place and one for the place behind the last.
macro_rules! ends {
    ($name:ident, $first:ident, $behind:ident) => {
        #[inline(never)]
        fn $name(words: &Words, from: usize, to: usize, x: usize) -> (usize, usize) {
            let first = words.$first(from, to, x);
            (first, words.$behind(first, to, x + 1) - first)
        }
    };
}

ends!(scan_scan, scan, scan);
ends!(halves_scan, halves, scan);
ends!(halves_halves, halves, halves);
ends!(halves_gallop, halves, gallop);
ends!(gallop_gallop, gallop, gallop);
ends!(branchless_scan, branchless, scan);
ends!(branchless_branchless, branchless, branchless);

/// As the Rust crate does it.
#[inline(never)]
fn threshold_scan(words: &Words, from: usize, to: usize, x: usize) -> (usize, usize) {
    let first = if to - from < 16 { words.scan(from, to, x) } else { words.halves(from, to, x) };
    (first, words.scan(first, to, x + 1) - first)
}

/// Halves for the first place, which keep the least place known to be past the items, then halves up to that.
#[inline(never)]
fn halves_bounded(words: &Words, from: usize, to: usize, x: usize) -> (usize, usize) {
    let (mut low, mut high, mut past) = (from, to, to);
    while low < high {
        let middle = low + (high - low) / 2;
        let second = words.second(middle);
        if second < x {
            low = middle + 1;
        } else {
            high = middle;
            if second > x {
                past = middle;
            }
        }
    }
    (low, words.halves(low, past, x + 1) - low)
}

const WAYS: [(&str, Way); 9] = [
    ("scan_scan", scan_scan),
    ("threshold_scan", threshold_scan),
    ("halves_scan", halves_scan),
    ("halves_halves", halves_halves),
    ("halves_bounded", halves_bounded),
    ("halves_gallop", halves_gallop),
    ("gallop_gallop", gallop_gallop),
    ("branchless_scan", branchless_scan),
    ("branchless_branchless", branchless_branchless),
];

/// The places of a set, and the symbol looked for.
struct Lookup {
    from: usize,
    to: usize,
    symbol: usize,
}

/// A file: a line of rule words, one of item words, and a line for each lookup.
fn read(path: &str) -> (Words, Vec<Lookup>) {
    let text = fs::read_to_string(path).unwrap_or_else(|why| fail(&format!("{path}: {why}")));
    let numbers = |line: &str| line.split_whitespace().map(|word| word.parse::<usize>().expect("a number")).collect::<Vec<_>>();
    let mut lines = text.lines().map(numbers);
    let (rules, items) = (lines.next().expect("rules"), lines.next().expect("items"));
    let lookups: Vec<Lookup> = lines.map(|line| Lookup { from: line[0], to: line[1], symbol: line[2] }).collect();
    let words = Words {
        rules: rules.into_iter().map(|word| word.try_into().expect("a word of a rule")).collect(),
        items: items.into_iter().map(|word| word.try_into().expect("a word of an item")).collect(),
    };
    let items_fit = words.items.chunks(3).all(|item| item.len() == 3 && 3 * item[1] as usize + 2 < words.rules.len());
    let fits = |lookup: &Lookup| lookup.from <= lookup.to && 3 * lookup.to <= words.items.len();
    if !items_fit || !lookups.iter().all(fits) {
        fail(&format!("{path}: not rules, items and lookups"));
    }
    (words, lookups)
}

/// All ways find what looking at each item finds.
fn agree(words: &Words, lookups: &[Lookup]) {
    for &Lookup { from, to, symbol } in lookups {
        let count = |wanted: fn(&usize, &usize) -> bool| (from..to).filter(|&place| wanted(&words.second(place), &symbol)).count();
        let due = (from + count(usize::lt), count(usize::eq));
        for (name, way) in WAYS {
            let found = black_box(way)(words, from, to, symbol);
            if found != due {
                fail(&format!("{name} finds {found:?}, not {due:?}, for {symbol} among the items {from}..{to}"));
            }
        }
    }
}

/// The microseconds of so many passes over the lookups.
fn timed(words: &Words, lookups: &[Lookup], way: Way, passes: usize) -> f64 {
    let way = black_box(way);
    let begun = clock();
    for _ in 0..passes {
        for &Lookup { from, to, symbol } in lookups {
            black_box(way(words, from, to, symbol));
        }
    }
    (clock() - begun) as f64
}

fn report(words: &Words, lookups: &[Lookup]) {
    let passes = WAYS.map(|(_, way)| {
        let mut passes = 1;
        while timed(words, lookups, way, passes) < SAMPLE_MICROS {
            passes *= 2;
        }
        passes
    });
    let mut samples = WAYS.map(|_| vec![]);
    for round in 0..SAMPLES {
        for turn in 0..WAYS.len() {
            let k = (round + turn) % WAYS.len();
            let lookups_done = (passes[k] * lookups.len()) as f64;
            samples[k].push(1000.0 * timed(words, lookups, WAYS[k].1, passes[k]) / lookups_done);
        }
    }
    for ((name, _), mut samples) in WAYS.into_iter().zip(samples) {
        samples.sort_by(f64::total_cmp);
        println!("{name} {}", samples[SAMPLES / 2]);
    }
}

fn fail(why: &str) -> ! {
    eprintln!("searches: {why}");
    process::exit(1)
}

fn main() {
    let arguments: Vec<String> = env::args().skip(1).collect();
    let (path, timing) = match &arguments[..] {
        [path] => (path, true),
        [path, word] if word == "check" => (path, false),
        _ => fail("usage: searches FILE [check]"),
    };
    let (words, lookups) = read(path);
    agree(&words, &lookups);
    if timing {
        report(&words, &lookups);
    }
}
