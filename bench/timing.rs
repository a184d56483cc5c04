//! Times the proved library beside the ordinary program, and beside what runs today, on the inputs that inputs.py wrote.
//!
//!     timing DIRECTORY                             medians of all, as the tables of docs/SPEED.md
//!     timing DIRECTORY --growth                    how the time grows: with the tokens, the items of a set, the symbols
//!     timing DIRECTORY ENGINE GRAMMAR JOB COUNT    one job, COUNT times, for a tool that counts instructions
//!
//! The first two are called in the same way, on the same buffers at the largest capacities; each start clears them. What runs today is today.rs, whose parse
//! owns its vectors. The time is the process's own on its processor, so that others who use the machine count little.

use std::hint::black_box;
use std::{env, fs, iter, process, slice};

/// The words of a row: one a set.
const SET_ROW: usize = 8;

/// The largest capacities, in words.
const ITEM_WORDS: usize = 3 * 4096;
const START_WORDS: usize = 1024 + 1;
const ROW_WORDS: usize = SET_ROW * 1024;
const QUEUE_WORDS: usize = 2 * 1024;
const UNITS: usize = 32768;

/// A unit that holds nothing.
const FILLER: u16 = 0xFFFF;

const GRAMMARS: [&str; 4] = ["a", "b", "routing", "policy"];
const ENGINES: [(&str, Engine); 4] = [
    ("ordinary", Engine::Lent(ordinary_engine::CALLS)),
    ("proved", Engine::Lent(proved_engine::CALLS)),
    ("gearley", Engine::Today { forest: true }),
    ("gearley_bare", Engine::Today { forest: false }),
];

/// Samples of each job, and the least microseconds of one. A sample of `reload` is all sentences once.
const SAMPLES: usize = 11;
const SAMPLE_MICROS: f64 = 10_000.0;

/// The short sentences that are read to count instructions: as many for any COUNT, so that reading them cancels out.
const COUNTED: usize = 200;

unsafe extern "C" {
    /// C's: the processor time of this process, in microseconds where POSIX holds.
    safe fn clock() -> std::ffi::c_long;
}

/// A parse: its state and its words.
#[derive(Clone, PartialEq)]
struct Parse {
    set: usize,
    held: usize,
    used: usize,
    items: Vec<u32>,
    starts: Vec<u32>,
    rows: Vec<u64>,
    queue: Vec<u32>,
    store: Vec<u16>,
}

#[derive(Clone, Copy)]
enum Engine {
    Lent(Calls),
    Today { forest: bool },
}

/// The calls, answering by document 01's numbers.
#[derive(Clone, Copy)]
struct Calls {
    check: fn(&[u8]) -> u32,
    start: fn(&[u8], &mut Parse) -> u32,
    run: fn(&[u8], &mut Parse, &[u16]) -> (u32, usize),
    run_kinds: fn(&[u8], &mut Parse, &[u16]) -> (u32, usize),
    /// The number, and the handle where the tokens are a sentence.
    finished: fn(&[u8], &mut Parse) -> (u32, Option<u32>),
}

mod ordinary_engine {
    use super::{Calls, Parse};
    use ordinary::{Ran, Refusal, State, Words};

    pub const CALLS: Calls = Calls { check, start, run, run_kinds, finished };

    fn number<T>(result: &Result<T, Refusal>) -> u32 {
        result.as_ref().err().map_or(0, |&refusal| refusal as u32)
    }

    fn parts(parse: &mut Parse) -> (State, Words<'_>) {
        let Parse { set, held, used, items, starts, rows, queue, store } = parse;
        (State { set: *set, items: *held, used: *used }, Words { items, starts, rows, queue, store })
    }

    fn keep(parse: &mut Parse, state: State) {
        parse.set = state.set;
        parse.held = state.items;
        parse.used = state.used;
    }

    fn check(file: &[u8]) -> u32 {
        number(&ordinary::check(file))
    }

    fn start(file: &[u8], parse: &mut Parse) -> u32 {
        let (old, mut words) = parts(parse);
        let result = ordinary::start(file, &mut words);
        keep(parse, result.unwrap_or(old));
        number(&result)
    }

    fn kept(parse: &mut Parse, ran: Ran) -> (u32, usize) {
        keep(parse, ran.state);
        (ran.refusal.map_or(0, |refusal| refusal as u32), ran.taken)
    }

    fn run(file: &[u8], parse: &mut Parse, tokens: &[u16]) -> (u32, usize) {
        let (state, mut words) = parts(parse);
        let ran = ordinary::run(file, state, &mut words, tokens);
        kept(parse, ran)
    }

    fn run_kinds(file: &[u8], parse: &mut Parse, positions: &[u16]) -> (u32, usize) {
        let (state, mut words) = parts(parse);
        let ran = ordinary::run_kinds(file, state, &mut words, positions);
        kept(parse, ran)
    }

    fn finished(file: &[u8], parse: &mut Parse) -> (u32, Option<u32>) {
        let (state, mut words) = parts(parse);
        let result = ordinary::finished(file, state, &mut words);
        (number(&result), result.unwrap_or(None))
    }
}

/// The static library. Each slice is a pointer and a length, as include/brinesaddle.h has it.
mod proved_engine {
    use super::{Calls, Parse};

    pub const CALLS: Calls = Calls { check, start, run, run_kinds, finished };

    #[rustfmt::skip]
    unsafe extern "C" {
        fn brinesaddle_check(file: *const u8, file_len: usize) -> u32;
        fn brinesaddle_start(
            file: *const u8, file_len: usize, set: &mut usize, held: &mut usize, used: &mut usize,
            items: *mut u32, items_len: usize, starts: *mut u32, starts_len: usize,
            rows: *mut u64, rows_len: usize, queue: *mut u32, queue_len: usize, store: *mut u16, store_len: usize,
        ) -> u32;
        fn brinesaddle_run(
            file: *const u8, file_len: usize, set: &mut usize, held: &mut usize, used: &mut usize,
            items: *mut u32, items_len: usize, starts: *mut u32, starts_len: usize,
            rows: *mut u64, rows_len: usize, queue: *mut u32, queue_len: usize, store: *mut u16, store_len: usize,
            tokens: *const u16, tokens_len: usize, taken: &mut usize,
        ) -> u32;
        fn brinesaddle_run_kinds(
            file: *const u8, file_len: usize, set: &mut usize, held: &mut usize, used: &mut usize,
            items: *mut u32, items_len: usize, starts: *mut u32, starts_len: usize,
            rows: *mut u64, rows_len: usize, queue: *mut u32, queue_len: usize, store: *mut u16, store_len: usize,
            positions: *const u16, positions_len: usize, taken: &mut usize,
        ) -> u32;
        fn brinesaddle_finished(
            file: *const u8, file_len: usize, set: usize, held: usize, used: usize,
            items: *const u32, items_len: usize, starts: *const u32, starts_len: usize,
            rows: *const u64, rows_len: usize, queue: *const u32, queue_len: usize, store: *const u16, store_len: usize,
            yes: &mut u32, handle: &mut u32,
        ) -> u32;
    }

    fn check(file: &[u8]) -> u32 {
        // Here and below: the pointers and lengths are those of live slices, and no two of those lent for writing overlap.
        unsafe { brinesaddle_check(file.as_ptr(), file.len()) }
    }

    #[rustfmt::skip]
    fn start(file: &[u8], parse: &mut Parse) -> u32 {
        let Parse { set, held, used, items, starts, rows, queue, store } = parse;
        unsafe {
            brinesaddle_start(
                file.as_ptr(), file.len(), set, held, used,
                items.as_mut_ptr(), items.len(), starts.as_mut_ptr(), starts.len(),
                rows.as_mut_ptr(), rows.len(), queue.as_mut_ptr(), queue.len(), store.as_mut_ptr(), store.len(),
            )
        }
    }

    #[rustfmt::skip]
    fn run(file: &[u8], parse: &mut Parse, tokens: &[u16]) -> (u32, usize) {
        let Parse { set, held, used, items, starts, rows, queue, store } = parse;
        let mut taken = 0;
        let number = unsafe {
            brinesaddle_run(
                file.as_ptr(), file.len(), set, held, used,
                items.as_mut_ptr(), items.len(), starts.as_mut_ptr(), starts.len(),
                rows.as_mut_ptr(), rows.len(), queue.as_mut_ptr(), queue.len(), store.as_mut_ptr(), store.len(),
                tokens.as_ptr(), tokens.len(), &mut taken,
            )
        };
        (number, taken)
    }

    #[rustfmt::skip]
    fn run_kinds(file: &[u8], parse: &mut Parse, positions: &[u16]) -> (u32, usize) {
        let Parse { set, held, used, items, starts, rows, queue, store } = parse;
        let mut taken = 0;
        let number = unsafe {
            brinesaddle_run_kinds(
                file.as_ptr(), file.len(), set, held, used,
                items.as_mut_ptr(), items.len(), starts.as_mut_ptr(), starts.len(),
                rows.as_mut_ptr(), rows.len(), queue.as_mut_ptr(), queue.len(), store.as_mut_ptr(), store.len(),
                positions.as_ptr(), positions.len(), &mut taken,
            )
        };
        (number, taken)
    }

    #[rustfmt::skip]
    fn finished(file: &[u8], parse: &mut Parse) -> (u32, Option<u32>) {
        let Parse { set, held, used, items, starts, rows, queue, store } = parse;
        let (mut yes, mut handle) = (0, 0);
        let number = unsafe {
            brinesaddle_finished(
                file.as_ptr(), file.len(), *set, *held, *used,
                items.as_ptr(), items.len(), starts.as_ptr(), starts.len(),
                rows.as_ptr(), rows.len(), queue.as_ptr(), queue.len(), store.as_ptr(), store.len(),
                &mut yes, &mut handle,
            )
        };
        (number, (yes == 1).then_some(handle))
    }
}

impl Parse {
    fn new() -> Parse {
        Parse {
            set: 0,
            held: 0,
            used: 0,
            items: vec![0; ITEM_WORDS],
            starts: vec![0; START_WORDS],
            rows: vec![0; ROW_WORDS],
            queue: vec![0; QUEUE_WORDS],
            store: vec![0; UNITS],
        }
    }

    /// A fresh parse again, where one token was taken since.
    fn undo_one(&mut self) {
        self.items[..3 * self.held].fill(0);
        self.starts[..3].fill(0);
        self.rows[SET_ROW..2 * SET_ROW].fill(0);
        self.store[..self.used].fill(FILLER);
        (self.set, self.held, self.used) = (0, 0, 0);
    }
}

/// A grammar with its sentences, and the words of the positions of the long one. Those that tell how the time grows have a long one alone.
struct Input {
    name: String,
    file: Vec<u8>,
    today: today::Grammar,
    short: Vec<Vec<u16>>,
    long: Vec<u16>,
    kinds: Vec<u16>,
}

fn text(path: String) -> String {
    fs::read_to_string(&path).unwrap_or_else(|why| fail(&format!("{path}: {why}")))
}

fn numbers(line: &str) -> Vec<u16> {
    line.split(' ').map(|number| number.parse().expect("a number")).collect()
}

impl Input {
    /// With so many short sentences, or all.
    fn read(directory: &str, name: &str, most: usize) -> Input {
        let path = |kind: &str| format!("{directory}/{name}.{kind}");
        let file = fs::read(path("grammar")).unwrap_or_else(|why| fail(&format!("{}: {why}", path("grammar"))));
        let is_whole = GRAMMARS.contains(&name);
        Input {
            name: name.to_string(),
            today: today::Grammar::new(&file),
            file,
            short: if is_whole { text(path("short")).lines().take(most).map(numbers).collect() } else { vec![] },
            long: numbers(text(path("long")).trim_end()),
            kinds: if is_whole { numbers(text(path("kinds")).trim_end()) } else { vec![] },
        }
    }
}

#[derive(Clone, Copy, PartialEq)]
enum Job {
    /// The grammar check alone.
    Check,
    /// A start.
    Start,
    /// A run of no token on a fresh parse: the checks and the table.
    Empty,
    /// A run of one token on a fresh parse.
    One,
    /// A question whether the parse is finished, after a short sentence.
    Finished,
    /// Start, run and finished for a short sentence.
    Reload,
    /// Start and a run of the long sentence.
    Long,
    /// The same, as positions of several kinds.
    Kinds,
}

const JOBS: [(&str, Job); 8] = [
    ("check", Job::Check),
    ("start", Job::Start),
    ("empty", Job::Empty),
    ("one", Job::One),
    ("finished", Job::Finished),
    ("reload", Job::Reload),
    ("long", Job::Long),
    ("kinds", Job::Kinds),
];

fn read_sentence(calls: Calls, input: &Input, parse: &mut Parse, tokens: &[u16]) -> Option<u32> {
    expect((calls.start)(&input.file, parse), 0);
    expect((calls.run)(&input.file, parse, tokens), (0, tokens.len()));
    finished(calls, input, parse)
}

fn finished(calls: Calls, input: &Input, parse: &mut Parse) -> Option<u32> {
    let (number, handle) = (calls.finished)(&input.file, parse);
    expect(number, 0);
    handle
}

/// Does a job `count` times, from a parse that a start or a sentence has left; answers the microseconds, where the engine can do it.
fn timed(engine: Engine, input: &Input, job: Job, count: usize, parse: &mut Parse) -> Option<f64> {
    match engine {
        Engine::Lent(calls) => Some(timed_lent(calls, input, job, count, parse)),
        Engine::Today { forest } => timed_today(input, job, count, forest),
    }
}

fn timed_lent(calls: Calls, input: &Input, job: Job, count: usize, parse: &mut Parse) -> f64 {
    let file = &input.file;
    if job == Job::Finished {
        read_sentence(calls, input, parse, &input.short[0]);
    } else {
        expect((calls.start)(file, parse), 0);
    }
    let begun = clock();
    for turn in 0..count {
        let file = black_box(file);
        match job {
            Job::Check => expect((calls.check)(file), 0),
            Job::Start => expect((calls.start)(file, parse), 0),
            Job::Empty => expect((calls.run)(file, parse, &[]), (0, 0)),
            Job::One => {
                expect((calls.run)(file, parse, &input.short[0][..1]), (0, 1));
                parse.undo_one();
            }
            Job::Finished => expect((calls.finished)(file, parse).1.is_some(), true),
            Job::Reload => expect(read_sentence(calls, input, parse, &input.short[turn % input.short.len()]).is_some(), true),
            Job::Long => {
                expect((calls.start)(file, parse), 0);
                expect((calls.run)(file, parse, &input.long), (0, input.long.len()));
            }
            Job::Kinds => {
                expect((calls.start)(file, parse), 0);
                expect((calls.run_kinds)(file, parse, &input.kinds), (0, input.long.len()));
            }
        }
    }
    (clock() - begun) as f64
}

/// What runs today has no check of a grammar or a state. Its tables are made before, and a parse is started anew each time.
fn timed_today(input: &Input, job: Job, count: usize, forest: bool) -> Option<f64> {
    if matches!(job, Job::Check | Job::Empty | Job::One | Job::Finished) {
        return None;
    }
    let begun = clock();
    for turn in 0..count {
        let today = black_box(&input.today);
        let ended = match job {
            Job::Reload => today.read(forest, single(&input.short[turn % input.short.len()])),
            Job::Long => today.read(forest, single(&input.long)),
            Job::Kinds => today.read(forest, Positions(&input.kinds)),
            _ => today.read(forest, iter::empty()),
        };
        expect(black_box(ended).finished, job == Job::Reload || ended.finished);
    }
    Some((clock() - begun) as f64)
}

/// Each token as a position.
fn single(tokens: &[u16]) -> impl Iterator<Item = &[u16]> {
    tokens.iter().map(slice::from_ref)
}

/// The positions in words that cut none off.
struct Positions<'a>(&'a [u16]);

impl<'a> Iterator for Positions<'a> {
    type Item = &'a [u16];

    fn next(&mut self) -> Option<&'a [u16]> {
        let (&count, rest) = self.0.split_first()?;
        let (kinds, rest) = rest.split_at(usize::from(count));
        self.0 = rest;
        Some(kinds)
    }
}

/// Both leave the same words and nodes behind each of the first short sentences, behind the long one and behind its positions; and what runs today the same number
/// of sets and items.
fn agree(input: &Input) {
    let both = [ordinary_engine::CALLS, proved_engine::CALLS];
    let mut parses = [Parse::new(), Parse::new()];
    for tokens in input.short.iter().take(200).chain([&input.long]) {
        let answers = [0, 1].map(|k| read_sentence(both[k], input, &mut parses[k], tokens));
        compare(input, answers, &parses, |forest| input.today.read(forest, single(tokens)));
    }
    if !input.kinds.is_empty() {
        let answers = [0, 1].map(|k| {
            expect((both[k].start)(&input.file, &mut parses[k]), 0);
            expect((both[k].run_kinds)(&input.file, &mut parses[k], &input.kinds), (0, input.long.len()));
            finished(both[k], input, &mut parses[k])
        });
        compare(input, answers, &parses, |forest| input.today.read(forest, Positions(&input.kinds)));
    }
}

fn compare(input: &Input, answers: [Option<u32>; 2], parses: &[Parse; 2], read_today: impl Fn(bool) -> today::Ended) {
    if answers[0] != answers[1] || parses[0] != parses[1] {
        fail(&format!("the two part on grammar {}", input.name));
    }
    let due = today::Ended { set: parses[0].set, items: parses[0].held, finished: answers[0].is_some() };
    for forest in [false, true] {
        expect(read_today(forest), due);
    }
}

fn median(mut samples: Vec<f64>) -> f64 {
    samples.sort_by(f64::total_cmp);
    samples[samples.len() / 2]
}

/// Microseconds of a job, or nothing where the engine cannot do it.
type Times = [Option<f64>; ENGINES.len()];

/// The medians of all, a job. Their samples alternate.
fn medians(input: &Input, job: Job) -> Times {
    let mut parse = Parse::new();
    let trial = 10;
    let once = timed(ENGINES[0].1, input, job, trial, &mut parse).map_or(0.0, |time| time / trial as f64);
    let count = match job {
        Job::Reload => input.short.len(),
        _ => (SAMPLE_MICROS / once.max(0.1)).ceil() as usize,
    };
    let samples = if job == Job::Reload { SAMPLES / 2 } else { SAMPLES };
    let mut times = ENGINES.map(|_| vec![]);
    for _ in 0..samples {
        for ((_, engine), times) in ENGINES.iter().zip(&mut times) {
            times.extend(timed(*engine, input, job, count, &mut parse).map(|time| time / count as f64));
        }
    }
    times.map(|times| (!times.is_empty()).then(|| median(times)))
}

/// What the tokens of a long run take: less the start, and less the checks and the table of a run.
fn tokens_of(long: Times, start: Times, empty: Times, count: usize) -> Times {
    std::array::from_fn(|k| Some((long[k]? - start[k]? - empty[k].unwrap_or(0.0)) / count as f64))
}

fn heading(title: &str) {
    println!("\n| {title} | ordinary | proved | ratio | gearley | ratio | without its forest | ratio |\n|---|---|---|---|---|---|---|---|");
}

/// A row: the proved library's ratio to each of the others.
fn row(label: &str, [ordinary, proved, gearley, bare]: Times) {
    let told = |time: Option<f64>| time.map_or(String::new(), |time| format!("{time:.3}"));
    let ratio = |other: Option<f64>| proved.zip(other).map_or(String::new(), |(ours, theirs)| format!("{:.2}", ours / theirs));
    println!(
        "| {label} | {} | {} | {} | {} | {} | {} | {} |",
        told(ordinary), told(proved), ratio(ordinary), told(gearley), ratio(gearley), told(bare), ratio(bare)
    );
}

fn report(directory: &str) {
    for name in GRAMMARS {
        let input = Input::read(directory, name, usize::MAX);
        agree(&input);
        heading(&format!("{name}, µs"));
        let times = JOBS.map(|(label, job)| {
            let times = medians(&input, job);
            row(label, times);
            times
        });
        let [_, start, empty, .., long, kinds] = times;
        row("a token of the long run", tokens_of(long, start, empty, input.long.len()));
        row("a position of several kinds", tokens_of(kinds, start, empty, input.long.len()));
    }
}

fn growth(directory: &str) {
    heading("a token, µs");
    for name in text(format!("{directory}/growth")).lines() {
        let input = Input::read(directory, name, usize::MAX);
        agree(&input);
        let [start, empty, long] = [Job::Start, Job::Empty, Job::Long].map(|job| medians(&input, job));
        row(name, tokens_of(long, start, empty, input.long.len()));
    }
    heading("a call, µs");
    for name in GRAMMARS {
        let input = Input::read(directory, name, usize::MAX);
        for (label, job) in JOBS.into_iter().filter(|(_, job)| matches!(job, Job::Check | Job::Start | Job::Empty | Job::One)) {
            row(&format!("{name}: {label}"), medians(&input, job));
        }
    }
}

fn expect<T: PartialEq + std::fmt::Debug>(given: T, due: T) {
    if given != due {
        fail(&format!("a call answered {given:?}, not {due:?}"));
    }
}

fn fail(why: &str) -> ! {
    eprintln!("timing: {why}");
    process::exit(1)
}

fn named<T: Copy>(table: &[(&str, T)], name: &str) -> T {
    table.iter().find(|(known, _)| *known == name).map_or_else(|| fail(&format!("no {name}")), |&(_, value)| value)
}

fn main() {
    let arguments: Vec<String> = env::args().skip(1).collect();
    let words: Vec<&str> = arguments.iter().map(String::as_str).collect();
    match words[..] {
        [directory] => report(directory),
        [directory, "--growth"] => growth(directory),
        [directory, engine, grammar, job, count] => {
            let count = count.parse().unwrap_or_else(|_| fail("COUNT is a number"));
            let input = Input::read(directory, grammar, COUNTED);
            let done = timed(named(&ENGINES, engine), &input, named(&JOBS, job), count, &mut Parse::new());
            done.unwrap_or_else(|| fail(&format!("{engine} has no {job}")));
        }
        _ => fail("usage: timing DIRECTORY [--growth | ENGINE GRAMMAR JOB COUNT]"),
    }
}
