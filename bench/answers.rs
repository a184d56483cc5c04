//! Answers calls of the ordinary program, for `bench/compare`. Each line of standard input is one call, as decimal numbers: which call,
//! then the file's bytes, items, starts, rows, queue, store and tokens (the kinds of a position, the words of a run of them), each led by its length, then the
//! state's set number, item count and used units.
//! Each line of standard output is the answer: document 01's number, the call's own results, and all lent words.

use std::io::{self, BufRead, Write};

use ordinary::{Refusal, State, Words};

const CHECK: u64 = 0;
const START: u64 = 1;
const TOKEN: u64 = 2;
const RUN: u64 = 3;
const FINISHED: u64 = 4;
const LATEST_SET: u64 = 5;
const KINDS: u64 = 6;
const RUN_KINDS: u64 = 7;

fn number<T>(result: &Result<T, Refusal>) -> u64 {
    result.as_ref().err().map_or(0, |&refusal| refusal as u64)
}

fn list<T: TryFrom<u64>>(numbers: &mut impl Iterator<Item = u64>) -> Vec<T> {
    let count = numbers.next().expect("a length");
    (0..count).map(|_| numbers.next().and_then(|n| T::try_from(n).ok()).expect("a word")).collect()
}

fn answer(line: &str) -> Vec<u64> {
    let mut numbers = line.split_whitespace().map(|word| word.parse::<u64>().expect("a number"));
    let call = numbers.next().expect("a call");
    let file: Vec<u8> = list(&mut numbers);
    let mut items: Vec<u32> = list(&mut numbers);
    let mut starts: Vec<u32> = list(&mut numbers);
    let mut rows: Vec<u64> = list(&mut numbers);
    let mut queue: Vec<u32> = list(&mut numbers);
    let mut store: Vec<u16> = list(&mut numbers);
    let tokens: Vec<u16> = list(&mut numbers);
    let state = State {
        set: numbers.next().expect("a set number") as usize,
        items: numbers.next().expect("an item count") as usize,
        used: numbers.next().expect("used units") as usize,
    };
    let mut words = Words { items: &mut items, starts: &mut starts, rows: &mut rows, queue: &mut queue, store: &mut store };
    let told = |state: State| [state.set as u64, state.items as u64, state.used as u64];
    let mut out = Vec::new();
    match call {
        CHECK => out.push(number(&ordinary::check(&file))),
        START => {
            let result = ordinary::start(&file, &mut words);
            out.push(number(&result));
            out.extend(told(result.unwrap_or(state)));
        }
        TOKEN | KINDS => {
            let result = match call {
                TOKEN => ordinary::token(&file, state, &mut words, tokens[0]),
                _ => ordinary::kinds(&file, state, &mut words, &tokens),
            };
            out.push(number(&result));
            out.extend(told(result.unwrap_or(state)));
        }
        RUN | RUN_KINDS => {
            let run = if call == RUN { ordinary::run } else { ordinary::run_kinds };
            let ran = run(&file, state, &mut words, &tokens);
            out.push(ran.refusal.map_or(0, |refusal| refusal as u64));
            out.extend(told(ran.state));
            out.push(ran.taken as u64);
        }
        FINISHED => {
            let result = ordinary::finished(&file, state, &mut words);
            out.push(number(&result));
            let handle = result.unwrap_or(None);
            out.extend([u64::from(handle.is_some()), handle.map_or(u64::from(u32::MAX), u64::from)]);
        }
        LATEST_SET => {
            let result = ordinary::latest_set(&file, state, &mut words);
            out.push(number(&result));
            out.extend(result.unwrap_or(&[]).iter().map(|&word| u64::from(word)));
        }
        _ => panic!("no call {call}"),
    }
    for words in [&items, &starts, &queue] {
        out.extend(words.iter().map(|&word| u64::from(word)));
    }
    out.extend(rows);
    out.extend(store.into_iter().map(u64::from));
    out
}

fn main() -> io::Result<()> {
    let mut out = io::BufWriter::new(io::stdout().lock());
    for line in io::stdin().lock().lines() {
        let told: Vec<String> = answer(&line?).iter().map(u64::to_string).collect();
        writeln!(out, "{}", told.join(" "))?;
    }
    Ok(())
}
