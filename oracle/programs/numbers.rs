//! Whitespace-separated decimal numbers from standard input.

use std::fmt::Debug;
use std::io::{self, Read};
use std::str::FromStr;
use std::vec;

pub struct Numbers {
    words: vec::IntoIter<String>,
}

impl Numbers {
    pub fn from_stdin() -> Self {
        let mut text = String::new();
        io::stdin().read_to_string(&mut text).expect("standard input is text");
        Numbers::from_text(&text)
    }

    pub fn from_text(text: &str) -> Self {
        let words: Vec<String> = text.split_whitespace().map(String::from).collect();
        Numbers { words: words.into_iter() }
    }

    pub fn at_end(&self) -> bool {
        self.words.as_slice().is_empty()
    }

    pub fn next<T>(&mut self) -> T
        where T: FromStr, T::Err: Debug
    {
        self.words.next().expect("another number").parse().expect("a decimal number that fits")
    }

    pub fn list<T>(&mut self, length: usize) -> Vec<T>
        where T: FromStr, T::Err: Debug
    {
        (0..length).map(|_| self.next()).collect()
    }
}
