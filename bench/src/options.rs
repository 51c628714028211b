//! The words of the command.

use std::env;

pub struct Options {
    pub commit: String,
    pub out: Option<String>,
    pub rounds: usize,
    pub only: String,
    /// Random cases that each peer is tried on first.
    pub cases: u64,
}

pub fn options() -> Options {
    let mut options = Options {
        commit: "unknown".to_string(),
        out: None,
        rounds: 25,
        only: String::new(),
        cases: 1_500,
    };
    let mut words = env::args().skip(1);
    while let Some(word) = words.next() {
        let value = words.next().expect("a word and its value");
        match word.as_str() {
            "--commit" => options.commit = value,
            "--out" => options.out = Some(value),
            "--rounds" => options.rounds = value.parse().expect("a number of rounds"),
            "--only" => options.only = value,
            "--cases" => options.cases = value.parse().expect("a number of cases"),
            _ => panic!("unknown word {word}"),
        }
    }
    options
}
