//! Stored cases altered in one place: each must be unreadable or differ.

use std::slice::from_ref;

use crate::block::{Block, Reading};
use crate::cases::{files, said, said_by, File, Said};
use crate::compare::check_due;
use crate::double::Double;
use crate::map_compare::answers_apart;
use crate::random::Random;
use crate::row_cases::RowCase;
use crate::row_fault::Laying;
use crate::tile_cases::groups_hold;
use crate::trial::Trial;

/// The keys of what is due, and of what is told twice; a change of another number
/// need not show.
const DUE: &[&str] = &[
    "metres_bits",
    "metres",
    "group",
    "tiles",
    "answer",
    "picture_row",
    "counts",
    "patch_counts",
    "patch_counts_a",
    "patch_counts_b",
    "unlit_row",
    "lit_row",
    "row_lit",
    "row_first_unlit",
    "counter_after",
    "bound",
    "reach",
    "span",
];

type Lines = Vec<String>;

fn key(line: &str) -> &str {
    line.split(' ').next().unwrap_or("")
}

fn read(lines: &Lines, file: &File) -> Reading<Said> {
    let text = lines.join("\n");
    said_by(Block::of(&text, 1)?, file)
}

/// Is block k unreadable, does it disagree with what was due before, or does a group
/// of the file's tiles not hold together any more?
fn is_seen(lines: &Lines, file: &File, (told, k): (&mut [Said], usize), rng: &mut Random) -> bool {
    let Ok(mut other) = read(lines, file) else {
        return true;
    };
    if differs(&told[k], &other, rng) {
        return true;
    }
    std::mem::swap(&mut told[k], &mut other);
    let broken = groups_hold(told).is_err();
    told[k] = other;
    broken
}

fn differs(before: &Said, other: &Said, rng: &mut Random) -> bool {
    match (before, other) {
        (Said::Calls(before), Said::Calls(others)) => calls_differ(before, others, rng),
        (Said::Tile(_, before), Said::Tile(_, other)) => {
            calls_differ(from_ref(before), from_ref(other), rng)
        }
        (Said::Row(before), Said::Row(other)) => rows_differ(before, other),
        (Said::Map(before), Said::Map(other)) => !answers_apart(before.due, other.due).is_empty(),
        _ => false,
    }
}

fn calls_differ(before: &[Trial], others: &[Trial], rng: &mut Random) -> bool {
    before.iter().zip(others).any(|(trial, other)| {
        let outcome = check_due(&trial.due, &other.call, &other.due, rng);
        !outcome.differences.is_empty()
    })
}

/// Bounds are held to the model: of the maker's spans they say nothing.
fn rows_differ(before: &RowCase, other: &RowCase) -> bool {
    let found = match before {
        RowCase::Spans(laid) => other.check(laid),
        _ => other.check(&Laying::right()),
    };
    !found.is_empty()
}

/// Does the digit belong to a NaN's bits? With another payload it is due the
/// same.
fn is_of_nan(line: &str, at: usize) -> bool {
    let word = line[..at].matches(' ').count();
    let word = line.split(' ').nth(word).unwrap_or("");
    word.parse().is_ok_and(Double::is_nan)
}

/// The line with one digit behind its key changed, or behind the columns of a
/// span; a table without entries has none, and gets one.
fn renumbered(line: &str, rng: &mut Random) -> String {
    let base = match key(line) {
        "metres_bits" | "lit_row" => 16,
        _ => 10,
    };
    let digit_at = |at: usize| char::from(line.as_bytes()[at]).to_digit(base);
    let is_free = |at: usize| key(line) == "metres_bits" && is_of_nan(line, at);
    let is_digit = |at: &usize| digit_at(*at).is_some() && !is_free(*at);
    let from = line.find(" looked ").unwrap_or(key(line).len());
    let digits: Vec<usize> = (from..line.len()).filter(is_digit).collect();
    if digits.is_empty() {
        return format!("{line} 0");
    }
    let at = rng.pick(&digits);
    let step = 1 + rng.below(base as usize - 1) as u32;
    let other = digit_at(at).map_or(0, |digit| (digit + step) % base);
    let other = char::from_digit(other, base).unwrap_or('0');
    format!("{}{other}{}", &line[..at], &line[at + 1..])
}

/// Each line in turn left out, doubled, under another key and, where it says
/// what is due, with another number.
fn alterations(lines: &Lines, rng: &mut Random) -> Vec<Lines> {
    let mut all = Vec::new();
    for (k, line) in lines.iter().enumerate() {
        let mut others = vec![vec![], vec![line.clone(), line.clone()]];
        others.push(vec![line.replacen(key(line), "other", 1)]);
        if DUE.contains(&key(line)) {
            others.push(vec![renumbered(line, rng)]);
        }
        all.extend(others.into_iter().map(|other| {
            let mut altered = lines.clone();
            altered.splice(k..k + 1, other);
            altered
        }));
    }
    all
}

/// Alters every line of every block, one at a time; gives how many alterations
/// were seen and how many were not.
pub fn every_line() -> Reading<(usize, usize)> {
    let (mut seen, mut missed) = (0, 0);
    for (file, text) in files()? {
        let mut rng = Random::new(1, text.len() as u64);
        let mut told = said(&text, file)?;
        for (k, part) in text.trim_end().split("\n\n").skip(1).enumerate() {
            let lines: Lines = part.lines().map(str::to_string).collect();
            for altered in alterations(&lines, &mut rng) {
                if is_seen(&altered, file, (&mut told, k), &mut rng) {
                    seen += 1;
                } else {
                    missed += 1;
                    println!("MISSED in {}:\n{}", file.name, altered.join("\n"));
                }
            }
        }
    }
    Ok((seen, missed))
}

/// A file that does not say what it is, with its blocks out of order, or with
/// a block of another kind, is refused.
pub fn files_are_refused() -> Reading<bool> {
    let files = files()?;
    let first = |text: &str| text.split("\n\n").nth(1).unwrap_or("").to_string();
    let is_refused = |(k, (file, text)): (usize, &(&File, String))| {
        let second = text.split("\n\n").nth(2).unwrap_or("");
        let mut broken = vec![
            text.replacen("# ", "", 1),
            text.trim_end().to_string(),
            text.replacen("\n\n", "\n\n\n", 2),
            format!("{text}\n# said too late\n"),
            format!("# a file\n\n{second}\n"),
        ];
        let other = first(&files[(k + 1) % files.len()].1);
        if key(&other) != key(second) {
            broken.push(format!("# a file\n\n{other}\n"));
        }
        broken.iter().all(|text| said(text, file).is_err())
    };
    Ok(files.iter().enumerate().all(is_refused))
}
