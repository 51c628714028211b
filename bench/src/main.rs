//! Times the survey library against peers in one run:
//!   bench [--commit NAME] [--out FILE] [--rounds N] [--only TEXT] [--cases N]

mod check;
mod clock;
mod jobs;
#[path = "../../tests/outside/linked/src/library.rs"]
mod library;
mod memory;
mod options;
mod peers;
mod plant;
mod race;
mod scenes;
mod table;
mod timing;
mod walls;

use jobs::jobs;
use std::fs;
use table::Line;

/// Lines whose names agree up to a colon are of one curve.
fn curve(line: &Line) -> Option<&str> {
    line.scene.split_once(':').map(|parts| parts.0)
}

fn growth(before: Option<&Line>, line: &Line) -> Option<f64> {
    let before = before.filter(|other| curve(other).is_some() && curve(other) == curve(line))?;
    Some(line.microseconds / before.microseconds)
}

fn main() {
    let options = options::options();
    memory::keep();
    check::random(options.cases);
    check::joints();
    let mut text = table::introduction(&options.commit, options.rounds);
    print!("{text}");
    let mut before = None;
    for job in jobs().iter().filter(|j| j.name.contains(&options.only)) {
        let mut line = race::time(job, options.rounds);
        line.growth = growth(before.as_ref(), &line);
        print!("{}", line.text());
        text.push_str(&line.text());
        before = Some(line);
    }
    match options.out {
        Some(out) if options.only.is_empty() => fs::write(out, text).expect("the table is written"),
        _ => {}
    }
}
