//! The table of ratios.

use crate::peers::PEERS;

/// One scene's times: ratios are library over peer.
pub struct Line {
    pub scene: String,
    /// Whole calls against each peer; none where the gate alone is timed.
    pub ratios: Vec<f64>,
    pub gate_ratio: f64,
    /// The gate's part of the library's call.
    pub gate_share: Option<f64>,
    pub microseconds: f64,
    /// The library's time over that of the line before in the same curve.
    pub growth: Option<f64>,
}

pub fn head() -> String {
    let mut titles = vec!["scene".to_string()];
    titles.extend(PEERS.iter().map(|peer| format!("÷ {}", peer.name)));
    titles.extend(
        [
            "gate ÷ gate",
            "gate %",
            "painting %",
            "library µs",
            "growth",
        ]
        .map(String::from),
    );
    let rule = vec!["---:"; titles.len() - 1].join(" | ");
    format!("| {} |\n| --- | {rule} |\n", titles.join(" | "))
}

impl Line {
    pub fn text(&self) -> String {
        let mut words = vec![self.scene.clone()];
        words.extend((0..PEERS.len()).map(|k| match self.ratios.get(k) {
            Some(ratio) => format!("{ratio:.2}"),
            None => String::new(),
        }));
        words.push(format!("{:.2}", self.gate_ratio));
        let share = |part: Option<f64>| part.map_or(String::new(), |p| format!("{:.0}", 100.0 * p));
        words.push(share(self.gate_share));
        words.push(share(self.gate_share.map(|part| 1.0 - part)));
        words.push(format!("{:.0}", self.microseconds));
        words.push(self.growth.map_or(String::new(), |n| format!("{n:.2}")));
        format!("| {} |\n", words.join(" | "))
    }
}

/// All that stands before the table's lines.
pub fn introduction(commit: &str, rounds: usize) -> String {
    format!(
        "# Benchmark\n\n\
         Commit: {commit}\n\n\
         Written by `bench/run.sh`: the library's time over each peer's, so below 1 the\n\
         library is faster. Medians of {rounds} interleaved rounds of processor time; the\n\
         microseconds, of the fastest round on one machine, are only a help; growth is\n\
         against the line before in a curve. The peers are in Rust, share one gate\n\
         (questions 1 to 12, 14 and 15) and give the same pictures, counts, patch counts,\n\
         unlit lists and lit maps, at joints too, which each run asserts: `rays` takes\n\
         each cell alone, `z-buffer` compares exact distances, `painter` paints the tree\n\
         back to front, `segments` front to back on unlit stretches. Stations are in\n\
         units, views level and 256×128 unless said. A window is drawn as one tile or, if\n\
         said, in several, whose calls are timed together, each with its own buffers; the\n\
         peers leave out, once a tile, the patches that reach none of its rows or columns.\n\n{}",
        head()
    )
}
