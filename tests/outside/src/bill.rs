//! What `ringbill` prints for an input.

use crate::axes::LEVEL;
use crate::call::{Call, View};
use crate::scene::{point_at, u16_at};
use crate::station::Station::Units;
use crate::survey::survey;

pub const SHORTEST: usize = 12;
pub const LONGEST: usize = 57_388;

/// "Input under 12 or over 57,388 bytes prints `refused 1`; a refusal prints
/// `refused N`."
pub fn bill(input: &[u8]) -> String {
    if !(SHORTEST..=LONGEST).contains(&input.len()) {
        return "refused 1\n".to_string();
    }
    // "`ringbill` keeps it": the old view.
    let view = View {
        station: Units(point_at(input, 0)),
        axes: LEVEL,
        width: u16_at(input, 6),
        height: u16_at(input, 8),
        lens: u16_at(input, 10),
    };
    match survey(&Call::new(input[SHORTEST..].to_vec(), view)) {
        Err(number) => format!("refused {number}\n"),
        Ok(done) => accepted(&view, &done.counts),
    }
}

/// "first line: width, height, lens; then each panel with a count, rising, and
/// its count; cells with none; all cells".
fn accepted(view: &View, counts: &[u32]) -> String {
    let mut lines = format!("view {} {} {}\n", view.width, view.height, view.lens);
    for (panel, count) in counts.iter().enumerate().skip(1) {
        if *count > 0 {
            lines += &format!("{panel} {count}\n");
        }
    }
    lines + &format!("nothing {}\ntotal {}\n", counts[0], view.cells())
}
