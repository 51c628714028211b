//! Boards across wide rows. Their spans begin and end next to the ends of the lit
//! map's words, and often light a row from its first column on.

use crate::axes::LEVEL;
use crate::call::View;
use crate::random::Random;
use crate::soup::Corners;
use crate::station::Station::Units;

/// Widths at the ends of words, and between them.
const WIDTHS: &[i64] = &[64, 65, 66, 100, 127, 128, 129, 191, 192, 193, 255, 256];

pub fn boards(rng: &mut Random) -> (Vec<Corners>, View) {
    let (width, height) = (rng.pick(WIDTHS), rng.between(1, 3));
    let eye = [0; 3].map(|_| rng.between(-500, 500));
    let wanted = rng.between(1, 5);
    let boards = (0..wanted).map(|_| board(rng, [width, height], eye));
    let boards = boards.collect();
    let view = View {
        station: Units(eye.map(|n| n as i16)),
        axes: LEVEL,
        width: width as u16,
        height: height as u16,
        lens: 1,
    };
    (boards, view)
}

/// Over some columns and rows, at some distance: its sides lie midway between sight
/// lines, now and then on them.
fn board(rng: &mut Random, [width, height]: [i64; 2], eye: [i64; 3]) -> Corners {
    let far = rng.between(1, 12);
    let [first, last] = columns(rng, width);
    let [top, bottom] = match rng.once_in(2) {
        true => [0, height],
        false => [rng.between(0, height - 1), height],
    };
    let aside = rng.pick(&[0, 0, 0, -1, 1]);
    let side = |column: i64| far * (2 * column + aside - width);
    let up = |row: i64| far * (height - 2 * row);
    let [left, right] = [first, last + 1].map(side);
    let [low, high] = [bottom, top].map(up);
    let corners = [[left, low], [right, low], [right, high], [left, high]];
    let placed = corners.map(|[x, z]| [eye[0] + x, eye[1] + far, eye[2] + z]);
    placed.map(|p| p.map(|n| n as i16)).to_vec()
}

/// The first and the last.
fn columns(rng: &mut Random, width: i64) -> [i64; 2] {
    let word = 64 * rng.between(0, 3);
    let first = match rng.once_in(2) {
        true => 0,
        false => rng.pick(&[word - 1, word, word + 1]).clamp(0, width - 1),
    };
    let word = 64 * rng.between(1, 4);
    let ends = [word - 2, word - 1, word, width - 1, rng.between(0, 255)];
    [first, rng.pick(&ends).clamp(first, width - 1)]
}
