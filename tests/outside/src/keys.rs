//! What stands behind the keys of a stored case's block.

use crate::axes::Axes;
use crate::block::{Block, Reading};
use crate::call::{View, COUNTS, ROW, WORDS};
use crate::double::Double;
use crate::station::Station;
use crate::tile::Tile;

/// Station, camera and window; the station in metres only where the file knows
/// of these.
pub fn view(block: &mut Block, has_metres: bool) -> Reading<View> {
    let station = match has_metres && block.is_next("metres_bits") {
        true => Station::Metres(metres(block)?),
        false => Station::Units(block.numbers("eye")?),
    };
    let axes = Axes {
        right: block.numbers("right")?,
        forward: block.numbers("forward")?,
        up: block.numbers("up")?,
    };
    let [width, height, lens] = block.numbers("window")?;
    Ok(View {
        station,
        axes,
        width,
        height,
        lens,
    })
}

/// "the bits of the three doubles; the same in decimal, the shortest that reads
/// back as that double, or `NaN`, `inf`, `-inf`".
fn metres(block: &mut Block) -> Reading<[Double; 3]> {
    let doubles: [Double; 3] = block.numbers("metres_bits")?;
    let words: [String; 3] = block.numbers("metres")?;
    let is_told = |(double, word): (&Double, &String)| match double.is_nan() {
        true => word == "NaN",
        false => {
            let read_back: Reading<f64> = block.value(word);
            let same = read_back.is_ok_and(|value| Double::of(value) == *double);
            same && *word == format!("{:e}", double.value())
        }
    };
    match doubles.iter().zip(&words).all(is_told) {
        true => Ok(doubles),
        false => Err(block.wrong("not the shortest decimal of the bits")),
    }
}

/// Its rows from the top, of a tile or of a whole window.
pub fn picture(block: &mut Block, tile: &Tile) -> Reading<Vec<u16>> {
    let mut picture = Vec::new();
    for j in 0..usize::from(tile.height) {
        picture.extend(picture_row(block, j, tile.width)?);
    }
    Ok(picture)
}

/// "row j from the left as runs `number*how often`".
fn picture_row(block: &mut Block, j: usize, width: u16) -> Reading<Vec<u16>> {
    let runs = block.row::<u16>("picture_row", j, '*')?;
    let mut row = Vec::new();
    for (panel, often) in runs {
        row.extend(std::iter::repeat_n(panel, usize::from(often)));
    }
    match row.len() == usize::from(width) {
        true => Ok(row),
        false => Err(block.wrong("the row is not as wide as the picture")),
    }
}

/// "`panel:cells` of every entry that is not 0; all others are 0".
pub fn counts(block: &mut Block) -> Reading<Vec<u32>> {
    let mut counts = vec![0; COUNTS];
    let words = block.words("counts")?;
    for (panel, cells) in block.pairs::<u32>(&words, ':')? {
        match counts.get_mut(panel as usize) {
            Some(entry) if *entry == 0 && cells > 0 => *entry = cells,
            _ => return Err(block.wrong("no such entry, or one told twice or as 0")),
        }
    }
    Ok(counts)
}

/// "all entries".
pub fn patch_counts(block: &mut Block, key: &str, length: usize) -> Reading<Vec<u32>> {
    let entries = all_counts(block, key)?;
    match entries.len() == length {
        true => Ok(entries),
        false => Err(block.wrong("not as many entries as the table has")),
    }
}

/// However many they are.
pub fn all_counts(block: &mut Block, key: &str) -> Reading<Vec<u32>> {
    let words = block.words(key)?;
    words.into_iter().map(|word| block.value(word)).collect()
}

/// "row j's used pairs `offset:length`; the rest of the row is 0".
pub fn unlit_row(block: &mut Block, j: usize) -> Reading<Vec<u16>> {
    let pairs = block.row::<u16>("unlit_row", j, ':')?;
    let mut row: Vec<u16> = pairs.into_iter().flat_map(|(o, l)| [o, l]).collect();
    if row.len() > ROW {
        return Err(block.wrong("more pairs than a row holds"));
    }
    row.resize(ROW, 0);
    Ok(row)
}

/// "j, then row j's four words".
pub fn lit_row(block: &mut Block, j: usize) -> Reading<Vec<u64>> {
    let words = block.row_words("lit_row", j)?;
    match words.len() == WORDS {
        true => block.lit_words(&words),
        false => Err(block.wrong("not four words")),
    }
}
