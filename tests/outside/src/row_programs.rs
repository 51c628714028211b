//! The two programs by which rows are asked, and what is put to them.

use crate::program::printed;
use crate::row::{span, Span};
use crate::scene::u16_at;

/// Who lays spans and makes the worst ones; the answers are text as the
/// programs write it.
pub trait Rows {
    /// A line for each of the spans, laid in order on a fresh row.
    fn laid(&self, width: u16, spans: &[Span]) -> String;
    /// A line for each number k, of the maker's k-th span.
    fn worst(&self, numbers: &[u64]) -> String;
}

/// `rows_laid` and `rows_worst`, by their paths.
pub struct Programs {
    pub laid: String,
    pub worst: String,
}

impl Rows for Programs {
    fn laid(&self, width: u16, spans: &[Span]) -> String {
        printed(&self.laid, &laid_input(width, spans))
    }

    fn worst(&self, numbers: &[u64]) -> String {
        printed(&self.worst, &worst_input(numbers))
    }
}

/// The width, then each span's first and last column.
fn laid_input(width: u16, spans: &[Span]) -> Vec<u8> {
    let ends = spans.iter().flat_map(|span| [span.first, span.last]);
    let numbers = [width].into_iter().chain(ends);
    numbers.flat_map(u16::to_le_bytes).collect()
}

fn worst_input(numbers: &[u64]) -> Vec<u8> {
    numbers.iter().flat_map(|k| k.to_le_bytes()).collect()
}

/// What the programs would write for an input of theirs.
pub fn written_for_laid(rows: &dyn Rows, input: &[u8]) -> String {
    let spans = input[2..].chunks_exact(4);
    let spans: Vec<Span> = spans.map(|s| span(u16_at(s, 0), u16_at(s, 2))).collect();
    rows.laid(u16_at(input, 0), &spans)
}

pub fn written_for_worst(rows: &dyn Rows, input: &[u8]) -> String {
    let number = |bytes: &[u8]| u64::from_le_bytes(bytes.try_into().expect("8 bytes"));
    let numbers: Vec<u64> = input.chunks_exact(8).map(number).collect();
    rows.worst(&numbers)
}
