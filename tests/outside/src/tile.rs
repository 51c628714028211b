//! A tile of a window: "A tile's cells are those of the whole window's sight lines
//! at that place."

/// Its top left cell's column and row in the window, and its size.
#[derive(Clone, Copy, Debug, PartialEq, Eq)]
pub struct Tile {
    pub left: u16,
    pub top: u16,
    pub width: u16,
    pub height: u16,
}

/// "tiles of at most 256 by 128".
pub const WIDEST: u16 = 256;
pub const TALLEST: u16 = 128;

impl Tile {
    pub fn of([left, top, width, height]: [u16; 4]) -> Tile {
        Tile {
            left,
            top,
            width,
            height,
        }
    }

    pub fn numbers(&self) -> [u16; 4] {
        [self.left, self.top, self.width, self.height]
    }

    pub fn cells(&self) -> usize {
        usize::from(self.width) * usize::from(self.height)
    }

    /// Where each of its cells lies in the window, row after row from its top.
    pub fn places(&self) -> impl Iterator<Item = [usize; 2]> {
        let [left, top, width, height] = self.numbers().map(usize::from);
        (top..top + height).flat_map(move |y| (left..left + width).map(move |x| [x, y]))
    }

    /// Is the window's cell in column x and row y one of its own?
    pub fn holds(&self, [x, y]: [usize; 2]) -> bool {
        let [left, top, width, height] = self.numbers().map(usize::from);
        (left..left + width).contains(&x) && (top..top + height).contains(&y)
    }

    /// Is it "wholly inside" a window of this size? The sums are whole numbers.
    pub fn is_inside(&self, [width, height]: [u16; 2]) -> bool {
        let [left, top, own_width, own_height] = self.numbers().map(u32::from);
        left + own_width <= u32::from(width) && top + own_height <= u32::from(height)
    }
}
