//! "A station arrives either as units or as three doubles in metres, and the two
//! forms are one kind of input."

use crate::double::Double;
use crate::vector::Point;

#[derive(Clone, Copy, Debug, PartialEq, Eq)]
pub enum Station {
    Units(Point),
    /// "Three doubles travel together as one station."
    Metres([Double; 3]),
}

use Station::*;

impl Station {
    pub fn metres(values: [f64; 3]) -> Station {
        Metres(values.map(Double::of))
    }

    pub fn is_in_metres(&self) -> bool {
        matches!(self, Metres(_))
    }

    /// In units, one part of it another.
    pub fn with_part(&self, axis: usize, n: i16) -> Station {
        let mut eye = self.eye();
        eye[axis] = n;
        Units(eye)
    }

    /// The whole-number station, unless question 15 refuses it; one in units is
    /// never asked.
    pub fn whole(&self) -> Option<Point> {
        match self {
            Units(eye) => Some(*eye),
            Metres(doubles) => {
                let [x, y, z] = doubles.map(Double::units);
                Some([x?, y?, z?])
            }
        }
    }

    /// The same, and something for a station that is refused: its calls show
    /// nothing of it.
    pub fn eye(&self) -> Point {
        self.whole().unwrap_or([0; 3])
    }
}
