//! The faults, each in a library of its own.

use crate::compare::Difference;
use crate::fault::Faulty;
use crate::wrong_booking::BOOKS;
use crate::wrong_buffers::{SPOILS, TRACES};
use crate::wrong_camera::CAMERAS;
use crate::wrong_cuttings::{CUT_LOOKS, WRITES};
use crate::wrong_gate::{WRONG, WRONG_STRUCK};
use crate::wrong_joints::JOINTS;
use crate::wrong_lengths::{LENGTHS, MAP_LENGTHS, SHORT_LENGTHS};
use crate::wrong_map::{MAP_SPOILS, MAP_TRACES};
use crate::wrong_map_rows::{FIRST_UNLIT, LIT_CELLS};
use crate::wrong_paint::LOOKS;
use crate::wrong_station::{RANGES, ROUNDINGS, WRONG_STATIONS};
use crate::wrong_tile_gates::{TILE_GATES, TILE_LENGTHS};
use crate::wrong_tiles::{TILE_BOOKS, TILE_COUNTERS, TILE_LOOKS, TILE_WRITES};

impl Faulty {
    pub fn all() -> Vec<Faulty> {
        let mut all = Faulty::painters();
        all.extend(Faulty::writers());
        all.extend(Faulty::gates());
        all.extend(Faulty::stations());
        all.extend(Faulty::maps());
        all.extend(Faulty::tiles());
        all
    }

    /// Wrong pictures, and right ones that are booked wrongly.
    fn painters() -> Vec<Faulty> {
        let looks = LOOKS.iter().chain(CAMERAS).chain(JOINTS).chain(CUT_LOOKS);
        let looks = looks.map(|&(name, look)| Faulty {
            look,
            ..Faulty::named(name, &[Difference::Picture])
        });
        let books = BOOKS.iter().map(|&(name, shows, book)| Faulty {
            book,
            ..Faulty::named(name, shows)
        });
        let writes = WRITES.iter().map(|&(name, shows, write)| Faulty {
            write,
            ..Faulty::named(name, shows)
        });
        looks.chain(books).chain(writes).collect()
    }

    fn writers() -> Vec<Faulty> {
        let spoils = SPOILS.iter().map(|&(name, shows, spoil)| Faulty {
            spoil,
            ..Faulty::named(name, &[shows])
        });
        let traces = TRACES.iter().map(|&(name, shows, trace)| Faulty {
            trace,
            ..Faulty::named(name, &[shows])
        });
        let full = Faulty {
            struck: true,
            ..Faulty::named(
                "13 at 128 stretches, though it is struck",
                &[Difference::Answer, Difference::Struck],
            )
        };
        spoils.chain(traces).chain([full]).collect()
    }

    fn gates() -> Vec<Faulty> {
        let both = [Difference::Gate, Difference::Answer];
        let wrong = WRONG.iter().chain(LENGTHS).map(|&(name, wrong)| Faulty {
            gate: wrong(),
            survey_gate: wrong(),
            ..Faulty::named(name, &both)
        });
        let struck = WRONG_STRUCK.iter().map(|&(name, wrong)| Faulty {
            gate: wrong(),
            survey_gate: wrong(),
            ..Faulty::named(name, &[both[0], both[1], Difference::Struck])
        });
        let short = SHORT_LENGTHS.iter().map(|&(name, wrong)| Faulty {
            gate: wrong(),
            ..Faulty::named(name, &[Difference::Gate])
        });
        wrong.chain(struck).chain(short).collect()
    }

    /// The map written wrongly, touched, or of another length.
    pub fn maps() -> Vec<Faulty> {
        let spoils = MAP_SPOILS.iter().map(|&(name, spoil)| Faulty {
            spoil,
            ..Faulty::named(name, &[Difference::Lit])
        });
        let traces = MAP_TRACES.iter().map(|&(name, trace)| Faulty {
            trace,
            ..Faulty::named(name, &[Difference::TouchedLit])
        });
        let gates = MAP_LENGTHS.iter().map(|&(name, wrong)| Faulty {
            gate: wrong(),
            survey_gate: wrong(),
            ..Faulty::named(name, &[Difference::Gate, Difference::Answer])
        });
        spoils.chain(traces).chain(gates).collect()
    }

    /// Tiles looked at, written, counted, refused or let pass wrongly.
    pub fn tiles() -> Vec<Faulty> {
        let looks = TILE_LOOKS.iter().map(|&(name, look)| Faulty {
            look,
            ..Faulty::named(name, &[Difference::Picture])
        });
        let writes = TILE_WRITES.iter().map(|&(name, shows, write)| Faulty {
            write,
            ..Faulty::named(name, &[shows])
        });
        let books = TILE_BOOKS.iter().map(|&(name, book)| Faulty {
            book,
            ..Faulty::named(name, &[Difference::PatchCounts, Difference::PanelSums])
        });
        let counters = TILE_COUNTERS.iter().map(|&(name, rises)| Faulty {
            rises,
            ..Faulty::named(name, &[Difference::Counter])
        });
        let gates = TILE_GATES.iter().chain(TILE_LENGTHS);
        let gates = gates.map(|&(name, wrong)| Faulty {
            gate: wrong(),
            survey_gate: wrong(),
            ..Faulty::named(name, &[Difference::Gate, Difference::Answer])
        });
        let written = writes.chain(books).chain(counters);
        looks.chain(written).chain(gates).collect()
    }

    /// The calls on a row of a map.
    pub fn map_rows() -> Vec<Faulty> {
        let lit = LIT_CELLS.iter().map(|&(name, row_lit)| Faulty {
            row_lit,
            ..Faulty::named(name, &[Difference::RowLit])
        });
        let first = FIRST_UNLIT.iter().map(|&(name, row_first_unlit)| Faulty {
            row_first_unlit,
            ..Faulty::named(name, &[Difference::RowFirstUnlit])
        });
        lit.chain(first).collect()
    }

    /// Stations in metres taken for others, refused or let pass.
    pub fn stations() -> Vec<Faulty> {
        let turned = |name: &str, turns, shows: &[Difference]| Faulty {
            turns,
            ..Faulty::named(name, shows)
        };
        let [picture, forms] = [Difference::Picture, Difference::Forms];
        let [answer, gate] = [Difference::Answer, Difference::Gate];
        let roundings = ROUNDINGS.iter();
        let roundings =
            roundings.map(|&(name, turn)| turned(name, [Some(turn); 2], &[picture, forms]));
        let ranges = RANGES.iter().flat_map(|&(name, turn)| {
            [
                turned(name, [Some(turn); 2], &[answer, gate]),
                turned(
                    &format!("{name}, by the survey"),
                    [Some(turn), None],
                    &[answer],
                ),
                turned(&format!("{name}, by the gate"), [None, Some(turn)], &[gate]),
            ]
        });
        let gates = WRONG_STATIONS.iter().map(|&(name, wrong)| Faulty {
            gate: wrong(),
            survey_gate: wrong(),
            ..Faulty::named(name, &[answer, gate])
        });
        let early = Faulty {
            early: true,
            ..Faulty::named("15 before all", &[answer, gate])
        };
        let turned = roundings.chain(ranges);
        turned.chain(gates).chain([early]).collect()
    }
}
