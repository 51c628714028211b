//! Gates that are right but for one thing; the cases must find each. Those
//! with another question 11 are in `wrong_lengths`, with another question 15 in
//! `wrong_station`.

use crate::gate::*;
use crate::scene::u16_at;
use crate::wrong_questions::*;

pub type WrongGate = (&'static str, fn() -> Gate);

pub const WRONG: &[WrongGate] = &[
    ("1: any version", || sized(|b| fits(b) && u16_at(b, 2) == 0)),
    ("1: zero field ignored", || {
        sized(|b| fits(b) && u16_at(b, 0) == 1)
    }),
    ("1: up to 65,535 bytes", || {
        sized(|b| b.len() < 65_536 && b.len() > 31 && heads(b))
    }),
    ("1 after 2", || {
        sized(|b| size_and_version(b) || (fits(b) && !sections_follow(b)))
    }),
    ("2: 1,025 nodes", || {
        sectioned(|b| sections_within(b, [1_025, 1_024, 4_096]))
    }),
    ("2: 1,025 patches", || {
        sectioned(|b| sections_within(b, [1_024, 1_025, 4_096]))
    }),
    ("2: 4,097 corners", || {
        sectioned(|b| sections_within(b, [1_024, 1_024, 4_097]))
    }),
    ("2: a tail allowed", || sectioned(tail_allowed)),
    ("2: a gap allowed", || sectioned(gap_allowed)),
    ("3: nodes unseen", || {
        asked(3, |_, s| s.corners.iter().all(in_range))
    }),
    ("3: corners unseen", || {
        asked(3, |_, s| {
            s.nodes.iter().all(|n| n.points.iter().all(in_range))
        })
    }),
    ("3: 10,001 passes", || {
        asked(3, |_, s| coordinates_within(s, -10_000, 10_001))
    }),
    ("3: −10,001 passes", || {
        asked(3, |_, s| coordinates_within(s, -10_001, 10_000))
    }),
    ("4: left out", || without(4)),
    ("5: named twice", || {
        asked(5, |_, s| children_above(s) && named(s).all(|n| n > 0))
    }),
    ("5: never named", || {
        asked(5, |_, s| children_above(s) && named(s).all(|n| n < 2))
    }),
    ("5: own number passes", || {
        asked(5, |_, s| children_not_below(s) && named(s).all(|n| n > 0))
    }),
    ("6: an empty run anywhere", || asked(6, empty_anywhere)),
    ("6: unused patches", || asked(6, unused_patches)),
    ("6: unused corners", || asked(6, unused_corners)),
    ("6: two corners", || asked(6, |_, s| cornered(s, 2, 8))),
    ("6: nine corners", || asked(6, |_, s| cornered(s, 3, 9))),
    ("6: runs in any order", || asked(6, any_order)),
    ("7: any panel", || asked(7, |_, s| panels_never_fall(s))),
    ("7: panel 0", || {
        asked(7, |_, s| {
            panels_never_fall(s) && s.records.iter().all(|r| r.panel <= 1_024)
        })
    }),
    ("7: falling passes", || asked(7, |_, s| panels_in_range(s))),
    ("7: equal refused", || asked(7, equal_refused)),
    ("8: flatness unseen", || {
        asked(8, |_, s| s.patches().iter().all(strictly_convex))
    }),
    ("8: first three only", || {
        asked(8, |_, s| {
            s.patches().iter().all(|p| flat(p) && turn(p, 0, 1, 2) > 0)
        })
    }),
    ("8: next corner only", || asked(8, next_corner_only)),
    ("8: in line passes", || asked(8, in_line_passes)),
    ("8: one way round only", || asked(8, one_way_round)),
    ("9: parent only", || asked(9, parent_only)),
    ("9: own plane unseen", || {
        asked(9, |_, s| sides(s, false, true))
    }),
    ("9: wholly on it passes", || {
        asked(9, |_, s| sides(s, true, false))
    }),
    ("9: sides in 32 bits", || asked(9, sides_in_32_bits)),
    ("9: touching refused", || asked(9, touching_refused)),
    ("10: eye unseen", || {
        asked(10, |c, _| {
            window_within(c, [1_024, 512, 4_096]) && tile_fits(c)
        })
    }),
    ("10: width 1,025", || {
        windowed(|c, _| window_within(c, [1_025, 512, 4_096]))
    }),
    ("10: height 513", || {
        windowed(|c, _| window_within(c, [1_024, 513, 4_096]))
    }),
    ("10: lens 4,097", || {
        windowed(|c, _| window_within(c, [1_024, 512, 4_097]))
    }),
    ("10: width 1,023 at most", || {
        windowed(|c, _| window_within(c, [1_023, 512, 4_096]))
    }),
    ("10: height 511 at most", || {
        windowed(|c, _| window_within(c, [1_024, 511, 4_096]))
    }),
    ("10: width 256 at most, as before", || {
        windowed(|c, _| window_within(c, [256, 512, 4_096]))
    }),
    ("10: height 128 at most, as before", || {
        windowed(|c, _| window_within(c, [1_024, 128, 4_096]))
    }),
    ("10: width and height exchanged", || {
        windowed(|c, _| {
            let exchanged = c.with(&|c| std::mem::swap(&mut c.view.width, &mut c.view.height));
            window_within(&exchanged, [1_024, 512, 4_096])
        })
    }),
    ("10: lens 0", || {
        windowed(|c, _| {
            window_within(
                &c.with(&|c| c.view.lens = c.view.lens.max(1)),
                [1_024, 512, 4_096],
            )
        })
    }),
    ("14: left out", || without(14)),
    ("14: 101 passes", || {
        asked(14, |c, _| axes_fit(c, -100, 101))
    }),
    ("14: −101 passes", || {
        asked(14, |c, _| axes_fit(c, -101, 100))
    }),
    ("14: 99 at most", || asked(14, |c, _| axes_fit(c, -100, 99))),
    ("14: −99 at least", || {
        asked(14, |c, _| axes_fit(c, -99, 100))
    }),
    ("14: first part of right unseen", || asked(14, unseen::<0>)),
    ("14: second part of right unseen", || asked(14, unseen::<1>)),
    ("14: third part of right unseen", || asked(14, unseen::<2>)),
    ("14: first part of forward unseen", || {
        asked(14, unseen::<3>)
    }),
    ("14: second part of forward unseen", || {
        asked(14, unseen::<4>)
    }),
    ("14: third part of forward unseen", || {
        asked(14, unseen::<5>)
    }),
    ("14: first part of up unseen", || asked(14, unseen::<6>)),
    ("14: second part of up unseen", || asked(14, unseen::<7>)),
    ("14: third part of up unseen", || asked(14, unseen::<8>)),
    ("14: volume unseen", || {
        asked(14, |c, _| volume(c, |_| true))
    }),
    ("14: a volume of 0 passes", || {
        asked(14, |c, _| volume(c, |v| v >= 0))
    }),
    ("14: mirrored passes", || {
        asked(14, |c, _| volume(c, |v| v != 0))
    }),
    ("14: a volume of 1 refused", || {
        asked(14, |c, _| volume(c, |v| v > 1))
    }),
    ("14: volume in 16 bits", || {
        asked(14, |c, _| volume(c, |v| v as i16 > 0))
    }),
    ("14 within 10", || {
        asked(10, |c, s| view_in_range(c, s) && axes_proper(c, s))
    }),
    ("12: left out", || without(12)),
    ("12: one early", || {
        asked(12, |c, _| c.counter < u32::MAX - 1)
    }),
    ("3 after 4", || swapped(3)),
    ("4 after 5", || swapped(4)),
    ("5 after 6", || swapped(5)),
    ("6 after 7", || swapped(6)),
    ("7 after 8", || swapped(7)),
    ("8 after 9", || swapped(8)),
    ("9 after 15", || swapped(9)),
    ("10 after 14", || swapped(10)),
    ("14 after 11", || swapped(14)),
    ("11 after 12", || swapped(11)),
    ("14 after all", || moved(14, 12)),
    ("14 before all but 1 and 2", || moved(14, 3)),
];

/// Gates that still answer 13, which is struck.
pub const WRONG_STRUCK: &[WrongGate] = &[
    ("12 answered as 13", || {
        let mut gate = Gate::of_the_paper();
        let at = place(&gate, 12);
        gate.questions[at].0 = STRUCK;
        gate
    }),
    ("13 asked of the widest rows", || {
        let mut gate = Gate::of_the_paper();
        gate.questions.push((STRUCK, |c, _| c.view.width < 256));
        gate
    }),
];

fn sized(size: fn(&[u8]) -> bool) -> Gate {
    Gate {
        size,
        ..Gate::of_the_paper()
    }
}

fn sectioned(sections: fn(&[u8]) -> bool) -> Gate {
    Gate {
        sections,
        ..Gate::of_the_paper()
    }
}

pub fn asked(number: u32, question: Question) -> Gate {
    let mut gate = Gate::of_the_paper();
    for place in gate.questions.iter_mut().filter(|q| q.0 == number) {
        place.1 = question;
    }
    gate
}

/// Question 10 with something else asked of the window.
fn windowed(question: Question) -> Gate {
    let mut gate = asked(10, |c, _| eye_in_range(c) && tile_fits(c));
    let at = place(&gate, 10);
    gate.questions.insert(at, (10, question));
    gate
}

pub fn without(number: u32) -> Gate {
    asked(number, |_, _| true)
}

pub fn place(gate: &Gate, number: u32) -> usize {
    let mut numbers = gate.questions.iter().map(|question| question.0);
    numbers
        .position(|own| own == number)
        .expect("a question of this number")
}

/// The question changes places with the next.
pub fn swapped(number: u32) -> Gate {
    let mut gate = Gate::of_the_paper();
    let at = place(&gate, number);
    gate.questions.swap(at, at + 1);
    gate
}

/// The question is asked in the place of another.
pub fn moved(number: u32, other: u32) -> Gate {
    let mut gate = Gate::of_the_paper();
    let (from, to) = (place(&gate, number), place(&gate, other));
    let question = gate.questions.remove(from);
    gate.questions.insert(to, question);
    gate
}
