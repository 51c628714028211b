//! The library and its peers on one job.

use crate::check;
use crate::jobs::Job;
use crate::library::Linked;
use crate::peers::PEERS;
use crate::table::Line;
use crate::timing::{rounds, Contender};
use outside::call::{Call, Lent, Library};
use outside::random::Random;
use outside::tile::Tile;
use std::cell::RefCell;
use std::hint::black_box;

/// A job's tiles, and its call on one after the other: all contenders read the same
/// bytes of its scene.
struct Course<'a> {
    tiles: &'a [Tile],
    call: RefCell<Call>,
}

impl Course<'_> {
    /// Each tile is lent its own buffers.
    fn survey<'a>(&'a self, who: &'a dyn Library) -> Contender<'a> {
        let noise = |_| Lent::noise(&self.call.borrow(), &mut Random::new(1, 0));
        let mut lent: Vec<Lent> = self.tiles.iter().map(noise).collect();
        Contender::new(move || {
            for (&tile, lent) in self.tiles.iter().zip(&mut lent) {
                self.call.borrow_mut().tile = tile;
                lent.counter = 0;
                black_box(who.survey(black_box(&self.call.borrow()), lent));
                black_box(lent);
            }
        })
    }

    fn gate<'a>(&'a self, who: &'a dyn Library) -> Contender<'a> {
        Contender::new(move || {
            for &tile in self.tiles {
                self.call.borrow_mut().tile = tile;
                black_box(who.gate(black_box(&self.call.borrow())));
            }
        })
    }
}

pub fn time(job: &Job, count: usize) -> Line {
    check::same(&Linked, job);
    let course = Course {
        tiles: &job.tiles,
        call: RefCell::new(job.call.clone()),
    };
    let mut contenders = vec![course.gate(&Linked), course.gate(&PEERS[0])];
    if !job.gate {
        contenders.push(course.survey(&Linked));
        contenders.extend(PEERS.iter().map(|peer| course.survey(peer)));
    }
    rounds(&mut contenders, count);
    let whole = contenders.get(2);
    let ratios = contenders.iter().skip(3);
    Line {
        scene: job.name.clone(),
        ratios: ratios.map(|peer| contenders[2].over(peer)).collect(),
        gate_ratio: contenders[0].over(&contenders[1]),
        gate_share: whole.map(|whole| contenders[0].over(whole)),
        microseconds: 1e6 * whole.unwrap_or(&contenders[0]).fastest(),
        growth: None,
    }
}
