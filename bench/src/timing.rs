//! Interleaved rounds: each round times every contender once, so that a busy
//! machine troubles all alike.

use crate::clock;

/// The least time of one measurement in seconds.
const LEAST: f64 = 0.003;

pub struct Contender<'a> {
    run: Box<dyn FnMut() + 'a>,
    times: usize,
    seconds: Vec<f64>,
}

impl<'a> Contender<'a> {
    pub fn new(run: impl FnMut() + 'a) -> Contender<'a> {
        let mut contender = Contender {
            run: Box::new(run),
            times: 1,
            seconds: Vec::new(),
        };
        while contender.once() * (contender.times as f64) < LEAST {
            contender.times *= 2;
        }
        contender
    }

    /// Seconds of one call.
    fn once(&mut self) -> f64 {
        let start = clock::seconds();
        for _ in 0..self.times {
            (self.run)();
        }
        (clock::seconds() - start) / self.times as f64
    }

    /// The fastest round, which other programs troubled least.
    pub fn fastest(&self) -> f64 {
        self.seconds.iter().copied().fold(f64::INFINITY, f64::min)
    }

    /// The median of this one's time over the other's in the same round.
    pub fn over(&self, other: &Contender) -> f64 {
        let rounds = self.seconds.iter().zip(&other.seconds);
        median(rounds.map(|(own, other)| own / other).collect())
    }
}

pub fn rounds(contenders: &mut [Contender], count: usize) {
    for round in 0..count {
        let places = contenders.len();
        for k in 0..places {
            let contender = &mut contenders[(k + round) % places];
            let seconds = contender.once();
            contender.seconds.push(seconds);
        }
    }
}

fn median(mut numbers: Vec<f64>) -> f64 {
    numbers.sort_by(f64::total_cmp);
    numbers[numbers.len() / 2]
}
