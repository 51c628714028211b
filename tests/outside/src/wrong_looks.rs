//! Wrong numbers of stretches looked at.

use crate::row::{up_to, Span};
use crate::row_fault::{Look, Moment};

pub const LOOKS: &[(&str, Look)] = &[
    ("ends after, for at or after", |m, _| {
        stopping(m, |stretch| stretch.last > m.span.last)
    }),
    ("the stretch it stops at not counted", |m, line| {
        let last = |stretch: &Span| stretch.last >= m.span.last;
        match m.before.stretches().iter().any(last) && !m.span.is_empty() {
            true => line.looked - 1,
            false => line.looked,
        }
    }),
    ("stops where the span starts", |m, _| {
        stopping(m, |stretch| stretch.last >= m.span.first)
    }),
    (
        "stops at a stretch that begins at the span's end",
        |m, _| stopping(m, |stretch| stretch.first >= m.span.last),
    ),
    ("stops only at a stretch behind the span", |m, _| {
        stopping(m, |stretch| stretch.first > m.span.last)
    }),
    ("stops before a stretch behind the span", |m, _| {
        let begun = |stretch: &&Span| stretch.first <= m.span.last;
        let begun = m.before.stretches().iter().filter(begun).count();
        begun.min(stopping(m, |stretch| stretch.last >= m.span.last))
    }),
    ("a span with no column counted by its end", |m, _| {
        up_to(&m.before.stretches(), |s| s.last >= m.span.last)
    }),
    ("a span with no column looks at one", |m, line| {
        line.looked + usize::from(m.span.is_empty() && !m.is_full())
    }),
    ("only stretches that the span meets", |m, _| {
        m.before.stretches().iter().filter(|s| m.meets(s)).count()
    }),
    ("all stretches, always", |m, _| stopping(m, |_| false)),
    (
        "all stretches where the span lights nothing",
        |m, line| match line.lit {
            0 => stopping(m, |_| false),
            _ => line.looked,
        },
    ),
    ("the stretches that laying leaves", |m, _| {
        m.after.looked(m.span)
    }),
    ("a stretch that the span makes counted too", |m, line| {
        let made = m.after.stretches().len() > m.before.stretches().len();
        line.looked + usize::from(made)
    }),
    ("one on a full row", |m, line| match m.is_full() {
        true => 1,
        false => line.looked,
    }),
    ("none where the span lights nothing", |_, line| {
        line.looked * usize::from(line.lit > 0)
    }),
    ("none beyond the width", |m, line| {
        line.looked * usize::from(m.span.first < m.before.width())
    }),
    ("none where the span ends beyond the width", |m, line| {
        line.looked * usize::from(m.span.last < m.before.width())
    }),
    ("one too many where none ends so late", |m, line| {
        let late = |stretch: &Span| stretch.last >= m.span.last;
        let any = m.before.stretches().iter().any(late);
        line.looked + usize::from(!any && !m.span.is_empty())
    }),
    ("one less where none ends so late", |m, line| {
        let late = |stretch: &Span| stretch.last >= m.span.last;
        let any = m.before.stretches().iter().any(late);
        line.looked.saturating_sub(usize::from(!any))
    }),
    ("128 said as 0", |_, line| line.looked % 128),
    ("at most 127", |_, line| line.looked.min(127)),
    ("not from the row's first", |m, line| {
        let before = |stretch: &&Span| stretch.last < m.span.first;
        let passed = m.before.stretches().iter().filter(before).count();
        line.looked.saturating_sub(passed)
    }),
    ("from the row's last", |m, line| {
        let all = m.before.stretches().len();
        match m.span.is_empty() {
            true => 0,
            false => (all + 1).saturating_sub(line.looked),
        }
    }),
    ("the bound for what is looked at", |_, line| {
        line.number.min(128)
    }),
    ("the end in eight bits", |m, line| match m.span.is_empty() {
        true => line.looked,
        false => stopping(m, |stretch| stretch.last >= m.span.last % 256),
    }),
    ("the end as a signed number", |m, line| {
        match m.span.is_empty() {
            true => line.looked,
            false => stopping(m, |stretch| stretch.last as i16 >= m.span.last as i16),
        }
    }),
];

impl Moment<'_> {
    pub fn is_full(&self) -> bool {
        self.before.stretches().is_empty()
    }

    pub fn meets(&self, stretch: &Span) -> bool {
        let apart = stretch.last < self.span.first || stretch.first > self.span.last;
        !self.span.is_empty() && !apart
    }

    /// The stretch of the row before that keeps columns on both sides of the span.
    pub fn split(&self) -> Option<Span> {
        let around = |s: &Span| s.first < self.span.first && self.span.last < s.last;
        let mut stretches = self.before.stretches().into_iter();
        stretches.find(|stretch| self.meets(stretch) && around(stretch))
    }
}

/// The number looked at with another test of where to stop.
fn stopping(m: &Moment, test: impl Fn(&Span) -> bool) -> usize {
    match m.span.is_empty() {
        true => 0,
        false => up_to(&m.before.stretches(), test),
    }
}
