//! Makers whose spans do not reach the bounds, or are others than the product's,
//! and wrong sums of what they look at.

use crate::row::{span, Span};
use crate::row_compare::RowDifference::{self, *};
use crate::row_fault::{Maker as Make, Sum};
use crate::worst::{made, sum_of_bounds, WIDTH};

/// The bounds are not reached: by the sums told and by laying the spans.
const SHORT: &[RowDifference] = &[Maker, Reach, Worst];
/// Other spans that reach them as well, or of numbers too great to be laid.
const OTHER: &[RowDifference] = &[Maker];

pub const MAKERS: &[(&str, &[RowDifference], Make)] = &[
    ("even columns", SHORT, even_columns),
    ("columns modulo 256", SHORT, columns_modulo_256),
    ("from the right", SHORT, from_the_right),
    ("columns 2k + 1", SHORT, |k| column(2 * wide(k) + 1)),
    ("columns 2k", SHORT, |k| column(2 * wide(k))),
    ("every column", SHORT, |k| column(wide(k) - 1)),
    ("two columns a span", SHORT, |k| {
        let Span { first, .. } = made(k);
        span(first, (first + 1).min(WIDTH - 1))
    }),
    ("from the row's first column on", SHORT, |k| {
        span(0, made(k).last)
    }),
    ("to the row's last column", SHORT, |k| {
        span(made(k).first, WIDTH - 1)
    }),
    ("the first again after 128", SHORT, |k| {
        made((k.max(1) - 1) % 128 + 1)
    }),
    ("the whole row after 128", SHORT, |k| match k > 128 {
        true => span(0, WIDTH - 1),
        false => made(k),
    }),
    ("no column after 128", SHORT, |k| match k > 128 {
        true => span(1, 0),
        false => made(k),
    }),
    ("k in eight bits", SHORT, |k| made(k % 256)),
    ("k in 16 bits", OTHER, |k| made(k % (1 << 16))),
    ("k in 32 bits", OTHER, |k| made(k % (1 << 32))),
    ("2k in 64 bits", OTHER, |k| {
        let odd = k.max(1).wrapping_mul(2).wrapping_sub(1);
        column(u128::from(odd))
    }),
    ("k of 0 as 0", OTHER, |k| match k {
        0 => span(0, 0),
        _ => made(k),
    }),
    ("no column for k of 0", &[Maker, Worst], |k| match k {
        0 => span(1, 0),
        _ => made(k),
    }),
    ("no further than column 253", OTHER, |k| {
        column(u128::from(made(k).last.min(253)))
    }),
    ("beyond the row after 128", OTHER, |k| match k > 128 {
        true => span(WIDTH, WIDTH),
        false => made(k),
    }),
];

pub fn even_columns(k: u64) -> Span {
    column((2 * wide(k) - 2).min(254))
}

pub fn columns_modulo_256(k: u64) -> Span {
    column((2 * wide(k) - 1) % 256)
}

pub fn from_the_right(k: u64) -> Span {
    column(256u128.saturating_sub(2 * wide(k)))
}

fn wide(k: u64) -> u128 {
    u128::from(k.max(1))
}

/// One column, the row's last for those behind it.
fn column(at: u128) -> Span {
    let at = at.min(u128::from(WIDTH) - 1) as u16;
    span(at, at)
}

pub const SUMS: &[(&str, Sum)] = &[
    ("a span too many", |looks, k| looks[..=k].iter().sum()),
    ("a span too few", |looks, k| {
        looks[..k.saturating_sub(1)].iter().sum()
    }),
    ("the first span for none", |looks, k| {
        looks[..k.max(1)].iter().sum()
    }),
    ("the first span left out", |looks, k| {
        looks[..k].iter().skip(1).sum()
    }),
    ("the k-th span alone", |looks, k| match k {
        0 => 0,
        _ => looks[k - 1],
    }),
    ("not above 128 spans", |looks, k| {
        looks[..k.min(128)].iter().sum()
    }),
    ("bounds not held to 128", |_, k| {
        let k = k as u64;
        k * (k + 1) / 2
    }),
    ("128 for each", |_, k| 128 * k as u64),
    ("in 16 bits", |_, k| sum_of_bounds(k as u64) % (1 << 16)),
];
