//! Tables to be added up, made at random: right ones of each kind, each rule of K11 broken alone, and any numbers at all.
//! They depend on the seed and their number alone.

use crate::model::{COUNT, FIRST, ROW};
use crate::random::Random;
use crate::totals::Asked;

// The limits once more, so that a wrong one in the model does not move the tables with it.
const LARGEST: i64 = 999_999_999_999_999;
const DAYS: [u32; 3] = [92, 96, 100];
const LONGEST_PERIOD: usize = 35_136;
const MOST_INTERVALS: u32 = 100;
const MOST_SERIES: usize = 200;

pub fn tables(seed: u64, number: u64) -> Asked {
    let random = &mut Random::new(seed ^ 0x0074_6F74_616C, number);
    if random.one_in(30) {
        return any_numbers(random);
    }
    let mut asked = right(random);
    for _ in 0..random.one_of(&[0, 0, 0, 1, 1, 1, 1, 1, 1, 2]) {
        break_rule(random, &mut asked);
    }
    lend(random, &mut asked);
    asked
}

// ---------------------------------------------------------------- Right tables

/// Right but for N at times, whose rows are then as they would be were it allowed.
fn right(random: &mut Random) -> Asked {
    let kind = random.one_of(&[1, 2, 2, 2, 2, 3, 3, 3]) as u32;
    let (any, few) = (random.within(1, LONGEST_PERIOD), random.within(1, 12));
    let n = match kind {
        1 if random.one_in(12) => random.within(91, 101) as u32,
        1 => *random.pick(&DAYS),
        _ => random.one_of(&[1, 2, few, few, few, 92, 96, 99, 100, 101, any, LONGEST_PERIOD - 1, LONGEST_PERIOD, LONGEST_PERIOD + 1]) as u32,
    };
    let mut asked =
        Asked { kind, n, count: some_count(random, kind), series: Vec::new(), positions: Vec::new(), amounts: Vec::new(), totals: 0, sum: 0 };
    let style = random.below(5);
    for _ in 0..asked.count {
        let positions = some_positions(random, kind, n);
        let first = asked.positions.len() as u32;
        push_row(random, &mut asked.series, first, positions.len() as u32);
        asked.amounts.extend(positions.iter().map(|_| some_amount(random, style)));
        asked.positions.extend(positions);
    }
    asked
}

/// A few series, seldom none, and seldom as many as may be added up or one less or more.
fn some_count(random: &mut Random, kind: u32) -> usize {
    if random.one_in(if kind == 1 { 400 } else { 40 }) {
        return random.one_of(&[MOST_SERIES - 1, MOST_SERIES, MOST_SERIES, MOST_SERIES + 1]);
    }
    random.one_of(&[0, 1, 1, 2, 2, 3, 5])
}

/// Views are not looked at, so they are any numbers.
fn push_row(random: &mut Random, series: &mut Vec<u32>, first: u32, count: u32) {
    let from = series.len();
    series.extend((0..ROW).map(|_| random.bits() as u32));
    series[from + FIRST] = first;
    series[from + COUNT] = count;
}

fn some_positions(random: &mut Random, kind: u32, n: u32) -> Vec<u32> {
    let most = n.min(MOST_INTERVALS) as usize;
    let few = random.within(1, most.min(6));
    match kind {
        1 => (1..=n).collect(),
        3 => (1..=random.one_of(&[1, few, few, most]) as u32).collect(),
        _ => rising(random, n),
    }
}

/// From 1 on by steps of one or of more, or to N at once.
fn rising(random: &mut Random, n: u32) -> Vec<u32> {
    let left = random.one_of(&[1, 1, 2, 2, 3, 5, 8]);
    let mut positions = vec![1];
    while positions.len() < left {
        let last = positions[positions.len() - 1];
        let step = random.within(1, 4) as u32;
        let next = if random.one_in(5) { n } else { last + random.one_of(&[1, step as usize, (n / 8) as usize + 1]) as u32 };
        if next <= last || next > n {
            break;
        }
        positions.push(next);
    }
    positions
}

/// By the style of the table: any, small, large of both signs, large of one sign.
fn some_amount(random: &mut Random, style: usize) -> i64 {
    let any = random.bits() as i64 % (LARGEST + 1);
    let small = random.within(0, 4_000) as i64 - 2_000;
    match style {
        0 => any,
        1 => *random.pick(&[0, 1, -1, 999, -999, 1_000, -1_000, 1_001, -1_001]),
        2 => *random.pick(&[LARGEST, -LARGEST, LARGEST - 1, 1 - LARGEST]),
        3 => LARGEST - random.below(2) as i64,
        _ => *random.pick(&[any, small, small, -LARGEST]),
    }
}

// ---------------------------------------------------------------- One rule broken

/// A change that breaks a rule, or just does not.
fn break_rule(random: &mut Random, asked: &mut Asked) {
    match random.below(14) {
        0 => asked.kind = *random.pick(&[0, 1, 2, 3, 4, 5, 258, u32::MAX]),
        1 => asked.n = other_period(random, asked),
        2 => other_count(random, asked),
        3 => shorten(random, asked),
        4 | 5 => other_cell(random, asked, FIRST),
        6 | 7 => other_cell(random, asked, COUNT),
        8 | 9 => other_position(random, asked),
        10 => other_amount(random, asked),
        11 => take_or_give_row(random, asked),
        12 => leave_gap(random, asked),
        _ => share_rows(random, asked),
    }
}

fn other_period(random: &mut Random, asked: &Asked) -> u32 {
    let last = asked.positions.last().copied().unwrap_or(0);
    let near = *random.pick(&[91, 92, 93, 95, 96, 97, 99, 100, 101, last.wrapping_sub(1), last, last.wrapping_add(1)]);
    let end = random.one_of(&[0, 1, LONGEST_PERIOD - 1, LONGEST_PERIOD, LONGEST_PERIOD + 1, u32::MAX as usize]) as u32;
    *random.pick(&[near, end])
}

fn other_count(random: &mut Random, asked: &mut Asked) {
    let most = random.one_of(&[MOST_SERIES, MOST_SERIES + 1, 256, 1 << 32, usize::MAX / ROW + 1, usize::MAX]);
    asked.count = random.one_of(&[asked.count.saturating_add(1), asked.count.saturating_sub(1), most]);
}

/// A table that is shorter by one cell or by a few.
fn shorten(random: &mut Random, asked: &mut Asked) {
    let less = random.one_of(&[1, 1, 1, 2, ROW, ROW + 1]);
    match random.below(3) {
        0 => asked.series.truncate(asked.series.len().saturating_sub(less)),
        1 => asked.positions.truncate(asked.positions.len().saturating_sub(less)),
        _ => asked.amounts.truncate(asked.amounts.len().saturating_sub(less)),
    }
}

fn near(random: &mut Random, number: u32) -> u32 {
    let other = random.bits() as u32;
    *random.pick(&[number.wrapping_sub(1), number.wrapping_add(1), number.wrapping_add(1), 0, 1, number.wrapping_neg(), 1 << 31, u32::MAX, other])
}

fn other_cell(random: &mut Random, asked: &mut Asked, cell: usize) {
    let row = random.below(asked.series.len() / ROW);
    if let Some(number) = asked.series.get_mut(row * ROW + cell) {
        *number = near(random, *number);
    }
}

fn other_position(random: &mut Random, asked: &mut Asked) {
    let (at, n) = (random.below(asked.positions.len()), asked.n);
    let before = at.checked_sub(1).and_then(|before| asked.positions.get(before)).copied().unwrap_or(1);
    if let Some(pos) = asked.positions.get_mut(at) {
        let close = near(random, *pos);
        *pos = *random.pick(&[close, close, before, n, n.wrapping_add(1)]);
    }
}

fn other_amount(random: &mut Random, asked: &mut Asked) {
    let at = random.below(asked.amounts.len());
    if let Some(amount) = asked.amounts.get_mut(at) {
        *amount = *random.pick(&[LARGEST, -LARGEST, LARGEST + 1, -LARGEST - 1, LARGEST + 2, i64::MAX, i64::MIN, i64::MIN + 1]);
    }
}

/// A row before a series that is of none, and all from there on moved by it.
fn leave_gap(random: &mut Random, asked: &mut Asked) {
    let i = random.below(asked.series.len() / ROW);
    let Some(&first) = asked.series.get(i * ROW + FIRST) else { return };
    let at = (first as usize).min(asked.positions.len()).min(asked.amounts.len());
    asked.positions.insert(at, 1);
    asked.amounts.insert(at, 5);
    for row in asked.series.chunks_exact_mut(ROW).skip(i) {
        row[FIRST] = row[FIRST].wrapping_add(1);
    }
}

/// The rows of a series are those of another one.
fn share_rows(random: &mut Random, asked: &mut Asked) {
    let many = asked.series.len() / ROW;
    let (from, to) = (random.below(many) * ROW, random.below(many) * ROW);
    if many > 0 {
        asked.series.copy_within(from..from + ROW, to);
    }
}

/// A series with a row less or more, and all after it moved by that, so that their beginnings still join.
fn take_or_give_row(random: &mut Random, asked: &mut Asked) {
    let i = random.below(asked.series.len() / ROW);
    let Some(&count) = asked.series.get(i * ROW + COUNT) else { return };
    let end = (asked.series[i * ROW + FIRST] as usize).saturating_add(count as usize).min(asked.positions.len()).min(asked.amounts.len());
    let more = random.one_in(2);
    if more {
        let next = end.checked_sub(1).map_or(1, |last| asked.positions[last].wrapping_add(1));
        asked.positions.insert(end, next);
        asked.amounts.insert(end, 5);
    } else if end > 0 && count > 0 {
        asked.positions.remove(end - 1);
        asked.amounts.remove(end - 1);
    } else {
        return;
    }
    let by = if more { 1 } else { u32::MAX };
    asked.series[i * ROW + COUNT] = count.wrapping_add(by);
    for row in asked.series.chunks_exact_mut(ROW).skip(i + 1) {
        row[FIRST] = row[FIRST].wrapping_add(by);
    }
}

// ---------------------------------------------------------------- Any numbers, and what is lent

fn any_numbers(random: &mut Random) -> Asked {
    let few = |random: &mut Random, most: usize| -> Vec<u32> {
        let length = random.below(most);
        (0..length).map(|_| random.one_of(&[0, 0, 1, 1, 2, 3, 12, 92, 1 << 31]) as u32).collect()
    };
    let (series, positions, count) = (few(random, 4 * ROW), few(random, 9), random.below(5));
    let amounts = few(random, 9).iter().map(|amount| i64::from(*amount) - 2).collect();
    let mut asked = Asked { kind: random.below(5) as u32, n: random.below(5) as u32, count, series, positions, amounts, totals: 0, sum: 0 };
    lend(random, &mut asked);
    asked
}

/// Cells past the series are full of numbers that would be refused; what is lent is long enough, or by a few cells too short or too long.
fn lend(random: &mut Random, asked: &mut Asked) {
    if random.one_in(3) {
        asked.series.extend((0..random.one_of(&[1, ROW - 1, ROW, 3 * ROW])).map(|_| u32::MAX));
    }
    if random.one_in(3) {
        asked.positions.extend((0..random.within(1, 9)).map(|_| 0));
    }
    if random.one_in(3) {
        asked.amounts.extend((0..random.within(1, 9)).map(|_| i64::MIN));
    }
    let due = 2 * asked.count.min(MOST_SERIES + 1);
    let any = random.below(due + 6);
    asked.totals = random.one_of(&[due, due, due + 1, due + 8, due.saturating_sub(1), due.saturating_sub(2), any, 0, 2 * MOST_SERIES]);
    asked.sum = random.one_of(&[2, 2, 2, 2, 0, 1, 3, 5]);
}
