//! The oracle: puts each request line of standard input to the seed's Rust and
//! prints its answer on one line. It refuses nothing; see oracle/README.md.

#[allow(dead_code, deprecated, unused_imports)]
mod coord;
mod excluded;
mod line;
mod pair;

use chrono::{DateTime, Datelike, NaiveDate, NaiveDateTime, Utc};
use std::io::{self, Read, Write};
use std::ops::Range;
use std::panic::{self, AssertUnwindSafe};

use coord::ranged1d::{
    BoldPoints, DiscreteRanged, IntoSegmentedCoord, KeyPointHint, LightPoints, Ranged,
    ReversibleRanged, SegmentValue,
};
use coord::{
    span_period, value_at, IntoMonthly, IntoYearly, Monthly, RangedDate, RangedDateTime,
    RangedDuration, TimeValue, Yearly,
};
use excluded::Excluded;
use line::Numbers;
use pair::Pair;

/// A longer list than this one asks for is not built.
const MOST_POINTS: i128 = 1_000_000;

/// What is said where there are no numbers to say.
pub enum Instead {
    None,
    Skip,
    Unread,
}

use Instead::{Skip, Unread};

enum Axis {
    Date(RangedDate<NaiveDate>),
    Month(Monthly<NaiveDate>),
    Year(Yearly<NaiveDate>),
    Stamp(RangedDateTime<NaiveDateTime>),
    StampMonth(Monthly<DateTime<Utc>>),
    StampYear(Yearly<DateTime<Utc>>),
    Span(RangedDuration),
    DateBefore(Excluded<RangedDate<NaiveDate>>),
    MonthBefore(Excluded<Monthly<NaiveDate>>),
    YearBefore(Excluded<Yearly<NaiveDate>>),
}

/// The same words for each kind's own type.
macro_rules! any {
    ($axis:expr, $it:ident => $words:expr) => {
        match $axis {
            Axis::Date($it) => $words,
            Axis::Month($it) => $words,
            Axis::Year($it) => $words,
            Axis::Stamp($it) => $words,
            Axis::StampMonth($it) => $words,
            Axis::StampYear($it) => $words,
            Axis::Span($it) => $words,
            Axis::DateBefore($it) => $words,
            Axis::MonthBefore($it) => $words,
            Axis::YearBefore($it) => $words,
        }
    };
}

/// The same for the kinds with indices; the others lack the operation.
macro_rules! discrete {
    ($axis:expr, $it:ident => $words:expr) => {
        match $axis {
            Axis::Date($it) => $words,
            Axis::Month($it) => $words,
            Axis::Year($it) => $words,
            Axis::StampMonth($it) => $words,
            Axis::StampYear($it) => $words,
            Axis::DateBefore($it) => $words,
            Axis::MonthBefore($it) => $words,
            Axis::YearBefore($it) => $words,
            Axis::Stamp(_) | Axis::Span(_) => return Err(Skip),
        }
    };
}

/// A number as the Rust wants it, or nothing to ask.
fn fit<T: TryFrom<i128>>(number: i128) -> Result<T, Instead> {
    T::try_from(number).map_err(|_| Skip)
}

fn value<T: Pair>(head: i128, tail: i128) -> Result<T, Instead> {
    T::read(fit(head)?, fit(tail)?).ok_or(Skip)
}

fn limits(low: i128, high: i128) -> Result<(i32, i32), Instead> {
    Ok((fit(low)?, fit(high)?))
}

fn points(n: i128) -> Result<usize, Instead> {
    if n > MOST_POINTS {
        return Err(Skip);
    }
    fit(n)
}

fn span<T: Pair>(sh: i128, st: i128, eh: i128, et: i128) -> Result<Range<T>, Instead> {
    Ok(value(sh, st)?..value(eh, et)?)
}

/// The axis of a request, its first six numbers, and the numbers behind them.
fn axis<const N: usize>(numbers: &Numbers) -> Result<(Axis, [i128; N]), Instead> {
    let ([kind, sh, st, eh, et, excluded], others) = numbers.parts()?;
    let axis = match (kind, excluded != 0) {
        (1, false) => Axis::Date(span(sh, st, eh, et)?.into()),
        (2, false) => Axis::Month(span(sh, st, eh, et)?.monthly()),
        (3, false) => Axis::Year(span(sh, st, eh, et)?.yearly()),
        (4, false) => Axis::Stamp(span::<NaiveDateTime>(sh, st, eh, et)?.into()),
        (5, false) => Axis::StampMonth(span(sh, st, eh, et)?.monthly()),
        (6, false) => Axis::StampYear(span(sh, st, eh, et)?.yearly()),
        (7, false) => Axis::Span(span(sh, st, eh, et)?.into()),
        (1, true) => Axis::DateBefore(Excluded::new(span(sh, st, eh, et)?, Range::into)?),
        (2, true) => Axis::MonthBefore(Excluded::new(span(sh, st, eh, et)?, Range::monthly)?),
        (3, true) => Axis::YearBefore(Excluded::new(span(sh, st, eh, et)?, Range::yearly)?),
        _ => return Err(Skip),
    };
    Ok((axis, others))
}

fn segment<T: Pair>(case: i128, head: i128, tail: i128) -> Result<SegmentValue<T>, Instead> {
    Ok(match case {
        1 => SegmentValue::Exact(value(head, tail)?),
        2 => SegmentValue::CenterOf(value(head, tail)?),
        3 => SegmentValue::Last,
        _ => return Err(Skip),
    })
}

/// The period that `key_points` works with, on the kinds that have one.
fn period(axis: &Axis, n: usize) -> Result<Option<u64>, Instead> {
    match axis {
        Axis::Stamp(it) => {
            let range = it.range();
            Ok(span_period(range.end - range.start, n, true))
        }
        Axis::Span(it) => {
            let range = it.range();
            Ok(span_period(range.end - range.start, n, false))
        }
        _ => Err(Skip),
    }
}

fn key_points<H: KeyPointHint>(axis: Axis, hint: H, out: &mut Vec<u8>) -> Result<(), Instead> {
    // A period above i64::MAX turns negative in the list's loop, which then
    // goes down until memory ends. Only a reversed span has one.
    if let Ok(Some(step)) = period(&axis, hint.max_num_points()) {
        if step > i64::MAX as u64 {
            return Err(Skip);
        }
    }
    any!(axis, it => list(&it.key_points(hint), out));
    Ok(())
}

fn segment_points<H: KeyPointHint>(axis: Axis, hint: H, out: &mut Vec<u8>) -> Result<(), Instead> {
    discrete!(axis, it => {
        let ticks = it.into_segmented().key_points(hint);
        let centres: Result<Vec<_>, Instead> = ticks
            .into_iter()
            .map(|tick| match tick {
                SegmentValue::CenterOf(centre) => Ok(centre),
                _ => Err(Skip),
            })
            .collect();
        list(&centres?, out);
    });
    Ok(())
}

fn list<T: Pair>(ticks: &[T], out: &mut Vec<u8>) {
    say(out, &[ticks.len() as i128]);
    for tick in ticks {
        tell(tick, out);
    }
}

fn tell<T: Pair>(value: &T, out: &mut Vec<u8>) {
    let (head, tail) = value.pair();
    say(out, &[i128::from(head), i128::from(tail)]);
}

/// Adds numbers to the answer; the first call of an answer begins it with 0.
fn say(out: &mut Vec<u8>, numbers: &[i128]) {
    if out.last().map_or(true, |&byte| byte == b'\n') {
        out.push(b'0');
    }
    for &number in numbers {
        out.push(b' ');
        // The shorter type prints faster.
        let done = match i64::try_from(number) {
            Ok(short) => write!(out, "{short}"),
            Err(_) => write!(out, "{number}"),
        };
        done.expect("memory takes what is written");
    }
}

fn answer(line: &[u8], out: &mut Vec<u8>) -> Result<(), Instead> {
    let (name, numbers) = line::split(line)?;
    match name {
        b"day_number" => {
            let [y, m, d] = numbers.all()?;
            let date = NaiveDate::from_ymd_opt(fit(y)?, fit(m)?, fit(d)?).ok_or(Instead::None)?;
            say(out, &[i128::from(date.num_days_from_ce())]);
        }
        b"date_of" => {
            let [n] = numbers.all()?;
            let date = NaiveDate::from_num_days_from_ce_opt(fit(n)?).ok_or(Instead::None)?;
            let (y, m, d) = (date.year(), date.month(), date.day());
            say(out, &[i128::from(y), i128::from(m), i128::from(d)]);
        }
        b"date_floor" => {
            let [head, tail] = numbers.all()?;
            tell(&value::<NaiveDateTime>(head, tail)?.date_floor(), out);
        }
        b"date_ceil" => {
            let [head, tail] = numbers.all()?;
            tell(&value::<NaiveDateTime>(head, tail)?.date_ceil(), out);
        }
        b"map" => {
            let (axis, [low, high, head, tail]) = axis(&numbers)?;
            let limits = limits(low, high)?;
            let pixel = any!(axis, it => it.map(&value(head, tail)?, limits));
            say(out, &[i128::from(pixel)]);
        }
        b"unmap" => {
            let (axis, [low, high, pixel]) = axis(&numbers)?;
            let (limits, pixel) = (limits(low, high)?, fit(pixel)?);
            match axis {
                Axis::Stamp(it) => {
                    tell(&it.unmap(pixel, limits).ok_or(Instead::None)?, out);
                }
                other => discrete!(other, it => {
                    tell(&it.unmap(pixel, limits).ok_or(Instead::None)?, out);
                }),
            }
        }
        b"period" | b"period_per_point" => {
            let (axis, [n]) = axis(&numbers)?;
            let found = period(&axis, fit(n)?)?.ok_or(Instead::None)?;
            say(out, &[i128::from(found)]);
        }
        b"ticks_bold" => {
            let (axis, [n]) = axis(&numbers)?;
            key_points(axis, BoldPoints(points(n)?), out)?;
        }
        b"ticks_light" => {
            let (axis, [bold, n]) = axis(&numbers)?;
            let hint = LightPoints::new(fit(bold)?, points(n)?);
            key_points(axis, hint, out)?;
        }
        b"size" => {
            let (axis, []) = axis(&numbers)?;
            let size = discrete!(axis, it => it.size());
            say(out, &[size as i128]);
        }
        b"index_of" => {
            let (axis, [head, tail]) = axis(&numbers)?;
            let index = discrete!(axis, it => it.index_of(&value(head, tail)?));
            say(out, &[index.ok_or(Instead::None)? as i128]);
        }
        b"from_index" => {
            let (axis, [index]) = axis(&numbers)?;
            discrete!(axis, it => {
                tell(&it.from_index(fit(index)?).ok_or(Instead::None)?, out);
            });
        }
        b"next" => {
            let (axis, [head, tail]) = axis(&numbers)?;
            discrete!(axis, it => {
                tell(&it.next(&value(head, tail)?).ok_or(Instead::None)?, out);
            });
        }
        b"previous" => {
            let (axis, [head, tail]) = axis(&numbers)?;
            discrete!(axis, it => {
                tell(&it.previous(&value(head, tail)?).ok_or(Instead::None)?, out);
            });
        }
        b"values" => {
            let (axis, [place]) = axis(&numbers)?;
            discrete!(axis, it => {
                tell(&value_at(&it, fit(place)?).ok_or(Instead::None)?, out);
            });
            say(out, &[place + 1]);
        }
        b"segment_map" => {
            let (axis, [low, high, case, head, tail]) = axis(&numbers)?;
            let limits = limits(low, high)?;
            let pixel = discrete!(axis, it => {
                it.into_segmented().map(&segment(case, head, tail)?, limits)
            });
            say(out, &[i128::from(pixel)]);
        }
        b"segment_ticks_bold" => {
            let (axis, [n]) = axis(&numbers)?;
            segment_points(axis, BoldPoints(points(n)?), out)?;
        }
        b"segment_ticks_light" => {
            let (axis, [bold, n]) = axis(&numbers)?;
            let hint = LightPoints::new(fit(bold)?, points(n)?);
            segment_points(axis, hint, out)?;
        }
        b"segment_size" => {
            let (axis, []) = axis(&numbers)?;
            let size = discrete!(axis, it => it.into_segmented().size());
            say(out, &[size as i128]);
        }
        b"segment_index_of" => {
            let (axis, [case, head, tail]) = axis(&numbers)?;
            let index = discrete!(axis, it => {
                it.into_segmented().index_of(&segment(case, head, tail)?)
            });
            say(out, &[index.ok_or(Instead::None)? as i128]);
        }
        b"segment_from_index" => {
            let (axis, [index]) = axis(&numbers)?;
            discrete!(axis, it => {
                let found = it.into_segmented().from_index(fit(index)?);
                match found.ok_or(Instead::None)? {
                    SegmentValue::Exact(value) => {
                        say(out, &[1]);
                        tell(&value, out);
                    }
                    SegmentValue::CenterOf(value) => {
                        say(out, &[2]);
                        tell(&value, out);
                    }
                    SegmentValue::Last => say(out, &[3, 0, 0]),
                }
            });
        }
        _ => return Err(Unread),
    }
    Ok(())
}

/// One request, its panic caught: the answer, whole, at the end of `out`.
fn reply(line: &[u8], out: &mut Vec<u8>) {
    let mark = out.len();
    let caught = panic::catch_unwind(AssertUnwindSafe(|| answer(line, out)));
    let word: &[u8] = match caught {
        Ok(Ok(())) => b"",
        Ok(Err(Instead::None)) => b"-1",
        Ok(Err(Skip)) => b"skip",
        Ok(Err(Unread)) => b"unread",
        Err(_) => b"panic",
    };
    if !word.is_empty() {
        out.truncate(mark);
        out.extend_from_slice(word);
    }
    out.push(b'\n');
}

/// Answers all whole lines that have come before it waits for more, so that a
/// caller may also go line by line.
fn run() -> io::Result<()> {
    let mut input = io::stdin().lock();
    let mut output = io::stdout().lock();
    let mut held = vec![0; 1 << 20];
    let mut filled = 0;
    let mut out = Vec::with_capacity(1 << 20);
    loop {
        let got = input.read(&mut held[filled..])?;
        if got == 0 {
            break;
        }
        filled += got;
        let mut begin = 0;
        while let Some(length) = held[begin..filled].iter().position(|&byte| byte == b'\n') {
            reply(&held[begin..begin + length], &mut out);
            begin += length + 1;
            if out.len() >= 1 << 20 {
                output.write_all(&out)?;
                out.clear();
            }
        }
        output.write_all(&out)?;
        output.flush()?;
        out.clear();
        held.copy_within(begin..filled, 0);
        filled -= begin;
        if filled == held.len() {
            held.resize(2 * filled, 0);
        }
    }
    if filled > 0 {
        reply(&held[..filled], &mut out);
    }
    output.write_all(&out)?;
    output.flush()
}

fn main() {
    // A panic is an answer here, no news.
    panic::set_hook(Box::new(|_| {}));
    if run().is_err() {
        std::process::exit(1);
    }
}
