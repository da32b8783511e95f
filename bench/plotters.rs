//! plotters' operations, the seed's files unchanged, as functions that C++ finds by name and kind and calls by pointer.
//! From raw numbers: values and coord are made in the call. Ready: they were made before, in the caller's memory.

#[allow(dead_code, deprecated, unused_imports)]
mod coord;

use chrono::{DateTime, Datelike, Duration, NaiveDate, NaiveDateTime, NaiveTime, Timelike, Utc};
use std::ffi::{c_char, CStr};
use std::mem::{align_of, size_of};

use coord::ranged1d::{DiscreteRanged, IntoSegmentedCoord, Ranged, SegmentValue, SegmentedCoord};
use coord::{IntoMonthly, IntoYearly, Monthly, RangedDate, RangedDateTime, RangedDuration, Yearly};

const SECOND: i64 = 1_000_000_000;

/// What the caller keeps for a coord and for a value, in bytes.
const COORD_ROOM: usize = 32;
const VALUE_ROOM: usize = 16;

type Plain = NaiveDateTime;
type Stamp = DateTime<Utc>;

/// A value of chrono from two numbers; nothing is asked that chrono does not ask itself.
pub trait Made {
    fn made(head: i64, tail: i64) -> Self;
}

/// A value of plotters in three numbers: the segment, 0 if it is none, head and tail.
pub trait Told {
    fn told(&self) -> [i64; 3];
}

impl Made for NaiveDate {
    fn made(head: i64, _: i64) -> Self {
        NaiveDate::from_num_days_from_ce_opt(head as i32).unwrap()
    }
}

impl Told for NaiveDate {
    fn told(&self) -> [i64; 3] {
        [0, i64::from(self.num_days_from_ce()), 0]
    }
}

impl Made for NaiveDateTime {
    fn made(head: i64, tail: i64) -> Self {
        let (seconds, rest) = ((tail / SECOND) as u32, (tail % SECOND) as u32);
        let time = NaiveTime::from_num_seconds_from_midnight_opt(seconds, rest).unwrap();
        NaiveDate::made(head, 0).and_time(time)
    }
}

impl Told for NaiveDateTime {
    fn told(&self) -> [i64; 3] {
        let tail = i64::from(self.num_seconds_from_midnight()) * SECOND + i64::from(self.nanosecond());
        [0, i64::from(self.num_days_from_ce()), tail]
    }
}

impl Made for DateTime<Utc> {
    fn made(head: i64, tail: i64) -> Self {
        DateTime::from_utc(NaiveDateTime::made(head, tail), Utc)
    }
}

impl Told for DateTime<Utc> {
    fn told(&self) -> [i64; 3] {
        self.naive_utc().told()
    }
}

impl Made for Duration {
    fn made(head: i64, tail: i64) -> Self {
        Duration::seconds(head) + Duration::nanoseconds(tail)
    }
}

impl Told for Duration {
    fn told(&self) -> [i64; 3] {
        let all = self.num_nanoseconds().unwrap();
        [0, all.div_euclid(SECOND), all.rem_euclid(SECOND)]
    }
}

impl<T: Told> Told for SegmentValue<T> {
    fn told(&self) -> [i64; 3] {
        let (case, value) = match self {
            SegmentValue::Exact(value) => (1, value),
            SegmentValue::CenterOf(value) => (2, value),
            SegmentValue::Last => return [3, 0, 0],
        };
        let [_, head, tail] = value.told();
        [case, head, tail]
    }
}

fn segment<T: Made>(case: i64, head: i64, tail: i64) -> SegmentValue<T> {
    match case {
        1 => SegmentValue::Exact(T::made(head, tail)),
        2 => SegmentValue::CenterOf(T::made(head, tail)),
        _ => SegmentValue::Last,
    }
}

/// A coord from the numbers of its ends.
pub trait Axis: Ranged<ValueType: Told> + Sized {
    fn made(start_head: i64, start_tail: i64, end_head: i64, end_tail: i64) -> Self;
}

macro_rules! axis {
    ($Value:ty, $Coord:ty, $into:ident) => {
        const _: () = assert!(size_of::<$Coord>() <= COORD_ROOM && align_of::<$Coord>() <= 8);
        const _: () = assert!(size_of::<$Value>() <= VALUE_ROOM && align_of::<$Value>() <= 8);

        impl Axis for $Coord {
            fn made(start_head: i64, start_tail: i64, end_head: i64, end_tail: i64) -> Self {
                (<$Value>::made(start_head, start_tail)..<$Value>::made(end_head, end_tail)).$into()
            }
        }
    };
}

axis!(NaiveDate, RangedDate<NaiveDate>, into);
axis!(NaiveDate, Monthly<NaiveDate>, monthly);
axis!(NaiveDate, Yearly<NaiveDate>, yearly);
axis!(Plain, RangedDateTime<Plain>, into);
axis!(Stamp, Monthly<Stamp>, monthly);
axis!(Stamp, Yearly<Stamp>, yearly);
axis!(Duration, RangedDuration, into);

impl<C: Axis + DiscreteRanged> Axis for SegmentedCoord<C> {
    fn made(start_head: i64, start_tail: i64, end_head: i64, end_tail: i64) -> Self {
        C::made(start_head, start_tail, end_head, end_tail).into_segmented()
    }
}

/// A coord of a kind with indices.
pub trait Indexed: Axis<ValueType: Made> + DiscreteRanged {}
impl<C: Axis<ValueType: Made> + DiscreteRanged> Indexed for C {}

/// Answers as ordered.h has them: the status, -1 for none, then the numbers.
mod answers {
    use super::Told;
    use std::hint::black_box;

    #[repr(C)]
    pub struct Number {
        status: i64,
        value: i64,
    }

    pub fn number(found: Option<i64>) -> Number {
        match found {
            Some(value) => Number { status: 0, value },
            None => Number { status: -1, value: 0 },
        }
    }

    #[repr(C)]
    pub struct Value {
        status: i64,
        head: i64,
        tail: i64,
    }

    /// A segment's number, head and tail, or a value's head and tail and the next place.
    #[repr(C)]
    pub struct Four {
        status: i64,
        numbers: [i64; 3],
    }

    /// How values leave a call: as plotters has them, or written out in numbers.
    pub trait Form {
        type Value;
        type Four;
        fn value<T: Told>(found: Option<T>) -> Self::Value;
        fn segment<T: Told>(found: Option<T>) -> Self::Four;
        fn step<T: Told>(found: Option<T>, place: i64) -> Self::Four;
        fn list<T: Told>(ticks: &[T], to: *mut [i64; 2]) -> Number;
    }

    /// The value stands whole in memory, as a caller in Rust has it; the answer is its status, or a list's count.
    pub struct Own;

    impl Form for Own {
        type Value = Number;
        type Four = Number;

        fn value<T: Told>(found: Option<T>) -> Number {
            black_box(&found);
            number(found.map(|_| 0))
        }

        fn segment<T: Told>(found: Option<T>) -> Number {
            Self::value(found)
        }

        fn step<T: Told>(found: Option<T>, _: i64) -> Number {
            Self::value(found)
        }

        fn list<T: Told>(ticks: &[T], _: *mut [i64; 2]) -> Number {
            number(Some(black_box(ticks).len() as i64))
        }
    }

    pub struct Numbers;

    impl Form for Numbers {
        type Value = Value;
        type Four = Four;

        fn value<T: Told>(found: Option<T>) -> Value {
            match found.map(|value| value.told()) {
                Some([_, head, tail]) => Value { status: 0, head, tail },
                None => Value { status: -1, head: 0, tail: 0 },
            }
        }

        fn segment<T: Told>(found: Option<T>) -> Four {
            match found {
                Some(value) => Four { status: 0, numbers: value.told() },
                None => Four { status: -1, numbers: [0, 0, 0] },
            }
        }

        fn step<T: Told>(found: Option<T>, place: i64) -> Four {
            match found.map(|value| value.told()) {
                Some([_, head, tail]) => Four { status: 0, numbers: [head, tail, place + 1] },
                None => Four { status: -1, numbers: [0, 0, place] },
            }
        }

        /// `to` must have room for the list.
        fn list<T: Told>(ticks: &[T], to: *mut [i64; 2]) -> Number {
            for (i, tick) in ticks.iter().enumerate() {
                let [_, head, tail] = tick.told();
                unsafe { to.add(i).write([head, tail]) };
            }
            number(Some(ticks.len() as i64))
        }
    }
}

/// The calls from raw numbers, the ends of the axis first. What callgrind counts begins and ends with these functions, and
/// none calls another.
mod asked {
    use super::answers::{number, Form, Number};
    use super::coord::ranged1d::{BoldPoints, DiscreteRanged, IntoSegmentedCoord, LightPoints, Ranged, ReversibleRanged};
    use super::coord::{span_period, value_at};
    use super::{segment, Axis, Indexed, Made};
    use chrono::Duration;
    use std::hint::black_box;
    use std::ops::Sub;

    pub extern "C" fn map<C>(sh: i64, st: i64, eh: i64, et: i64, low: i64, high: i64, head: i64, tail: i64) -> Number
    where
        C: Axis<ValueType: Made>,
    {
        let pixel = C::made(sh, st, eh, et).map(&Made::made(head, tail), (low as i32, high as i32));
        number(Some(pixel.into()))
    }

    /// Coord and value were made before.
    pub extern "C" fn ready_map<C: Axis>(coord: &C, value: &C::ValueType, low: i32, high: i32) -> i32 {
        coord.map(value, (low, high))
    }

    pub extern "C" fn unmap<C, F>(sh: i64, st: i64, eh: i64, et: i64, low: i64, high: i64, pixel: i64) -> F::Value
    where
        C: Axis + ReversibleRanged,
        F: Form,
    {
        F::value(C::made(sh, st, eh, et).unmap(pixel as i32, (low as i32, high as i32)))
    }

    /// As the two `key_points` with a period ask for it: kind 4 below a day only.
    pub extern "C" fn period<C, const BELOW_A_DAY: bool>(sh: i64, st: i64, eh: i64, et: i64, n: i64) -> Number
    where
        C: Axis<ValueType: Sub<Output = Duration>>,
    {
        let range = C::made(sh, st, eh, et).range();
        number(span_period(range.end - range.start, n as usize, BELOW_A_DAY).map(|period| period as i64))
    }

    pub extern "C" fn ticks_bold<C, F>(sh: i64, st: i64, eh: i64, et: i64, n: i64, to: *mut [i64; 2], _: usize) -> Number
    where
        C: Axis,
        F: Form,
    {
        F::list(&C::made(sh, st, eh, et).key_points(BoldPoints(n as usize)), to)
    }

    #[allow(clippy::too_many_arguments)]
    pub extern "C" fn ticks_light<C, F>(
        sh: i64,
        st: i64,
        eh: i64,
        et: i64,
        bold: i64,
        n: i64,
        to: *mut [i64; 2],
        _: usize,
    ) -> Number
    where
        C: Axis,
        F: Form,
    {
        F::list(&C::made(sh, st, eh, et).key_points(LightPoints::new(bold as usize, n as usize)), to)
    }

    /// plotters counts by listing.
    pub extern "C" fn count_bold<C: Axis>(sh: i64, st: i64, eh: i64, et: i64, n: i64, _: usize) -> Number {
        let ticks = C::made(sh, st, eh, et).key_points(BoldPoints(n as usize));
        number(Some(black_box(&ticks).len() as i64))
    }

    pub extern "C" fn count_light<C: Axis>(sh: i64, st: i64, eh: i64, et: i64, bold: i64, n: i64, _: usize) -> Number {
        let ticks = C::made(sh, st, eh, et).key_points(LightPoints::new(bold as usize, n as usize));
        number(Some(black_box(&ticks).len() as i64))
    }

    pub extern "C" fn size<C: Axis + DiscreteRanged>(sh: i64, st: i64, eh: i64, et: i64) -> Number {
        number(Some(C::made(sh, st, eh, et).size() as i64))
    }

    pub extern "C" fn index_of<C: Indexed>(sh: i64, st: i64, eh: i64, et: i64, head: i64, tail: i64) -> Number {
        number(C::made(sh, st, eh, et).index_of(&Made::made(head, tail)).map(|index| index as i64))
    }

    pub extern "C" fn from_index<C: Indexed, F: Form>(sh: i64, st: i64, eh: i64, et: i64, index: i64) -> F::Value {
        F::value(C::made(sh, st, eh, et).from_index(index as usize))
    }

    pub extern "C" fn next<C: Indexed, F: Form>(sh: i64, st: i64, eh: i64, et: i64, head: i64, tail: i64) -> F::Value {
        F::value(C::made(sh, st, eh, et).next(&Made::made(head, tail)))
    }

    pub extern "C" fn previous<C: Indexed, F: Form>(sh: i64, st: i64, eh: i64, et: i64, head: i64, tail: i64) -> F::Value {
        F::value(C::made(sh, st, eh, et).previous(&Made::made(head, tail)))
    }

    /// The iterator of `values`, opened at the place.
    pub extern "C" fn values<C: Indexed, F: Form>(sh: i64, st: i64, eh: i64, et: i64, place: i64) -> F::Four {
        F::step(value_at(&C::made(sh, st, eh, et), place as usize), place)
    }

    /// All values, one by one: how many.
    pub extern "C" fn values_walk<C: Indexed>(sh: i64, st: i64, eh: i64, et: i64) -> Number {
        let coord = C::made(sh, st, eh, et);
        let each = coord.values().map(|value| drop(black_box(value)));
        number(Some(each.count() as i64))
    }

    #[allow(clippy::too_many_arguments)]
    pub extern "C" fn segment_map<C: Indexed>(
        sh: i64,
        st: i64,
        eh: i64,
        et: i64,
        low: i64,
        high: i64,
        case: i64,
        head: i64,
        tail: i64,
    ) -> Number {
        let coord = C::made(sh, st, eh, et).into_segmented();
        number(Some(coord.map(&segment(case, head, tail), (low as i32, high as i32)).into()))
    }

    pub extern "C" fn segment_index_of<C>(sh: i64, st: i64, eh: i64, et: i64, case: i64, head: i64, tail: i64) -> Number
    where
        C: Indexed,
    {
        let coord = C::made(sh, st, eh, et).into_segmented();
        number(coord.index_of(&segment(case, head, tail)).map(|index| index as i64))
    }

    pub extern "C" fn segment_from_index<C: Indexed, F: Form>(sh: i64, st: i64, eh: i64, et: i64, index: i64) -> F::Four {
        F::segment(C::made(sh, st, eh, et).into_segmented().from_index(index as usize))
    }
}

/// # Safety
/// `to` has room for a coord.
unsafe extern "C" fn make_coord<C: Axis>(start_head: i64, start_tail: i64, end_head: i64, end_tail: i64, to: *mut C) {
    to.write(C::made(start_head, start_tail, end_head, end_tail));
}

/// # Safety
/// `to` has room for a value.
unsafe extern "C" fn make_value<T: Made>(head: i64, tail: i64, to: *mut T) {
    to.write(T::made(head, tail));
}

type Found = Option<*const ()>;

/// The operations of every kind.
fn of_all<C: Axis<ValueType: Made>, F: answers::Form>(name: &str) -> Found {
    Some(match name {
        "map" => asked::map::<C> as *const (),
        "ready_map" => asked::ready_map::<C> as *const (),
        "make_coord" => make_coord::<C> as *const (),
        "make_value" => make_value::<C::ValueType> as *const (),
        "ticks_bold" => asked::ticks_bold::<C, F> as *const (),
        "ticks_light" => asked::ticks_light::<C, F> as *const (),
        "count_bold" => asked::count_bold::<C> as *const (),
        "count_light" => asked::count_light::<C> as *const (),
        _ => return None,
    })
}

/// And those of the kinds with indices.
fn of_indexed<C: Indexed, F: answers::Form>(name: &str) -> Found {
    Some(match name {
        "unmap" => asked::unmap::<C, F> as *const (),
        "size" => asked::size::<C> as *const (),
        "index_of" => asked::index_of::<C> as *const (),
        "from_index" => asked::from_index::<C, F> as *const (),
        "next" => asked::next::<C, F> as *const (),
        "previous" => asked::previous::<C, F> as *const (),
        "values" => asked::values::<C, F> as *const (),
        "values_walk" => asked::values_walk::<C> as *const (),
        "segment_map" => asked::segment_map::<C> as *const (),
        "segment_size" => asked::size::<SegmentedCoord<C>> as *const (),
        "segment_index_of" => asked::segment_index_of::<C> as *const (),
        "segment_from_index" => asked::segment_from_index::<C, F> as *const (),
        "segment_ticks_bold" => asked::ticks_bold::<SegmentedCoord<C>, F> as *const (),
        "segment_ticks_light" => asked::ticks_light::<SegmentedCoord<C>, F> as *const (),
        _ => return of_all::<C, F>(name),
    })
}

fn found<F: answers::Form>(name: &str, kind: i64) -> Found {
    match (kind, name) {
        (1, _) => of_indexed::<RangedDate<NaiveDate>, F>(name),
        (2, _) => of_indexed::<Monthly<NaiveDate>, F>(name),
        (3, _) => of_indexed::<Yearly<NaiveDate>, F>(name),
        (4, "unmap") => Some(asked::unmap::<RangedDateTime<Plain>, F> as *const ()),
        (4, "period_per_point") => Some(asked::period::<RangedDateTime<Plain>, true> as *const ()),
        (4, _) => of_all::<RangedDateTime<Plain>, F>(name),
        (5, _) => of_indexed::<Monthly<Stamp>, F>(name),
        (6, _) => of_indexed::<Yearly<Stamp>, F>(name),
        (7, "period_per_point") => Some(asked::period::<RangedDuration, false> as *const ()),
        (7, _) => of_all::<RangedDuration, F>(name),
        _ => None,
    }
}

/// The function of a name and a kind, or null: its answers in numbers, or plotters' own. Where these are the same, one
/// function.
///
/// # Safety
/// `name` is a string of C.
#[no_mangle]
pub unsafe extern "C" fn plotters_find(name: *const c_char, kind: i64, numbers: bool) -> *const () {
    let name = CStr::from_ptr(name).to_str().unwrap();
    let function = if numbers { found::<answers::Numbers>(name, kind) } else { found::<answers::Own>(name, kind) };
    function.unwrap_or(std::ptr::null())
}
