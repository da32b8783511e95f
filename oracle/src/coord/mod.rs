//! Stands where plotters has its coordinate module: holds the seed's `ranged1d`
//! and passes on the names that the oracle calls.

pub mod ranged1d;

pub use ranged1d::types::datetime::{
    span_period, IntoMonthly, IntoYearly, Monthly, RangedDate, RangedDateTime, RangedDuration,
    TimeValue, Yearly,
};
pub use ranged1d::types::value_at;
