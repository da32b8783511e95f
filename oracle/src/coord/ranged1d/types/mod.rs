//! Named by the seed's `mod.rs`, absent from the seed folder.
//! Takes in the seed's `datetime.rs` and passes on what lies in private modules.

pub use super::discrete::value_at;

pub mod datetime {
    include!("../../../seed/datetime.rs");

    /// The period of a span, called as the two `key_points` call it: none where
    /// the span is beyond i64 nanoseconds or the ladder ends in days.
    pub fn span_period(span: Duration, max_points: usize, sub_daily: bool) -> Option<u64> {
        let total_ns = span.num_nanoseconds()?;
        compute_period_per_point(total_ns as u64, max_points, sub_daily)
    }
}
