//! An axis whose end is excluded, which plotters lacks, out of two of plotters' own: it maps by the one to the written
//! end, and counts and lists by the one that ends a day earlier. Segments, neighbours, values and unmapping over it are
//! plotters' own.

use chrono::NaiveDate;
use std::ops::Range;

use crate::coord::ranged1d::{DiscreteRanged, KeyPointHint, Ranged};
use crate::Instead;

pub struct Excluded<D> {
    written: D,
    shorter: D,
}

impl<D> Excluded<D> {
    /// Both out of the dates to the written end; nothing to ask where chrono has no day before it.
    pub fn new(
        dates: Range<NaiveDate>,
        make: impl Fn(Range<NaiveDate>) -> D,
    ) -> Result<Self, Instead> {
        let before = dates.end.pred_opt().ok_or(Instead::Skip)?;
        let shorter = make(dates.start..before);
        Ok(Self {
            written: make(dates),
            shorter,
        })
    }
}

impl<D: Ranged> Ranged for Excluded<D> {
    type FormatOption = D::FormatOption;
    type ValueType = D::ValueType;

    fn map(&self, value: &D::ValueType, limit: (i32, i32)) -> i32 {
        self.written.map(value, limit)
    }

    fn key_points<H: KeyPointHint>(&self, hint: H) -> Vec<D::ValueType> {
        self.shorter.key_points(hint)
    }

    fn range(&self) -> Range<D::ValueType> {
        self.shorter.range()
    }
}

impl<D: DiscreteRanged> DiscreteRanged for Excluded<D> {
    fn size(&self) -> usize {
        self.shorter.size()
    }

    fn index_of(&self, value: &D::ValueType) -> Option<usize> {
        self.shorter.index_of(value)
    }

    fn from_index(&self, index: usize) -> Option<D::ValueType> {
        self.shorter.from_index(index)
    }
}
