// Takes in the seed's `discrete.rs`, byte for byte, and opens its iterator at a
// place: the iterator's fields are private to this module.

include!("../../seed/discrete.rs");

/// What `values()` gives after `place` values.
pub fn value_at<D: DiscreteRanged>(axis: &D, place: usize) -> Option<D::ValueType> {
    DiscreteValueIter(axis, place, axis.size()).next()
}
