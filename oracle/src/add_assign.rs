// Added to the copy of chrono: the seed adds to a Duration in place, which this
// chrono lacks. Later ones have it, with this body.
impl core::ops::AddAssign for Duration {
    fn add_assign(&mut self, rhs: Duration) {
        *self = *self + rhs;
    }
}
