//! Named by the seed's `mod.rs`, absent from the seed folder.
//! Empty: no operation of a date axis goes through a combinator.
