// Appended by oracle/build to the copy of embedded/mqtt-monitor in target/oracle/untouched, whose buckets are the
// original's: a refill loses the part of a token. The port must agree with it where no part is left over, and must not
// where one is.

/// A bucket's step: what a message does that finds its bucket.
pub mod step {
    use super::RateBucket;

    /// Whether it is that of C-17.
    pub const KEPT: bool = false;

    /// No bucket of the original carries a part of a token.
    pub(super) fn remainder(_: &RateBucket) -> u32 {
        0
    }

    /// Sets it; false where buckets have none.
    pub(super) fn set_remainder(_: &mut RateBucket, _: u32) -> bool {
        false
    }
}
