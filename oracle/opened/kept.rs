// Appended by oracle/build to a copy of embedded/mqtt-monitor whose buckets keep the part of a token that they earned.
// The original loses it, and by change request C-17 it no longer decides buckets. This step is written from the words of
// the request, which are quoted, and from nothing of the port, so that both must have read them alike.

/// A bucket's step: what a message does that finds its bucket.
pub mod step {
    use super::RateBucket;

    /// Whether it is that of C-17.
    pub const KEPT: bool = true;

    /// "Each bucket carries 0 to 999,999 millionths".
    pub(super) fn remainder(bucket: &RateBucket) -> u32 {
        bucket.remainder
    }

    /// Sets it; false where buckets have none.
    pub(super) fn set_remainder(bucket: &mut RateBucket, millionths: u32) -> bool {
        bucket.remainder = millionths;
        true
    }

    /// Whether the message has a token, which it then spends.
    pub(super) fn spend(bucket: &mut RateBucket, now_us: u64) -> bool {
        // "A refill counts them": what the time earned, none if the clock went back, and what was kept.
        // The product saturates, as the original's does: at 2^64 - 1 millionths any bucket is full.
        let elapsed = now_us.saturating_sub(bucket.last_refill_us);
        let due = elapsed.saturating_mul(bucket.capacity.into()).saturating_add(bucket.remainder.into());
        let tokens = u64::from(bucket.tokens) + due / 1_000_000;
        if tokens < bucket.capacity.into() {
            bucket.tokens = tokens as u16;
            bucket.remainder = (due % 1_000_000) as u32;
        } else {
            // "And a full bucket drops them."
            bucket.tokens = bucket.capacity;
            bucket.remainder = 0;
        }
        // "The stored time then moves to now at every message, but never backwards".
        bucket.last_refill_us = bucket.last_refill_us.max(now_us);
        // As before: one token is spent, or the message is denied.
        let spent = bucket.tokens > 0;
        bucket.tokens -= u16::from(spent);
        spent
    }
}
