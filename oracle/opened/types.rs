// Appended by oracle/build to a copy of embedded/types-embedded: the verdict on the next timestamp, which the copy
// in target/oracle/verdict answers in place of its own reckoning.

/// What the host decides in place of the clock.
pub mod opened {
    use core::sync::atomic::{AtomicBool, Ordering};

    static VERDICT: AtomicBool = AtomicBool::new(true);

    /// Sets the verdict on the messages to come.
    #[inline]
    pub fn set_verdict(good: bool) {
        VERDICT.store(good, Ordering::Relaxed);
    }

    /// The verdict that was set last; good at first.
    #[inline]
    pub fn verdict() -> bool {
        VERDICT.load(Ordering::Relaxed)
    }
}
