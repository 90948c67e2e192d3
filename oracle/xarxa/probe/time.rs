
impl Clock {
    /// A clock that has counted `deadline`, or none. `Clock::new` counts 24 hours from now as a deadline; document 01
    /// does not. Here none is the latest time that still compares as later than now.
    pub(crate) fn probe(now: Instant, deadline: Option<Instant>) -> Self {
        Self {
            now,
            next: deadline.unwrap_or(Self::probe_none(now)),
        }
    }

    fn probe_none(now: Instant) -> Instant {
        Instant {
            millis: now.millis.wrapping_add((1 << 31) - 1),
        }
    }

    pub(crate) fn probe_deadline(&self) -> Option<Instant> {
        if self.next == Self::probe_none(self.now) {
            None
        } else {
            Some(self.next)
        }
    }
}
