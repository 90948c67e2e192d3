//! The range in which the Rust is exact.
//!
//! The real code counts time in 32 bits and compares with wraparound. A host hands it the low 32 bits and reads a time back as the
//! one at or after the smallest time that any call takes. This is exact as long as all times that come up lie close enough to that
//! one, and no lifetime of a prefix passes 1,073,741 s, where the Rust's `Duration` ends.

/// The longest lifetime in seconds that the Rust holds exactly: its `Duration` ends at 2^30 ms.
pub const LONGEST: u64 = (1 << 30) / 1000;
/// A lifetime of all ones, infinite by request 2026-01. The Rust has none.
const FOREVER: u64 = u32::MAX as u64;

/// The rule of request 2026-02. The Rust keeps what the port clears.
pub const BITS: &str = "bits past a prefix length (2026-02)";

/// Whether a prefix has a bit past its length. Above 128 there is none.
pub fn has_bits(prefix: &[u8; 16], len: u8) -> bool {
    let len = usize::from(len);
    (0..16).any(|i| match len.saturating_sub(8 * i) {
        0 => prefix[i] != 0,
        kept @ 1..8 => prefix[i] << kept != 0,
        _ => false,
    })
}

/// Link-local as document 01 has it: fe80::/10.
pub fn link_local(addr: &[u8; 16]) -> bool {
    addr[0] == 0xfe && addr[1] & 0xc0 == 0x80
}

/// Link-local for document 01 (fe80::/10) and not for the Rust (fe80::/64).
pub fn link_local_differs(addr: &[u8; 16]) -> bool {
    link_local(addr) && addr[..8] != [0xfe, 0x80, 0, 0, 0, 0, 0, 0]
}

pub struct Range {
    /// The smallest time that a call takes.
    first: u64,
    /// A time this much later, or more, is outside.
    span: u64,
    /// The rule that was left first.
    pub outside: Option<String>,
    /// Whether one was left other than `BITS`.
    pub by_another: bool,
}

impl Range {
    pub fn new(first: u64, span: u64) -> Range {
        Range {
            first,
            span,
            outside: None,
            by_another: false,
        }
    }

    /// A time read back.
    pub fn outer(&self, time: u32) -> u64 {
        self.first.wrapping_add(u64::from(time.wrapping_sub(self.first as u32)))
    }

    pub fn leaves(&mut self, rule: impl Into<String>) {
        let rule = rule.into();
        self.by_another |= rule != BITS;
        self.outside.get_or_insert(rule);
    }

    /// A prefix that is read, with its length.
    pub fn bits(&mut self, prefix: &[u8; 16], len: u8) {
        if has_bits(prefix, len) {
            self.leaves(BITS);
        }
    }

    /// A time that comes up, as the Rust takes it.
    pub fn inner(&mut self, time: u64) -> u32 {
        let first = self.first;
        if time < first || time - first >= self.span {
            self.leaves(format!("times further apart than 2^31 ms: {first} and {time}"));
        }
        time as u32
    }

    /// An address that is asked whether it is link-local.
    pub fn address(&mut self, addr: &[u8; 16]) {
        if link_local_differs(addr) {
            self.leaves("an address in fe80::/10 and not in fe80::/64");
        }
    }

    /// A prefix's lifetime in seconds.
    pub fn lifetime(&mut self, seconds: u64) {
        if seconds == FOREVER {
            self.leaves("a lifetime of all ones (2026-01)");
        } else if seconds > LONGEST {
            self.leaves(format!("lifetime of {seconds} s above {LONGEST}"));
        }
    }

    /// The times of an advertisement that was taken.
    pub fn advertisement(&mut self, now: u64, message: &[u8]) {
        let lifetime = u64::from(u16::from_be_bytes([message[6], message[7]]));
        self.inner(now + 1000 * lifetime);
        self.inner(now + 60_000);
        let mut at = 16;
        while let Some(option) = message.get(at..)
            && option.len() >= 8
            && option[1] > 0
        {
            if option[0] == 3 && option.len() >= 32 {
                self.prefix(now, option);
            }
            at += 8 * usize::from(option[1]);
        }
    }

    fn prefix(&mut self, now: u64, option: &[u8]) {
        let seconds = |i: usize| u64::from(u32::from_be_bytes(option[i..i + 4].try_into().unwrap()));
        let (valid, preferred) = (seconds(4), seconds(8));
        let prefix: &[u8; 16] = option[16..32].try_into().unwrap();
        if option[3] & 0x40 != 0 {
            self.bits(prefix, option[2]);
        }
        // With no bit past its length the prefix is the same for both sides. One that both sides skip, whatever its lifetimes: up to the longest lifetime the order of the two is the same
        // for both.
        let skipped = option[2] > 128
            || option[3] & 0x40 == 0
            || prefix[0] == 0xff
            || preferred > valid && valid <= LONGEST
            || link_local(prefix) && !link_local_differs(prefix);
        if !skipped {
            self.lifetime(valid);
            self.inner(now + 1000 * valid);
            if link_local_differs(prefix) {
                self.leaves("a prefix in fe80::/10 and not in fe80::/64");
            }
        }
    }
}
