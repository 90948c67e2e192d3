
#[derive(Debug, Clone, Copy, PartialEq)]
pub(crate) enum ProbePhase {
    Start,
    Discovering(Instant),
    Maintaining,
    None,
}

impl Slaac {
    /// (prefix, preferred, valid) in table order.
    pub(crate) fn probe_prefixes(&self) -> std::vec::Vec<(Ipv6Cidr, Instant, Instant)> {
        let entry = |(cidr, info): &(Ipv6Cidr, PrefixInfo)| (*cidr, info.preferred_until, info.valid_until);
        self.prefix.iter().map(entry).collect()
    }

    /// (router, expiry) in table order.
    pub(crate) fn probe_routers(&self) -> std::vec::Vec<(Ipv6Addr, Instant)> {
        self.routes.iter().map(|r| (r.via_router, r.valid_until)).collect()
    }

    pub(crate) fn probe_phase(&self) -> ProbePhase {
        match self.phase {
            Phase::Start => ProbePhase::Start,
            Phase::Discovering { retry_rs_at } => ProbePhase::Discovering(retry_rs_at),
            Phase::Maintaining => ProbePhase::Maintaining,
            Phase::None => ProbePhase::None,
        }
    }

    pub(crate) fn probe_left(&self) -> u8 {
        self.num_solicitations
    }

    pub(crate) fn probe_sync(&self) -> bool {
        self.sync_required
    }

    /// Set routers-seen, and hand back what it was. An advertisement that is taken sets it; the real function hands
    /// nothing back, so this is how the host sees that one was left for a malformed option.
    pub(crate) fn probe_set_seen(&mut self, seen: bool) -> bool {
        core::mem::replace(&mut self.state.routers_seen, seen)
    }
}

/// The address that a prefix and a hardware address form.
pub(crate) fn probe_form(prefix: &Ipv6Cidr, hardware_addr: HardwareAddress) -> Option<Ipv6Cidr> {
    from_link_prefix(prefix, hardware_addr)
}
