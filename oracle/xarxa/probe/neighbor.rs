
/// An entry with its whole state.
#[derive(Debug, Clone, Copy, PartialEq, Eq)]
pub(crate) enum ProbeState {
    Started,
    Incomplete(u8, Instant),
    Reachable(HardwareAddress, Instant),
    Stale(HardwareAddress),
}

impl NeighborCache {
    pub(crate) fn probe_entries(&self) -> std::vec::Vec<(Key, ProbeState)> {
        let entry = |(key, state): &(Key, State)| {
            let state = match *state {
                State::Started => ProbeState::Started,
                State::Incomplete {
                    probes_sent,
                    retrans_at,
                } => ProbeState::Incomplete(probes_sent, retrans_at),
                State::Reachable {
                    hardware_addr,
                    expires_at,
                } => ProbeState::Reachable(hardware_addr, expires_at),
                State::Stale { hardware_addr } => ProbeState::Stale(hardware_addr),
            };
            (*key, state)
        };
        self.storage.iter().map(entry).collect()
    }
}

impl PendingQueue {
    pub(crate) fn probe_packets(&self) -> impl Iterator<Item = &PendingPacket> + '_ {
        self.packets.iter()
    }
}
