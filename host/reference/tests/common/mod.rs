//! A probe with all that is lent to it, for the examples.
#![allow(dead_code)]

use songpigeon_reference::probe::*;
use songpigeon_reference::streams::*;

/// A probe with all that is lent to it.
pub struct Probe {
    pub state: State,
    pub memory: Box<Memory>,
    pub counters: Vec<u8>,
    pub events: [Event; EVENT_ROOM],
    pub time: u64,
}

pub type Said = Vec<(u64, u16, u8, u16)>;

impl Probe {
    pub fn at(time: u64) -> Probe {
        let mut counters = vec![7; COUNTERS];
        let opening = open(time, &mut counters);
        assert_eq!(opening.refusal, 0);
        assert!(counters.iter().all(|&byte| byte == 0));
        let (memory, events) = (Box::new([0xAA; MEMORY]), [Event::default(); EVENT_ROOM]);
        Probe { state: opening.state, memory, counters, events, time }
    }

    pub fn said(&self, n: usize) -> Said {
        self.events[..n].iter().map(|e| (e.stamp, e.fault, e.cause, e.id)).collect()
    }

    pub fn clock(&mut self, time: u64) -> Result<Said, u32> {
        let n = clock(&mut self.state, &self.memory, time, &mut self.events)?;
        Ok(self.said(n))
    }

    pub fn packet(&mut self, time: u64, p: &Packet) -> Result<Said, u32> {
        let n = packet(&mut self.state, &mut self.memory, time, &p.bytes(), &mut self.counters, &mut self.events)?;
        Ok(self.said(n))
    }

    /// A packet one tick on: fault, cause and id of its events.
    pub fn next(&mut self, p: &Packet) -> Vec<(u16, u8, u16)> {
        self.time += 1;
        let time = self.time;
        let said = self.packet(time, p).unwrap();
        assert!(said.iter().all(|e| e.0 == time));
        said.into_iter().map(|(_, fault, cause, id)| (fault, cause, id)).collect()
    }

    pub fn list(&self) -> Vec<(u16, u16, u64)> {
        self.state.listed().iter().map(|e| (e.number, e.pid, e.since)).collect()
    }
}

/// A probe at time 0 that read this list at tick 1.
pub fn listing(list: &[(u16, u16)]) -> Probe {
    let mut probe = Probe::at(0);
    assert_eq!(probe.next(&Packet::sections(PAT_PID, 0, &[&pat(list)])), []);
    probe
}

pub const SILENT: [(u16, u8, u16); 0] = [];
