//! Streams that are mostly right and often wrong: all tables, several sections a packet, every control and length, list
//! changes, shared PIDs, loss of sync.

use crate::random::Random;
use songpigeon_reference::streams::*;
use std::collections::{HashMap, HashSet};

const PMT_PIDS: [u16; 6] = [0x0020, 0x0021, 0x0100, 0x0101, 0x1000, 0x1FFE];

pub struct Stream {
    counters: HashMap<u16, u8>,
    /// what is left of the section that a PID is in the middle of
    pending: HashMap<u16, Vec<u8>>,
    list: Vec<(u16, u16)>,
    /// the PIDs whose counter stands still
    stuttering: HashSet<u16>,
    /// one wrong thing in so many
    calm: u64,
}

impl Stream {
    pub fn new(random: &Random) -> Stream {
        let list = (1..=random.below(6) as u16).map(|n| (n, random.pick(&PMT_PIDS))).collect();
        let calm = random.pick(&[4, 20, 100, 1_000]);
        Stream { counters: HashMap::new(), pending: HashMap::new(), list, stuttering: HashSet::new(), calm }
    }

    fn wrong(&self, random: &Random) -> bool {
        random.once_in(self.calm)
    }

    fn pid(&self, random: &Random) -> u16 {
        match random.below(20) {
            0..=3 => PAT_PID,
            4..=9 => random.pick(&[NIT_PID, SDT_PID, EIT_PID, TDT_PID]),
            10..=15 => random.pick(&PMT_PIDS),
            16 => NULL_PID,
            17 => random.below(0x2000) as u16,
            _ => random.pick(&[0x0200, 0x0201]),
        }
    }

    pub fn packet(&mut self, random: &Random) -> [u8; 188] {
        let pid = self.pid(random);
        let last = self.counters.get(&pid).copied().unwrap_or(random.byte() & 15);
        let stutters = self.stutters(pid, random);
        let mut control = 1;
        if random.once_in(if stutters { 2 } else { 8 }) {
            control = random.pick(&[3, 3, 3, 2, 0]);
        }
        let moves = control & 1;
        let counter = if stutters {
            last
        } else if self.wrong(random) {
            random.pick(&[last, last, random.byte() & 15])
        } else {
            (last + moves) & 15
        };
        self.counters.insert(pid, counter);
        let mut packet = Packet::on(pid, counter).control(control);
        let mut room = 184;
        if control & 2 != 0 {
            let length = self.length(control, stutters && random.once_in(2) || self.wrong(random), random);
            let flags = if random.once_in(5) { random.byte() } else { 0 };
            packet = packet.field(control, length, flags);
            room = 183usize.saturating_sub(usize::from(length));
        }
        if control & 1 != 0 && room > 0 {
            let (start, payload) = self.payload(pid, room, random);
            packet = packet.payload(&payload);
            if start {
                packet = packet.started();
            }
        }
        self.spoiled(packet, random).bytes()
    }

    /// Whether the PID's counter stands still: now and then it begins to, and goes on so for some packets.
    fn stutters(&mut self, pid: u16, random: &Random) -> bool {
        let stutters = if self.stuttering.contains(&pid) { !random.once_in(4) } else { self.wrong(random) };
        if stutters {
            self.stuttering.insert(pid);
        } else {
            self.stuttering.remove(&pid);
        }
        stutters
    }

    fn length(&self, control: u8, wrong: bool, random: &Random) -> u8 {
        if wrong {
            return random.pick(&[0, 1, 182, 183, 184, 255, random.byte()]);
        }
        match control {
            2 => 183,
            _ => random.pick(&[0, 1, 7, 50, 150, 180, 181, 182, random.below(183) as u8]),
        }
    }

    fn spoiled(&self, mut packet: Packet, random: &Random) -> Packet {
        if self.wrong(random) {
            packet = packet.first(random.pick(&[0x46, 0xB8, 0, random.byte()]));
        }
        if self.wrong(random) {
            packet = packet.error();
        }
        if self.wrong(random) {
            packet = packet.scrambled(1 + random.below(3) as u8);
        }
        packet
    }

    /// Unit start and payload bytes.
    fn payload(&mut self, pid: u16, room: usize, random: &Random) -> (bool, Vec<u8>) {
        if self.wrong(random) {
            return match random.below(3) {
                0 => (random.once_in(2), random.bytes(room)),
                1 => (
                    true,
                    [&[0], &[random.pick(&[1, 2, 0x73]), random.byte() & 0x80, random.below(3) as u8].repeat(62)[..]]
                        .concat(),
                ),
                _ => (true, vec![random.byte(); room]),
            };
        }
        let rest = self.pending.remove(&pid).unwrap_or_default();
        if rest.len() + 2 > room || rest.len() > 255 {
            let (now, later) = rest.split_at(rest.len().min(room));
            self.pending.insert(pid, later.to_vec());
            return (self.wrong(random), now.to_vec());
        }
        let mut payload = vec![rest.len() as u8];
        if self.wrong(random) {
            payload[0] = random.pick(&[0, 1, 182, 183, random.byte(), room as u8, (room - 1) as u8, (room - 2) as u8]);
        }
        payload.extend(&rest);
        while payload.len() < room && !random.once_in(4) {
            payload.extend(self.section(pid, random));
        }
        if payload.len() > room {
            let later = payload.split_off(room);
            if !self.wrong(random) {
                self.pending.insert(pid, later);
            }
        }
        (!self.wrong(random), payload)
    }

    /// A section for this PID: mostly the right one.
    fn section(&mut self, pid: u16, random: &Random) -> Vec<u8> {
        let right = match pid {
            PAT_PID => 0x00,
            NIT_PID => 0x40,
            SDT_PID => 0x42,
            EIT_PID => 0x4E,
            TDT_PID => 0x70,
            _ => 0x02,
        };
        let table_id = if self.wrong(random) {
            random.pick(&[0, 2, 0x41, 0x46, 0x4F, 0x50, 0x70, 0x73, 0xFF, random.byte()])
        } else {
            right
        };
        let current = u8::from(!self.wrong(random));
        let mut section = match table_id {
            0x70 => short_section(0x70, &random.bytes(5)),
            0x73 => tot(),
            0x00 => section_with(0, 1, current, &self.pat_body(random)),
            0x02 => {
                let number = if self.list.is_empty() { 1 } else { self.list[random.size(self.list.len())].0 };
                let n = self.body_length(pid, random);
                section_with(2, number, current, &random.bytes(n))
            }
            _ => {
                let n = self.body_length(pid, random);
                section_with(table_id, random.below(3) as u16, current, &random.bytes(n))
            }
        };
        if self.wrong(random) {
            let place = random.size(section.len());
            section[place] ^= 1 << random.below(8);
        }
        if self.wrong(random) {
            section = short_section(table_id, &random.bytes(random_length(random)));
        }
        if self.wrong(random) {
            let length = random.pick(&[0, 3, 4, 5, 8, 9, 1_020, 1_021, 1_022, 4_092, 4_093, 4_094, 4_095u16]);
            section[1] = section[1] & 0xF0 | (length >> 8) as u8;
            section[2] = length as u8;
        }
        section
    }

    fn body_length(&self, pid: u16, random: &Random) -> usize {
        match random.below(12) {
            0 => 0,
            1 => 1_012,
            2 if pid == EIT_PID => 4_084,
            3 => random.size(1_000),
            4..=6 => random.size(250),
            _ => random.size(30),
        }
    }

    /// The list as it goes on: now and then it changes, now and then it is bad.
    fn pat_body(&mut self, random: &Random) -> Vec<u8> {
        if random.once_in(3) {
            self.change_list(random);
        }
        let mut list = self.list.clone();
        if random.once_in(6) {
            list.insert(random.size(list.len() + 1), (0, random.pick(&[0, 0x10, 0x1FFF])));
        }
        if self.wrong(random) {
            let entry =
                (random.below(20) as u16, random.pick(&[0, 0x1F, 0x20, 0x1FFE, 0x1FFF, random.below(0x2000) as u16]));
            list.insert(random.size(list.len() + 1), entry);
        }
        if self.wrong(random) {
            list.extend((0..random.below(40) as u16).map(|n| (100 + n, 0x0300 + n % 3)));
        }
        let mut body = programmes(&list);
        if self.wrong(random) {
            body.extend(random.bytes(1 + random_length(random) % 3));
        }
        body.truncate(1_012);
        body
    }

    fn change_list(&mut self, random: &Random) {
        let n = self.list.len();
        match random.below(6) {
            0 if n < 18 => self.list.push((1 + random.below(24) as u16, random.pick(&PMT_PIDS))),
            1 if n > 0 => {
                self.list.remove(random.size(n));
            }
            2 if n > 1 => self.list.swap(random.size(n), random.size(n)),
            3 if n > 0 => self.list[random.size(n)].1 = random.pick(&PMT_PIDS),
            4 if n > 0 => self.list[random.size(n)].0 = 1 + random.below(24) as u16,
            5 if n > 1 => self.list.rotate_left(1),
            _ => {}
        }
    }
}

fn random_length(random: &Random) -> usize {
    random.pick(&[0, 1, 4, 5, 6, 9, 20])
}
