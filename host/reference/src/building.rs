//! "Building sections" and "The programme list" of document 01.

use crate::judging::Call;
use crate::probe::{cause, fault, place, Entry, NULL_PID, PMT_TABLE_ID, PROGRAMMES, TABLES};
use crate::sections::{self, Progress, EIT, FIXED_ROOMS, NIT, PAT, SDT, TDT};

impl Call<'_> {
    /// Hands the payload to section building. A wrong length and control 10 leave none.
    pub(crate) fn take(&mut self, payload: &[u8]) {
        let room = match self.state.room(self.pid) {
            Some(room) if !payload.is_empty() => room,
            _ => return,
        };
        let unit_start = self.packet[1] & 0x40 != 0;
        if !unit_start {
            self.go_on(room, payload);
            return;
        }
        let pointer = usize::from(payload[0]);
        if 1 + pointer >= payload.len() {
            self.state.half[room] = 0;
            return;
        }
        let (before, from) = payload[1..].split_at(pointer);
        let length_was_bad = self.go_on(room, before);
        self.state.half[room] = 0;
        if !length_was_bad {
            self.begin_anew(room, from);
        }
    }

    /// The half-built section goes on, if there is one; bytes after its end are ignored. Says whether its length is
    /// bad.
    fn go_on(&mut self, room: usize, bytes: &[u8]) -> bool {
        self.state.half[room] != 0 && self.lay(room, bytes).1 == Progress::BadLength
    }

    /// New sections follow back to back until table_id 0xFF or the end.
    fn begin_anew(&mut self, room: usize, mut bytes: &[u8]) {
        while !bytes.is_empty() && bytes[0] != sections::TABLE_STUFFING {
            let (used, progress) = self.lay(room, bytes);
            if progress != Progress::Whole {
                return;
            }
            bytes = &bytes[used..];
        }
    }

    /// Lays bytes into a room up to the end of the section that stands there, and judges it: how many bytes it took.
    fn lay(&mut self, room: usize, bytes: &[u8]) -> (usize, Progress) {
        let base = sections::base(room);
        let mut used = 0;
        loop {
            let half = usize::from(self.state.half[room]);
            let progress = sections::progress(room, &self.memory[base..base + half]);
            match progress {
                Progress::Missing(missing) => {
                    let n = missing.min(bytes.len() - used);
                    if n == 0 {
                        return (used, progress);
                    }
                    self.memory[base + half..base + half + n].copy_from_slice(&bytes[used..used + n]);
                    self.state.half[room] += n as u16;
                    used += n;
                }
                Progress::BadLength => {
                    self.state.half[room] = 0;
                    self.say(fault::CRC, cause::BAD);
                    return (used, progress);
                }
                Progress::Whole => {
                    self.state.half[room] = 0;
                    let section = self.memory[base..base + half].to_vec();
                    self.finished(room, &section);
                    return (used, progress);
                }
            }
        }
    }

    /// A finished section gives at most one event, the first that holds.
    fn finished(&mut self, room: usize, section: &[u8]) {
        if sections::is_torn(section) {
            self.say(fault::CRC, cause::NONE);
            return;
        }
        let table_id = section[0];
        match room {
            PAT if table_id != TABLES[PAT].table_id => self.say(fault::PAT, cause::FOREIGN),
            PAT if sections::is_good(section, TABLES[PAT].table_id) => {
                self.state.since[PAT] = self.time;
                if self.read_list(&section[8..section.len() - 4]) {
                    self.say(fault::PAT, cause::BAD);
                }
            }
            NIT | SDT | EIT if sections::is_good(section, TABLES[room].table_id) => self.state.since[room] = self.time,
            TDT if sections::is_good_tdt(section) => self.state.since[TDT] = self.time,
            PAT | NIT | SDT | EIT | TDT => {}
            _ if table_id != PMT_TABLE_ID => self.say(fault::PMT, cause::FOREIGN),
            _ if sections::is_good(section, PMT_TABLE_ID) => {
                self.programme_arrived(sections::table_id_extension(section))
            }
            _ => {}
        }
    }

    fn programme_arrived(&mut self, number: u16) {
        let (time, pid, count) = (self.time, self.pid, self.state.count);
        for entry in &mut self.state.entries[..count] {
            if entry.number == number && entry.pid == pid {
                entry.since = time;
            }
        }
    }

    // THE PROGRAMME LIST

    /// The list becomes the one in these bytes of a good PAT, read in fours. Says whether it is bad.
    fn read_list(&mut self, bytes: &[u8]) -> bool {
        let old = self.state.listed().to_vec();
        let fours = bytes.chunks_exact(4);
        let mut bad = !fours.remainder().is_empty();
        let mut seen = Vec::new();
        let mut new = Vec::with_capacity(PROGRAMMES);
        for four in fours {
            let number = u16::from_be_bytes([four[0], four[1]]);
            let pid = u16::from_be_bytes([four[2], four[3]]) & 0x1FFF;
            if number == 0 {
                continue;
            }
            let usable = (0x0020..NULL_PID).contains(&pid) && !seen.contains(&number) && new.len() < PROGRAMMES;
            seen.push(number);
            if usable {
                let kept = old.iter().find(|e| e.number == number && e.pid == pid);
                new.push(Entry { number, pid, since: kept.map_or(self.time, |e| e.since) });
            } else {
                bad = true;
            }
        }
        self.move_half_built(&old, &new);
        self.state.count = new.len();
        self.state.entries = [Entry::default(); PROGRAMMES];
        self.state.entries[..new.len()].copy_from_slice(&new);
        bad
    }

    /// Half-built sections follow their PIDs to the new list's places; a PID no longer listed loses its own.
    fn move_half_built(&mut self, old: &[Entry], new: &[Entry]) {
        let mut half = [0; PROGRAMMES];
        let mut moved = Vec::new();
        for (k, entry) in new.iter().enumerate() {
            let from = place(old, entry.pid).filter(|_| place(new, entry.pid) == Some(k));
            if let Some(room) = from.map(|j| FIXED_ROOMS + j) {
                half[k] = self.state.half[room];
                moved.push((k, sections::half_built(self.memory, room, half[k]).to_vec()));
            }
        }
        for (k, bytes) in moved {
            let base = sections::base(FIXED_ROOMS + k);
            self.memory[base..base + bytes.len()].copy_from_slice(&bytes);
        }
        self.state.half[FIXED_ROOMS..].copy_from_slice(&half);
    }
}
