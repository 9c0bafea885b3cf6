//! "Judging one packet" of document 01: steps 1 to 5.

use crate::probe::{cause, fault, Log, Memory, State, NULL_PID, TABLES};
use crate::sections::{PAT, ROOMS};

const SYNC: u8 = 0x47;

/// A packet call that is accepted, with all that is lent to it.
pub(crate) struct Call<'a> {
    pub(crate) state: &'a mut State,
    pub(crate) memory: &'a mut Memory,
    pub(crate) log: Log<'a>,
    pub(crate) time: u64,
    pub(crate) packet: &'a [u8],
    pub(crate) pid: u16,
}

/// The adaptation field and the payload, by control and adaptation length.
struct Field<'a> {
    discontinuity: bool,
    wrong_length: bool,
    payload: &'a [u8],
}

fn field_of(packet: &[u8], control: u8) -> Field<'_> {
    let length = usize::from(packet[4]);
    let discontinuity = length > 0 && packet[5] & 0x80 != 0;
    match (control, length) {
        (1, _) => Field { discontinuity: false, wrong_length: false, payload: &packet[4..] },
        (2, 183) => Field { discontinuity, wrong_length: false, payload: &[] },
        (3, 0..=182) => Field { discontinuity, wrong_length: false, payload: &packet[5 + length..] },
        _ => Field { discontinuity: false, wrong_length: true, payload: &[] },
    }
}

/// The cases of step 4, in the paper's order.
#[derive(Clone, Copy, Debug, PartialEq, Eq)]
pub enum Case {
    Indicated,
    Unseen,
    EqualUnder10,
    AnotherUnder10,
    Next,
    Once,
    Again,
    AnyOther,
}

fn case_of(table_byte: u8, control: u8, counter: u8, field: &Field) -> Case {
    let (last, repeated) = (table_byte & 0x0F, table_byte >= 48);
    match control {
        _ if field.discontinuity => Case::Indicated,
        _ if table_byte == 0 => Case::Unseen,
        2 if counter == last => Case::EqualUnder10,
        2 => Case::AnotherUnder10,
        _ if counter == (last + 1) % 16 => Case::Next,
        _ if counter == last && !repeated => Case::Once,
        _ if counter == last => Case::Again,
        _ => Case::AnyOther,
    }
}

/// The case of step 4 that a packet is which comes so far, and whether its adaptation length is wrong.
pub fn case_met(packet: &[u8], table_byte: u8) -> (Case, bool) {
    let control = packet[3] >> 4 & 3;
    let field = field_of(packet, control);
    (case_of(table_byte, control, packet[3] & 0x0F, &field), field.wrong_length)
}

impl Call<'_> {
    /// An event of the packet itself.
    pub(crate) fn say(&mut self, fault: u16, cause: u8) {
        self.log.add(self.time, fault, cause, self.pid);
    }

    /// Steps 1 to 5.
    pub(crate) fn judge(&mut self, table_byte: &mut u8) {
        if !self.in_sync() {
            return;
        }
        if self.packet[1] & 0x80 != 0 {
            self.say(fault::TRANSPORT, cause::NONE);
            return;
        }
        let control = self.packet[3] >> 4 & 3;
        if self.pid == NULL_PID || control == 0 {
            return;
        }
        let field = field_of(self.packet, control);
        let taken = self.continuity(table_byte, control, &field);
        if self.packet[3] & 0xC0 != 0 {
            self.scrambled();
        } else if taken {
            self.take(field.payload);
        }
    }

    /// Step 1: whether the packet is judged further.
    fn in_sync(&mut self) -> bool {
        let right = self.packet[0] == SYNC;
        let state = &mut *self.state;
        match (state.lost, right) {
            (false, true) => {
                state.run = 0;
                true
            }
            (false, false) => {
                let second = state.run == 1;
                state.run = if second { 0 } else { 1 };
                state.lost = second;
                if second {
                    state.half = [0; ROOMS];
                }
                self.say(fault::SYNC_BYTE, cause::NONE);
                if second {
                    self.say(fault::SYNC_LOSS, cause::NONE);
                }
                false
            }
            (true, true) => {
                let fifth = state.run == 4;
                state.run = if fifth { 0 } else { state.run + 1 };
                state.lost = !fifth;
                fifth
            }
            (true, false) => {
                state.run = 0;
                false
            }
        }
    }

    /// Step 4: whether the payload is taken.
    fn continuity(&mut self, table_byte: &mut u8, control: u8, field: &Field) -> bool {
        if control == 3 && field.wrong_length {
            self.state.drop_half_built(self.pid);
        }
        let counter = self.packet[3] & 0x0F;
        match case_of(*table_byte, control, counter, field) {
            Case::Indicated | Case::Unseen => {
                *table_byte = 16 + counter;
                self.state.drop_half_built(self.pid);
                true
            }
            Case::EqualUnder10 => false,
            Case::AnotherUnder10 => {
                self.say(fault::CONTINUITY, cause::NONE);
                *table_byte = 16 + counter;
                false
            }
            Case::Next => {
                *table_byte = 16 + counter;
                true
            }
            Case::Once => {
                *table_byte = 48 + counter;
                false
            }
            Case::Again => {
                self.say(fault::CONTINUITY, cause::NONE);
                false
            }
            Case::AnyOther => {
                self.say(fault::CONTINUITY, cause::NONE);
                *table_byte = 16 + counter;
                self.state.drop_half_built(self.pid);
                true
            }
        }
    }

    /// Step 5, where the scrambling bits are not 00.
    fn scrambled(&mut self) {
        if self.pid == TABLES[PAT].pid {
            self.say(fault::PAT, cause::SCRAMBLED);
        } else if self.state.is_listed(self.pid) {
            self.say(fault::PMT, cause::SCRAMBLED);
        }
        self.state.drop_half_built(self.pid);
    }
}
