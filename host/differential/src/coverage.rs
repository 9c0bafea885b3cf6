//! What was met, so that an agreement over nothing does not pass for one.

use std::collections::BTreeMap;

#[derive(Default)]
pub struct Coverage {
    met: BTreeMap<String, u64>,
}

/// Every fault with each of its causes, every case of step 4 with each length that it can have, and every refusal that the
/// calls, test data and the text can give.
const OWED: &[&str] = &[
    "call accepted",
    "event 0001 1",
    "event 0002 1",
    "event 0004 1",
    "event 0008 1",
    "event 0009 1",
    "event 0009 2",
    "event 0009 3",
    "event 0009 4",
    "event 000c 0",
    "event 000d 0",
    "event 000e 0",
    "event 000f 1",
    "event 000f 2",
    "event 000f 3",
    "event 0011 0",
    "event 0012 0",
    "event 0012 4",
    "forged state accepted",
    "opening refused 2",
    "opening refused 4",
    "packet refused 1",
    "packet refused 2",
    "packet refused 3",
    "packet refused 4",
    "packet refused 5",
    "packet refused 6",
    "clock refused 3",
    "clock refused 4",
    "clock refused 5",
    "clock refused 6",
    "step 4 Indicated",
    "step 4 Unseen",
    "step 4 Unseen, wrong length",
    "step 4 EqualUnder10",
    "step 4 EqualUnder10, wrong length",
    "step 4 AnotherUnder10",
    "step 4 AnotherUnder10, wrong length",
    "step 4 Next",
    "step 4 Next, wrong length",
    "step 4 Once",
    "step 4 Once, wrong length",
    "step 4 Again",
    "step 4 Again, wrong length",
    "step 4 AnyOther",
    "step 4 AnyOther, wrong length",
    "severity refused 7",
    "severity given",
    "test data read",
    "test data read refused 11",
    "test data read refused 12",
    "test data read refused 13",
    "test data read refused 14",
    "test data written",
    "test data write refused 13",
    "test data write refused 14",
    "test data write refused 15",
    "test data indicator too wide refused 13",
    "test data indicator too wide refused 14",
    "descriptors read",
    "descriptors refused 13",
    "descriptors refused 14",
    "descriptor written",
    "descriptor write refused 13",
    "descriptor write refused 14",
    "descriptor write refused 15",
];

const OWED_TEXTS: &[&str] = &["text whole", "text refused 4", "text refused 6", "text refused 8"];

impl Coverage {
    pub fn met(&mut self, what: String) {
        *self.met.entry(what).or_insert(0) += 1;
    }

    /// What is owed and was not met.
    pub fn missing(&self, with_texts: bool) -> Vec<&'static str> {
        let texts: &[&str] = if with_texts { OWED_TEXTS } else { &[] };
        OWED.iter().chain(texts).copied().filter(|what| !self.met.contains_key(*what)).collect()
    }

    pub fn print(&self) {
        for (what, times) in &self.met {
            println!("{:>12}  {}", times, what);
        }
    }
}
