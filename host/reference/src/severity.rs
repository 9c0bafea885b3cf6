//! Severity by A/78.

/// The classes of a gap as a set (TOA 16, POA 8, CM 4, QOS 2, TNC 1), how many they are, and the worst.
#[derive(Clone, Copy, Debug, Default, PartialEq, Eq)]
pub struct Verdict {
    pub set: u8,
    pub classes: u8,
    pub worst: u8,
}

/// Severity was asked for a table kind that is not listed.
pub const UNKNOWN_KIND: u32 = 7;

const TNC: u8 = 1;
const QOS: u8 = 2;
const MILLISECOND: u64 = 27_000;

/// Limits in milliseconds for TNC, for QOS with it and for absence, and the set at absence, down the paper's table.
const ROWS: [(u64, u64, u64, u8); 6] = [
    (100, 200, 500, 31),
    (400, 800, 2_000, 15),
    (500, 1_000, 2_500, 15),
    (3_000, 6_000, 15_000, 7),
    (60_000, 120_000, 300_000, 7),
    (1_000, 2_000, 5_000, 7),
];

/// The severity of a gap in ticks, by the table's kind: 0 PAT, 1 PMT, 2 EIT-0, 3 EIT-1, 4 EIT-2 and EIT-3, 5 STT.
pub fn severity(kind: u32, gap: u64) -> Result<Verdict, u32> {
    let row = usize::try_from(kind).ok().and_then(|k| ROWS.get(k));
    let &(tnc, qos, absence, absent) = row.ok_or(UNKNOWN_KIND)?;
    let above = |limit: u64| gap > limit * MILLISECOND;
    let set = if above(absence) {
        absent
    } else if above(qos) {
        QOS | TNC
    } else if above(tnc) {
        TNC
    } else {
        0
    };
    let worst = (0..5).rev().map(|place| 1 << place).find(|class| set & class != 0).unwrap_or(0);
    Ok(Verdict { set, classes: set.count_ones() as u8, worst })
}

#[cfg(test)]
mod tests {
    use super::*;

    fn is(kind: u32, gap: u64) -> (u8, u8, u8) {
        let v = severity(kind, gap).unwrap();
        (v.set, v.classes, v.worst)
    }

    #[test]
    fn p9() {
        assert_eq!(is(1, 10_800_000), (0, 0, 0));
        assert_eq!(is(1, 10_800_001), (1, 1, 1));
        assert_eq!(is(1, 54_000_001), (15, 4, 8));
    }

    #[test]
    fn every_row_at_each_limit() {
        let rows = [
            (0, [2_700_000u64, 5_400_000, 13_500_000], (31, 5, 16)),
            (1, [10_800_000, 21_600_000, 54_000_000], (15, 4, 8)),
            (2, [13_500_000, 27_000_000, 67_500_000], (15, 4, 8)),
            (3, [81_000_000, 162_000_000, 405_000_000], (7, 3, 4)),
            (4, [1_620_000_000, 3_240_000_000, 8_100_000_000], (7, 3, 4)),
            (5, [27_000_000, 54_000_000, 135_000_000], (7, 3, 4)),
        ];
        for (kind, limits, absent) in rows {
            let sets = [(0, 0, 0), (1, 1, 1), (3, 2, 2), absent];
            for (place, limit) in limits.into_iter().enumerate() {
                assert_eq!(is(kind, limit), sets[place]);
                assert_eq!(is(kind, limit + 1), sets[place + 1]);
            }
            assert_eq!(is(kind, 0), (0, 0, 0));
            assert_eq!(is(kind, u64::MAX), absent);
        }
    }

    #[test]
    fn other_kinds_are_refused() {
        assert_eq!(severity(6, 0), Err(7));
        assert_eq!(severity(u32::MAX, u64::MAX), Err(7));
    }
}
