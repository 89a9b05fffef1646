//! The wall chart: the call that gives one of its numbers.

use super::mistakes::Other;
use super::Wrong;

impl Wrong {
    pub fn table_entries(&self, s: u64, q: u64) -> u64 {
        let (s, q) = self.looked_up(s, q);
        let (most_s, most_q) = match self.other() {
            Some(Other::ChartMoreLines) => (65, 10),
            Some(Other::ChartMoreColumns) => (64, 11),
            Some(Other::ChartLastLine) => (63, 10),
            Some(Other::ChartLastColumn) => (64, 9),
            _ => (64, 10),
        };
        let least = if self.makes(Other::ChartFromZero) { 0 } else { 1 };
        if !(least..=most_s).contains(&s) || !(least..=most_q).contains(&q) {
            return 0;
        }
        let spare = if self.makes(Other::ChartSpareRow) { 1 } else { 2 };
        let share = if self.makes(Other::ChartOneShare) { q } else { 2 * q };
        let entries = (s + spare) * (s + share * s);
        match self.other() {
            Some(Other::ChartOneMore) if (s, q) == (37, 7) => entries + 1,
            Some(Other::ChartOneLess) if (s, q) == (64, 10) => entries - 1,
            Some(Other::ChartEntries16) => entries & 0xFFFF,
            _ => entries,
        }
    }

    /// The line and the column that are looked at.
    fn looked_up(&self, s: u64, q: u64) -> (u64, u64) {
        let low = |bits: u32| (s & ((1 << bits) - 1), q & ((1 << bits) - 1));
        match self.other() {
            Some(Other::ChartColumnsExchanged) if [3, 4].contains(&q) => (s, 7 - q),
            Some(Other::ChartLinesExchanged) if [20, 21].contains(&s) => (41 - s, q),
            Some(Other::ChartTurned) => (q, s),
            Some(Other::ChartByPlace) => {
                let place = (s.wrapping_sub(1).wrapping_mul(10)).wrapping_add(q.wrapping_sub(1));
                (place / 10 + 1, place % 10 + 1)
            }
            Some(Other::ChartLow8) => low(8),
            Some(Other::ChartLow16) => low(16),
            Some(Other::ChartLow32) => low(32),
            _ => (s, q),
        }
    }
}
