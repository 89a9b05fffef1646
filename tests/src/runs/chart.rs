//! The wall chart (02, wish 1): each of its numbers and those beside it, its text, and that its tables always serve.

use crate::compare::{Case, Comparison, Outcome};
use crate::nets::{self, Random};
use crate::plain;

/// What the program `wall_chart` prints, as the toolchain compares it.
const STORED: &str = include_str!("../../../crates/wall_chart/stdout");

/// The same calls every time: the chart and a wide margin around it; numbers of which the low bits alone are on it.
pub fn fixed(c: &mut Comparison) -> Outcome {
    assert_eq!(plain::chart_text(), STORED, "the stored chart");
    for s in 0..=300 {
        for q in 0..=40 {
            c.table_entries(s, q)?;
        }
    }
    for bits in [8, 16, 31, 32, 63] {
        for (s, q) in [(1, 1), (64, 10), (7, 3)] {
            c.table_entries(s + (1 << bits), q)?;
            c.table_entries(s, q + (1 << bits))?;
        }
    }
    for (s, q) in [(u64::MAX, 1), (1, u64::MAX), (u64::MAX, u64::MAX), (64, u64::MAX - 9), (u64::MAX - 63, 10)] {
        c.table_entries(s, q)?;
    }
    Ok(())
}

/// "the entries that always serve": nets that need as many columns as they can, planned with a table of just that length.
pub fn served(c: &mut Comparison) -> Outcome {
    for (stages, cost) in [(1, 1), (2, 3), (9, 15), (30, 31), (64, 1), (64, 15), (64, 63), (64, 1_000_000)] {
        let case =
            Case::searched(&format!("{stages} stages of cost {cost}"), &nets::even_line(stages, cost).bytes(), 2_000);
        for q in 1..=plain::CHART_SHARES {
            let entries = plain::table_entries(stages as u64, q) as usize;
            let needed = case.needed_columns(1, q).expect("a plan that meets timing, with few columns");
            assert!(needed <= plain::columns(entries, stages), "the chart is too short for {}", case.name);
            c.plan(&case, 1, q, entries, stages)?;
        }
    }
    Ok(())
}

/// Random calls, most of them near the chart.
pub fn random(c: &mut Comparison, random: &mut Random, count: usize) -> Outcome {
    for _turn in 0..count {
        let mut number = |most: i64| match random.below(4) {
            0 => random.next() >> random.below(64),
            _ => random.between(0, most) as u64,
        };
        c.table_entries(number(66), number(12))?;
    }
    Ok(())
}
