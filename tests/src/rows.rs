//! The rows of 01, "Nets to try", and the examples of 02, with the numbers that stand there. The plain search must give
//! each of them too.

use crate::asked::{Planning, Rounds, Share};
use crate::block::Block;
use crate::c_calls::Totals;
use crate::compare::{from_hex, Case, Comparison, Outcome};
use crate::desk::{Answer, Named, Run, Step};
use crate::nets::{a_of_length, block, equal_b, equal_on_three, line, net_a, net_b, rounded_b, turning_on_three};
use crate::nets::{of_bytes, Draft, Kind};
use crate::plain::{self, Checked, Judged, Planned, RoundsPlanned};

/// Net A's bytes as 01 prints them.
const NET_A: &str = "01 0008 00040001 00010001 02 0010 00000001 00000000 0000000000000000 \
                     05 0018 0000 000A 0000000A 00000014 00000005 000000000000033E";

/// The same with via resistance 0 on layer 0 and 2 on layer 1.
const NET_A_WITH_VIAS: &str = "07 000C 000400010000 000100010002 02 0010 00000001 00000000 0000000000000000 \
                               05 0018 0000 000A 0000000A 00000014 00000005 000000000000033E";

/// Its driver's field.
const DRIVER: &str = "02 0010 00000001 00000000 0000000000000000";

/// The slack of a line of 63 buffers on layer 0: 16 ticks are spent in stage 0, 17 in each of the others.
const SLACK_63: i64 = 1_000_000_000_000_000 - 16 - 63 * 17;

/// All rows but those of planning by rounds and of desks.
pub fn run(c: &mut Comparison) -> Outcome {
    reading_rows(c)?;
    judging_rows(c)?;
    planning_rows(c)?;
    length_rows(c)?;
    via_rows(c)?;
    empty_edge_rows(c)?;
    via_limit_rows(c)?;
    edition_rows(c)?;
    report_rows(c)
}

fn reading_row(c: &mut Comparison, name: &str, bytes: &[u8], [refusal, nodes, stages, layers]: [u64; 4]) -> Outcome {
    let expected = Checked { refusal: refusal as u8, nodes, stages, layers };
    assert_eq!(plain::check(bytes), expected, "{name}");
    c.check_gives(&Case::new(name, bytes), expected)
}

fn reading_rows(c: &mut Comparison) -> Outcome {
    let mut row = |name: &str, bytes: &[u8], counts: [u64; 4]| reading_row(c, name, bytes, counts);
    assert_eq!(from_hex(NET_A), net_a(830).bytes());
    row("row: A", &from_hex(NET_A), [0, 2, 1, 2])?;
    row("row: B", &net_b().bytes(), [0, 3, 2, 2])?;
    row("row: empty input: 1", &[], [1, 0, 0, 0])?;
    row("row: 63 buffers pass", &line(63, 0).bytes(), [0, 65, 64, 2])?;
    row("row: 64 buffers give 4", &line(64, 0).bytes(), [4, 0, 0, 0])
}

fn judging_row(c: &mut Comparison, name: &str, bytes: &[u8], plan: &[u8], expected: Judged) -> Outcome {
    assert_eq!(plain::judge(bytes, plan), expected, "{name}");
    c.judge_gives(&Case::new(name, bytes), plan, expected)
}

fn judging_rows(c: &mut Comparison) -> Outcome {
    let (a, b) = (from_hex(NET_A), net_b().bytes());
    let mut row = |name: &str, bytes: &[u8], plan: &[u8], refusal: u8, cost: u64, slack: i64| {
        judging_row(c, name, bytes, plan, Judged { refusal, cost, slack })
    };
    row("row †: A judged [0]", &a, &[0], 0, 10, 0)?;
    row("row †: A judged [1]", &a, &[1], 0, 20, 600)?;
    row("row †: B judged 0 0", &b, &[0, 0], 0, 22, -600)?;
    row("row †: B judged 1 1", &b, &[1, 1], 0, 45, 600)?;
    row("row: empty input: 1", &[], &[], 1, 0, 0)?;
    row("row: 63 buffers pass", &line(63, 0).bytes(), &[0; 64], 0, 64, SLACK_63)?;
    row("row: 64 buffers give 4", &line(64, 0).bytes(), &[0; 65], 4, 0, 0)?;
    row("row: a slack of -1 (A, required 829)", &net_a(829).bytes(), &[0], 0, 10, -1)
}

/// What a row of planning says: the refusal, or plan, cost, slack, k and floor.
enum Says<'a> {
    Refused(u8),
    Plan(&'a [u8], u64, i64, u64, u64),
}

/// One row of planning.
fn planning_row(
    c: &mut Comparison,
    named: (&str, &[u8]),
    (p, q): (u64, u64),
    lengths: (usize, usize),
    says: Says,
) -> Outcome {
    let said = match says {
        Says::Refused(refusal) => (Share::refused(refusal), &[][..]),
        Says::Plan(plan, cost, slack, k, floor) => (Planned { refusal: 0, cost, slack, k, floor }, plan),
    };
    row_of(c, named, Share { p, q }, lengths, said)
}

/// One row of a planning call, with garbage in table and buffer: the answer, and the plan where there is one.
fn row_of<P: Planning>(
    c: &mut Comparison,
    (name, bytes): (&str, &[u8]),
    terms: P,
    (table_len, buffer_len): (usize, usize),
    (answer, plan): (P::Answer, &[u8]),
) -> Outcome {
    let case = Case::searched(name, bytes, 10_000);
    let asked = c.asked(terms, table_len, buffer_len);
    let left = asked.left_beside(answer, plan);
    assert_eq!(asked.faults(&left, &case.planned(&asked)), [""; 0], "{name}");
    c.plan_gives(&case, &asked, &left)
}

fn planning_rows(c: &mut Comparison) -> Outcome {
    use Says::{Plan, Refused};
    let b = net_b().bytes();
    let a = |required| net_a(required).bytes();
    let buffers = |count| line(count, 0).bytes();
    planning_row(c, ("row †: A, required 829", &a(829)), (0, 1), (8_192, 64), Plan(&[1], 20, 599, 0, 20))?;
    planning_row(c, ("row †: A, required 230", &a(230)), (0, 1), (8_192, 64), Plan(&[1], 20, 0, 0, 20))?;
    planning_row(c, ("row †: A, required 229", &a(229)), (0, 1), (8_192, 64), Refused(11))?;
    planning_row(c, ("row †: B [0/1]", &b), (0, 1), (8_192, 64), Plan(&[1, 0], 32, 0, 0, 32))?;
    planning_row(c, ("row: B [0/1], 132 entries serve", &b), (0, 1), (132, 2), Plan(&[1, 0], 32, 0, 0, 32))?;
    planning_row(c, ("row †: B [0/1], 131 entries", &b), (0, 1), (131, 2), Refused(12))?;
    planning_row(c, ("row †: B [1/1]", &b), (1, 1), (8_192, 64), Plan(&[1, 0], 32, 0, 3, 24))?;
    planning_row(c, ("row †: B [2/1]", &b), (2, 1), (8_192, 64), Plan(&[0, 1], 35, 0, 4, 16))?;
    planning_row(c, ("row: B [2/1], 8 entries serve", &b), (2, 1), (8, 2), Plan(&[0, 1], 35, 0, 4, 16))?;
    planning_row(c, ("row: B [2/1], 7 entries do not", &b), (2, 1), (7, 2), Refused(12))?;
    planning_row(c, ("row: B [1/4], as the program", &b), (1, 4), (8_192, 64), Plan(&[0, 1], 35, 0, 2, 32))?;
    planning_row(c, ("row: empty input: 1", &[]), (1, 4), (8_192, 64), Refused(1))?;
    planning_row(c, ("row: 63 buffers pass", &buffers(63)), (0, 1), (8_192, 64), Plan(&[0; 64], 64, SLACK_63, 0, 64))?;
    planning_row(c, ("row: 64 buffers give 4", &buffers(64)), (1, 4), (8_192, 64), Refused(4))?;
    planning_row(c, ("row: a slack of -1 misses", &a(829)), (1, 1_000), (8_192, 1), Plan(&[1], 20, 599, 0, 20))?;
    planning_row(c, ("row: a slack of 0 meets", &a(830)), (0, 1), (8_192, 1), Plan(&[0], 10, 0, 0, 10))?;
    planning_row(c, ("row: q = 0: 9", &b), (1, 0), (8_192, 64), Refused(9))
}

/// Net A with another length, required when a length of 4,000 is just met on layer 0: "4,000 is read, 4,001 gives
/// refusal 3" (02, wish 3), in each of the three calls. The slack is that on layer 0.
fn length_rows(c: &mut Comparison) -> Outcome {
    let with_length = |length: i64| (format!("row: length {length}"), a_of_length(length).bytes());
    for (length, slack) in [(1_000, 60_126_000), (1_001, 60_117_954), (4_000, 0)] {
        let (name, bytes) = with_length(length);
        reading_row(c, &name, &bytes, [0, 2, 1, 2])?;
        judging_row(c, &name, &bytes, &[0], Judged { refusal: 0, cost: 10, slack })?;
        planning_row(c, (&name, &bytes), (0, 1), (8_192, 64), Says::Plan(&[0], 10, slack, 0, 10))?;
    }
    for length in [4_001, 4_095, 4_096, 8_191, 65_535] {
        let (name, bytes) = with_length(length);
        reading_row(c, &name, &bytes, [3, 0, 0, 0])?;
        judging_row(c, &name, &bytes, &[0], Judged { refusal: 3, ..Default::default() })?;
        planning_row(c, (&name, &bytes), (0, 1), (8_192, 64), Says::Refused(3))?;
    }
    Ok(())
}

/// "Net A with via 0 on layer 0 and 2 on layer 1 takes 310 ticks on layer 1" (02, wish 5): 230 + 2 × 2 × 15 + 2 × 2 × 5. Net
/// B with the same vias takes 310 in stage 0 on layer 1, where the buffer's pin is climbed to, and 313 in stage 1; on layer
/// 0 it takes 830 and 833 as before.
fn via_rows(c: &mut Comparison) -> Outcome {
    use Says::{Plan, Refused};
    let with = |draft: Draft| draft.with_vias(&[0, 2]).bytes();
    let a = |required| with(net_a(required));
    let b = |required| {
        let mut draft = net_b();
        draft.nodes[1].kind = Kind::Sink { capacitance: 5, required };
        with(draft)
    };
    assert_eq!(from_hex(NET_A_WITH_VIAS), a(830));
    reading_row(c, "row: A with vias", &from_hex(NET_A_WITH_VIAS), [0, 2, 1, 2])?;
    reading_row(c, "row: B with vias", &b(1_063), [0, 3, 2, 2])?;
    for (bytes, plan, cost, slack) in [
        (a(830), &[0][..], 10, 0),
        (a(830), &[1], 20, 520),
        (a(310), &[1], 20, 0),
        (a(309), &[1], 20, -1),
        (b(1_063), &[0, 0], 22, -600),
        (b(1_063), &[0, 1], 35, -80),
        (b(1_063), &[1, 0], 32, -80),
        (b(1_063), &[1, 1], 45, 440),
    ] {
        let name = format!("row: with vias, judged {plan:?}: {slack}");
        judging_row(c, &name, &bytes, plan, Judged { refusal: 0, cost, slack })?;
    }
    for (name, bytes, (p, q), table_len, says) in [
        ("A, required 830", a(830), (0, 1), 33, Plan(&[0], 10, 0, 0, 10)),
        ("A, required 829", a(829), (0, 1), 63, Plan(&[1], 20, 519, 0, 20)),
        ("A, required 310", a(310), (0, 1), 63, Plan(&[1], 20, 0, 0, 20)),
        ("A, required 310, a column short", a(310), (0, 1), 62, Refused(12)),
        ("A, required 309", a(309), (0, 1), 8_192, Refused(11)),
        // V(0) is 45 where the vias leave the plan 1 1 alone.
        ("B [0/1]", b(1_063), (0, 1), 184, Plan(&[1, 1], 45, 440, 0, 45)),
        ("B [0/1], 183 entries", b(1_063), (0, 1), 183, Refused(12)),
        ("B [1/4], as the program", b(1_063), (1, 4), 8_192, Plan(&[1, 1], 45, 440, 2, 44)),
        ("B, 80 ticks later, [0/1]", b(1_143), (0, 1), 132, Plan(&[1, 0], 32, 0, 0, 32)),
        ("B, 80 ticks later, [2/1]", b(1_143), (2, 1), 8, Plan(&[0, 1], 35, 0, 4, 16)),
        ("B, 79 ticks later, [0/1]", b(1_142), (0, 1), 8_192, Plan(&[1, 1], 45, 519, 0, 45)),
        ("B, required 623", b(623), (1, 1), 8_192, Plan(&[1, 1], 45, 0, 4, 32)),
        ("B, required 622", b(622), (1, 1), 8_192, Refused(11)),
    ] {
        planning_row(c, (&format!("row: with vias, {name}"), &bytes), (p, q), (table_len, 64), says)?;
    }
    Ok(())
}

/// Net A with an edge of length 0 and via 2 on layer 0: the gate takes 10 ticks, the climbs at the root and at the sink 20
/// each.
fn empty_edge_rows(c: &mut Comparison) -> Outcome {
    let short = |required: i64| {
        let mut draft = net_a(required).with_vias(&[2, 0]);
        draft.nodes[0].length = 0;
        draft.bytes()
    };
    for (layer, cost, slack) in [(0, 10, 0), (1, 20, 40)] {
        let name = format!("row: length 0 with vias, judged {layer}");
        judging_row(c, &name, &short(50), &[layer], Judged { refusal: 0, cost, slack })?;
    }
    for (required, says) in [
        (50, Says::Plan(&[0], 10, 0, 0, 10)),
        (49, Says::Plan(&[1], 20, 39, 0, 20)),
        (10, Says::Plan(&[1], 20, 0, 0, 20)),
        (9, Says::Refused(11)),
    ] {
        let name = format!("row: length 0 with vias, required {required}");
        planning_row(c, (&name, &short(required)), (0, 1), (8_192, 64), says)?;
    }
    Ok(())
}

/// Net A with its second via at the limit and beyond, in each of the three calls: 1,000 climbs for 2,000 × 20 ticks.
fn via_limit_rows(c: &mut Comparison) -> Outcome {
    for (vias, slack) in [([0, 1_000], [40_000, 600]), ([1_000, 0], [0, 40_600]), ([1_000, 1_000], [0, 600])] {
        let (name, bytes) = (format!("row: vias {vias:?}"), net_a(40_830).with_vias(&vias).bytes());
        reading_row(c, &name, &bytes, [0, 2, 1, 2])?;
        for (layer, cost) in [(0, 10), (1, 20)] {
            let expected = Judged { refusal: 0, cost, slack: slack[layer as usize] };
            judging_row(c, &name, &bytes, &[layer], expected)?;
        }
        planning_row(c, (&name, &bytes), (0, 1), (8_192, 64), Says::Plan(&[0], 10, slack[0], 0, 10))?;
    }
    for via in [1_001, 1_023, 1_024, 4_000, 32_768, 65_535] {
        for vias in [[0, via], [via, 0]] {
            let (name, bytes) = (format!("row: vias {vias:?}"), net_a(830).with_vias(&vias).bytes());
            reading_row(c, &name, &bytes, [3, 0, 0, 0])?;
            judging_row(c, &name, &bytes, &[0], Judged { refusal: 3, ..Default::default() })?;
            planning_row(c, (&name, &bytes), (0, 1), (8_192, 64), Says::Refused(3))?;
        }
    }
    Ok(())
}

/// The lengths of either tag, and the first fault in and after a field of tag 7: "Refusals 2 and 3 cover the new field in
/// their old places; tag 7's length is a multiple of 6 from 6 to 96".
fn edition_rows(c: &mut Comparison) -> Outcome {
    for (tag, length, layers) in [
        (1, 4, 1),
        (1, 12, 3),
        (1, 24, 6),
        (1, 48, 12),
        (1, 60, 15),
        (1, 64, 16),
        (7, 6, 1),
        (7, 12, 2),
        (7, 24, 4),
        (7, 48, 8),
        (7, 60, 10),
        (7, 66, 11),
        (7, 90, 15),
        (7, 96, 16),
    ] {
        reading_row(c, &format!("row: tag {tag}, {length} bytes"), &of_ones(tag, length, layers), [0, 2, 1, layers])?;
    }
    let tag_1 = [0, 6, 10, 18, 30, 54, 65, 66, 68, 72, 90, 96].map(|length| (1, length));
    let tag_7 = [0, 3, 4, 5, 7, 8, 10, 16, 64, 68, 94, 95, 97, 98, 100, 102, 108].map(|length| (7, length));
    let others = [0, 6, 8, 9, 15, 23].into_iter().flat_map(|tag| [(tag, 4), (tag, 6), (tag, 12)]);
    for (tag, length) in tag_1.into_iter().chain(tag_7).chain(others) {
        for layers in [length / 4, length / 6] {
            reading_row(c, &format!("row: tag {tag}, {length} bytes"), &of_ones(tag, length, layers), [2, 0, 0, 0])?;
        }
    }
    for (refusal, bytes) in [
        (1, "07"),
        (1, "07 00"),
        (2, "07 0004"),
        (2, "07 0066"),
        (1, "07 0006"),
        // The payload is looked at when it is all there.
        (1, "07 0006 0000 0000 03"),
        (1, "07 000C 0001 0001 03E9 0001 0001 03"),
        (3, "07 0006 0000 0001 0000"),
        (3, "07 0006 0001 03E9 0000"),
        (3, "07 0006 0001 0001 03E9"),
        (3, "07 000C 0001 0001 03E9 0001 0001 0000"),
        (3, "07 000C 0001 0001 0000 0001 0001 03E9"),
        // Before the driver's field is.
        (3, "07 0006 0001 0001 03E9 02"),
        (3, "07 0006 0001 0001 03E9 09 0010"),
        (3, "07 0006 0001 0001 FFFF 02 0010 FFFFFFFF 00000000 0000000000000000"),
        (1, "07 0006 0001 0001 03E8"),
        (2, "07 0006 0001 0001 03E8 09 0010"),
        // One layers field, of either edition.
        (2, "07 0006 0001 0001 0000 07 0006 0001 0001 0000"),
        (2, "01 0004 0001 0001 07 0006 0001 0001 0000"),
        (2, "07 0006 0001 0001 0000 01 0004 0001 0001"),
    ] {
        reading_row(c, &format!("row: {bytes}"), &from_hex(bytes), [refusal, 0, 0, 0])?;
    }
    Ok(())
}

/// A net of the driver and one sink, with as many costs as there are layers, after a field of this tag and length: each of
/// its numbers is 1, of whatever edition it is.
fn of_ones(tag: u8, length: u16, layers: impl Into<u64>) -> Vec<u8> {
    let ones: Vec<u8> = (0..length).map(|place| (place % 2) as u8).collect();
    let costs = [0, 0, 0, 1].repeat(layers.into() as usize);
    let sink_length = 16 + costs.len() as u16;
    let head = |tag: u8, length: u16| [&[tag][..], &length.to_be_bytes()].concat();
    let sink = [&[0, 0, 0, 1][..], &costs, &[0; 12]].concat();
    [head(tag, length), ones, from_hex(DRIVER), head(5, sink_length), sink].concat()
}

/// The report's example in 02, the block of no nets, a net of no bytes, and 13: the totals, and every byte of the text.
fn report_rows(c: &mut Comparison) -> Outcome {
    let mut row = |name: &str, bytes: &[u8], totals: Totals, text: &str| {
        let block = Block::new(name, bytes);
        assert_eq!((block.totals, block.text().as_str()), (totals, text), "{name}");
        c.report(&block)
    };
    let example = block(&[net_b().bytes(), net_a(229).bytes()]);
    let mut totals = Totals { nets: 2, planned: 1, cost: 35, ..Default::default() };
    totals.refused[11] = 1;
    totals.lengths[..2].fill(10);
    row(
        "row: B, then A with required time 229",
        &example,
        totals,
        "nets 2\nplanned 1\nrefused 11 1\ncost 35\nlength 0 10\nlength 1 10\n",
    )?;
    // With vias of 2 on layer 1 the program takes layer 1 for both of B's stages, and A is late by one tick.
    let with_vias = |draft: Draft| draft.with_vias(&[0, 2]).bytes();
    let editions = block(&[net_b().bytes(), with_vias(net_b()), with_vias(net_a(309)), with_vias(net_a(310))]);
    let mut totals = Totals { nets: 4, planned: 3, cost: 35 + 45 + 20, ..Default::default() };
    totals.refused[11] = 1;
    totals.lengths[..2].copy_from_slice(&[10, 10 + 20 + 10]);
    let text = "nets 4\nplanned 3\nrefused 11 1\ncost 100\nlength 0 10\nlength 1 40\n";
    row("row: both editions", &editions, totals, text)?;
    row("row: an empty file", &[], Totals::default(), "nets 0\nplanned 0\ncost 0\n")?;
    let mut totals = Totals { nets: 1, ..Default::default() };
    totals.refused[1] = 1;
    row("row: a net of no bytes", &block(&[vec![]]), totals, "nets 1\nplanned 0\nrefused 1 1\ncost 0\n")?;
    let cut = &example[..example.len() - 1];
    row("row: cut short", cut, Totals { refusal: 13, ..Default::default() }, "refused 13\n")
}

/// The rows of planning by rounds (02, wish 7).
pub fn rounds(c: &mut Comparison) -> Outcome {
    rounds_of_b(c)?;
    rounds_of_equals(c)?;
    rounds_refused(c)
}

/// One row that is accepted: the plan, and cost, floor and rounds. Slack is 0.
fn rounds_row(
    c: &mut Comparison,
    named: (&str, &[u8]),
    (r, table_len): (u64, usize),
    (plan, [cost, floor, rounds]): ([u8; 2], [u64; 3]),
) -> Outcome {
    let answer = RoundsPlanned { refusal: 0, cost, slack: 0, floor, rounds };
    let (mut table, mut buffer) = (vec![1; table_len], [9; 3]);
    let found = plain::plan_rounds(named.1, r, &mut table, &mut buffer);
    assert_eq!((found, buffer), (answer, [plan[0], plan[1], 9]), "{}", named.0);
    row_of(c, named, Rounds { r }, (table_len, 64), (answer, &plan))?;
    row_of(c, named, Rounds { r }, (table_len, 2), (answer, &plan))
}

/// Of net B's plans 0 1, 1 0 and 1 1 meet timing; they cost 35, 32 and 45. V(k) is 0 from k = 28 down to 5, 1 at k = 4,
/// 3 at k = 3, 8 at k = 2, 16 at k = 1 and 32 at k = 0; the first plan with it is 1 0 at k = 3, 1 and 0, else 0 1. A column
/// has 4 entries.
fn rounds_of_b(c: &mut Comparison) -> Outcome {
    let b = net_b().bytes();
    for (r, table_len, plan, results) in [
        (1, 8_192, [0, 1], [35, 0, 1]),
        (2, 8_192, [0, 1], [35, 0, 2]),
        (23, 8_192, [0, 1], [35, 0, 23]),
        (24, 8_192, [0, 1], [35, 0, 24]),
        (25, 8_192, [0, 1], [35, 16, 25]),
        (26, 8_192, [1, 0], [32, 24, 26]),
        // The last round's plan is 0 1.
        (27, 8_192, [1, 0], [32, 32, 27]),
        (28, 8_192, [1, 0], [32, 32, 28]),
        (29, 8_192, [1, 0], [32, 32, 29]),
        // Tables that just serve a round, or just do not.
        (1, 4, [0, 1], [35, 0, 1]),
        (24, 4, [0, 1], [35, 0, 24]),
        (25, 4, [0, 1], [35, 0, 24]),
        (25, 7, [0, 1], [35, 0, 24]),
        (29, 7, [0, 1], [35, 0, 24]),
        (25, 8, [0, 1], [35, 16, 25]),
        (29, 8, [0, 1], [35, 16, 25]),
        (26, 15, [0, 1], [35, 16, 25]),
        (26, 16, [1, 0], [32, 24, 26]),
        (29, 35, [1, 0], [32, 24, 26]),
        (29, 36, [1, 0], [32, 32, 27]),
        (28, 67, [1, 0], [32, 32, 27]),
        (28, 68, [1, 0], [32, 32, 28]),
        (29, 131, [1, 0], [32, 32, 28]),
        (29, 132, [1, 0], [32, 32, 29]),
    ] {
        let name = format!("row: B, {r} rounds, {table_len} entries");
        rounds_row(c, (&name, &b), (r, table_len), (plan, results))?;
    }
    Ok(())
}

/// Where 0 1 and 1 0 cost the same, V(k) is 1, 3, 7, 15 and 32 from k = 4 down, and the first plan with it is 1 0 at k = 3,
/// 2 and 1: 0 1 is that of the larger k. Where 1 0 costs one more, it is 1, 3, 7, 16 and 32, with 1 0 at k = 3 and 2. On
/// three layers see `nets`: V(k) is 1, 3, 7, 15 and 32, and 2, 5, 12, 25 and 51.
fn rounds_of_equals(c: &mut Comparison) -> Outcome {
    let (equal, rounded) = (equal_b().bytes(), rounded_b().bytes());
    for (r, table_len, floors) in [
        (24, 8_192, [0, 0]),
        (25, 8_192, [16, 16]),
        (26, 16, [24, 24]),
        (27, 32, [28, 28]),
        (28, 68, [30, 32]),
        (29, 132, [32, 32]),
    ] {
        for (name, bytes, floor) in [("equal", &equal, floors[0]), ("dearer", &rounded, floors[1])] {
            let name = format!("row: 1 0 {name}, {r} rounds");
            rounds_row(c, (&name, bytes), (r, table_len), ([0, 1], [32, floor, r]))?;
        }
    }
    let (equal, turning) = (equal_on_three().bytes(), turning_on_three().bytes());
    let (equal, turning) = (("equal", &equal), ("by turns", &turning));
    for (r, table_len, (name, bytes), plan, [cost, floor]) in [
        (25, 8, equal, [0, 2], [40, 16]),
        (26, 16, equal, [2, 0], [32, 24]),
        (28, 64, equal, [2, 0], [32, 30]),
        // The last round's plan, 1 1, comes before 2 0 in plan order.
        (29, 132, equal, [2, 0], [32, 32]),
        (23, 4, turning, [0, 2], [97, 0]),
        (24, 4, turning, [2, 0], [51, 0]),
        (25, 12, turning, [2, 0], [51, 32]),
        (26, 24, turning, [2, 0], [51, 40]),
        (27, 52, turning, [2, 0], [51, 48]),
        (28, 104, turning, [2, 0], [51, 50]),
        (29, 208, turning, [2, 0], [51, 51]),
    ] {
        let name = format!("row: three layers, {name}, {r} rounds");
        rounds_row(c, (&name, bytes), (r, table_len), (plan, [cost, floor, r]))?;
    }
    Ok(())
}

/// r outside 1 to 29, a buffer that is too short, no plan that meets timing, no column; and several of them.
fn rounds_refused(c: &mut Comparison) -> Outcome {
    let (b, late) = (net_b().bytes(), net_a(229).bytes());
    for (refusal, bytes, r, table_len, buffer_len) in [
        (14, &b[..], 0, 132, 2),
        (14, &b, 30, 132, 2),
        (14, &b, u64::MAX, 132, 2),
        (14, &b, 0, 0, 0),
        (14, &late, 30, 0, 0),
        (10, &b, 29, 132, 1),
        (10, &b, 1, 3, 0),
        (10, &late, 1, 3, 0),
        (11, &late, 29, 8_192, 64),
        (11, &late, 1, 0, 1),
        (12, &b, 1, 3, 2),
        (12, &b, 29, 0, 64),
        (1, &[], 0, 0, 0),
        (1, &b[..b.len() - 1], 30, 0, 0),
    ] {
        let name = format!("row: {r} rounds, {table_len} entries, {buffer_len} bytes: {refusal}");
        let said = (Rounds::refused(refusal), &[][..]);
        row_of(c, (&name, bytes), Rounds { r }, (table_len, buffer_len), said)?;
    }
    Ok(())
}

/// Desks: what 01 says of judging nets A and B is read there once their stages are set; and the order of the numbers of 02.
pub fn desk(c: &mut Comparison) -> Outcome {
    desk_row(c, "row: A and B", read_rows())?;
    desk_row(c, "row: numbers", refused_rows())
}

fn desk_row(c: &mut Comparison, name: &str, rows: Vec<(Step, Answer)>) -> Outcome {
    let (steps, answers): (Vec<Step>, Vec<Answer>) = rows.into_iter().unzip();
    let run = Run::new(name, &steps);
    assert_eq!(run.answers().collect::<Vec<Answer>>(), answers, "{name}");
    c.desk_run(&run)
}

fn opened(name: &str, bytes: Vec<u8>, refusal: u8, [nodes, stages, layers]: [u64; 3]) -> (Step, Answer) {
    (Step::Open(Named::new(name, bytes)), Answer::Counts(Checked { refusal, nodes, stages, layers }))
}

fn read_rows() -> Vec<(Step, Answer)> {
    let accepted = |step: Step| (step, Answer::Number(0));
    let figures = |cost, slack| (Step::Read, Answer::Figures(Judged { refusal: 0, cost, slack }));
    vec![
        opened("B", net_b().bytes(), 0, [3, 2, 2]),
        figures(22, -600),
        accepted(Step::Set(0, 1)),
        figures(32, 0),
        accepted(Step::Set(1, 1)),
        accepted(Step::Lock(0)),
        figures(45, 600),
        // "a refused opening changes nothing".
        opened("64 buffers", line(64, 0).bytes(), 4, [0; 3]),
        figures(45, 600),
        // "an open desk is replaced", "every stage on layer 0, unlocked".
        opened("A", from_hex(NET_A), 0, [2, 1, 2]),
        figures(10, 0),
        accepted(Step::Set(0, 1)),
        figures(20, 600),
    ]
}

fn refused_rows() -> Vec<(Step, Answer)> {
    let said = |step: Step, refusal: u8| (step, Answer::Number(refusal));
    vec![
        opened("no bytes", vec![], 1, [0; 3]),
        opened("4,096 zeros", vec![0; 4_096], 2, [0; 3]),
        opened("4,097 zeros", vec![0; 4_097], 15, [0; 3]),
        opened("4,097 bytes", of_bytes(4_097).bytes(), 15, [0; 3]),
        // Never opened all the same.
        said(Step::Set(2, 2), 16),
        said(Step::Lock(2), 16),
        said(Step::Unlock(2), 16),
        (Step::Read, Answer::Figures(Judged { refusal: 16, cost: 0, slack: 0 })),
        opened("B", net_b().bytes(), 0, [3, 2, 2]),
        said(Step::Unlock(1), 0),
        said(Step::Lock(1), 0),
        said(Step::Lock(1), 0),
        said(Step::Lock(2), 7),
        said(Step::Unlock(2), 7),
        said(Step::Set(2, 2), 7),
        said(Step::Set(1, 2), 8),
        said(Step::Set(1, 1), 17),
        // The layer that it has.
        said(Step::Set(1, 0), 17),
        said(Step::Unlock(1), 0),
        said(Step::Set(1, 1), 0),
    ]
}
