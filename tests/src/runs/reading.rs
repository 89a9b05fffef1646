//! Nets that cannot be read, and some beside them that can.

use crate::compare::{Case, Comparison, Outcome};
use crate::nets::{self, Draft, Random, VIA};

/// Judge and plan must refuse a net that cannot be read as check does, and touch nothing.
fn all_calls(c: &mut Comparison, name: &str, bytes: &[u8], random: &mut Random) -> Outcome {
    let mut case = Case::new(name, bytes);
    c.check(&case)?;
    let plan: Vec<u8> = (0..case.stages()).map(|_| random.below(case.layers().max(1)) as u8).collect();
    c.judge(&case, &plan)?;
    if case.read.is_ok() {
        if case.layers().saturating_pow(case.stages() as u32) > 300 {
            return Ok(());
        }
        case = Case::searched(name, bytes, 100);
    }
    let (p, q) = *random.pick(&[(1, 4), (0, 1), (1, 1), (0, 0), (1_001, 1)]);
    let buffer = *random.pick(&[case.stages(), 64, 0]);
    c.plan(&case, p, q, random.below(200), buffer)?;
    let (r, buffer) = (*random.pick(&[1, 29, 24, 0, 30]), *random.pick(&[case.stages(), 64, 0]));
    c.plan_rounds(&case, r, random.below(200), buffer)
}

/// Check each of these nets, and for one in so many make the other calls too.
fn check_each(
    c: &mut Comparison,
    of: &str,
    nets: Vec<(String, Vec<u8>)>,
    random: &mut Random,
    one_in: usize,
) -> Outcome {
    for (what, bytes) in nets {
        let name = format!("{of}{what}");
        if random.one_in(one_in) {
            all_calls(c, &name, &bytes, random)?;
        } else {
            c.check(&Case::new(&name, &bytes))?;
        }
    }
    Ok(())
}

/// The nets that are tried with every damage.
pub fn to_damage() -> [(&'static str, Draft); 5] {
    [
        ("A, ", nets::net_a(830)),
        ("B, ", nets::net_b()),
        ("all kinds, ", nets::all_kinds()),
        ("A with vias, ", nets::net_a(830).with_vias(&[0, 2])),
        ("B with vias, ", nets::net_b().with_vias(&[VIA.1, 1])),
    ]
}

/// The same nets every time.
pub fn fixed(c: &mut Comparison) -> Outcome {
    let mut random = Random::new(1);
    check_each(c, "", nets::layer_counts(), &mut random, 1)?;
    check_each(c, "", nets::heads(), &mut random, 16)?;
    for (of, draft) in to_damage() {
        let damaged = nets::damaged(&draft, &mut random, 200);
        // A fault further on is not met.
        let rubbish =
            |(what, bytes): &(String, Vec<u8>)| (format!("{what}, then rubbish"), [&bytes[..], &[9]].concat());
        let longer = damaged.iter().map(rubbish).collect();
        check_each(c, of, damaged, &mut random, 1)?;
        check_each(c, of, longer, &mut random, 16)?;
        check_each(c, of, nets::bits_turned(&draft), &mut random, 2)?;
    }
    check_each(c, "", nets::too_many(), &mut random, 4)?;
    check_each(c, "", nets::long(), &mut random, 1)
}

/// Random nets, each with all its damages.
pub fn damaged(c: &mut Comparison, random: &mut Random, count: usize) -> Outcome {
    for number in 0..count {
        let family = nets::SMALL_FAMILIES[number % nets::SMALL_FAMILIES.len()];
        let draft = nets::random_net(family, random);
        let of = format!("{family} {number}, ");
        check_each(c, &of, nets::damaged(&draft, random, 100), random, 8)?;
        for turn in 0..40 {
            all_calls(c, &format!("{of}scrambled {turn}"), &nets::scrambled(&draft, random), random)?;
            all_calls(c, &format!("rubbish {number} {turn}"), &nets::rubbish(random), random)?;
        }
    }
    Ok(())
}
