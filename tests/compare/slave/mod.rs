//! The slave compared, call by call: start, packets, numbers notices and gaps.

mod runs;
mod sweeps;

use super::comparison::{Cases, Compared, Comparison, Subject};
use crate::other::basics::{dvb_cadences, second, A110_SECOND, DVB_SECOND};
use crate::other::faults::{self, Fault};
use runs::{EMPTY, FOREIGN, LIMITED, NUMBERS, PACKET, RUN};

pub struct Calls;

impl Subject for Calls {
    const NAME: &'static str = "the slave";
    const REQUIRED: fn() -> Cases = required;
    const FAULTS: &'static [&'static [Fault]] = &[faults::SLAVE, faults::LIMIT];
    const LONGEST: usize = 4;

    fn random(comparison: &mut Comparison<Self>) -> Compared {
        comparison.random_run()
    }

    fn sweeps(comparison: &mut Comparison<Self>) -> Compared {
        comparison.sweep_starts()?;
        comparison.sweep_lengths()?;
        comparison.sweep_empty()?;
        comparison.sweep_limits()?;
        comparison.sweep_parts()?;
        comparison.sweep_ticks()?;
        comparison.sweep_late()?;
        comparison.sweep_bits()?;
        comparison.sweep_pointers()?;
        comparison.sweep_gaps()?;
        comparison.sweep_coasting()
    }
}

// ---- What must be reached

/// Each number of marks coasted, in each of some kinds.
fn coasted(kinds: i64) -> Vec<i64> {
    (0..kinds).flat_map(|kind| (0..=255).map(move |coasted| 1_000 * kind + coasted)).collect()
}

fn required() -> Cases {
    let lengths: Vec<i64> = (0..=300).collect();
    let indexes: Vec<i64> = (0..20).collect();
    let mut list: Cases = vec![
        ("start", "number", vec![0, 15]),
        ("start", "n in profile 0", dvb_cadences().map(i64::from).collect()),
        ("start", "n in profile 1", vec![624]),
        ("start", "15 for site (1), TAD (2)", vec![0, 1, 2, 3]),
        ("packet", "number", vec![0, 15, 1, 2, 3]),
        ("packet", "of length", lengths.clone()),
        ("packet", "with a bit flipped", (0..8 * 188).collect()),
        (FOREIGN, "number", vec![0, 15, 1, 2, 3]),
        (FOREIGN, "of length", lengths.clone()),
        (FOREIGN, "100 × phase + profile of the slave", vec![100, 101, 200, 201]),
        (FOREIGN, "of clock", vec![0, 1, 2, 255]),
        (FOREIGN, "of clock, with an empty packet", vec![0, 1, 2, 255]),
        (FOREIGN, "tick", [DVB_SECOND, A110_SECOND].map(i64::from).into_iter().flat_map(|u| [0, u - 1, u]).collect()),
        (EMPTY, "number", vec![0, 15]),
        (EMPTY, "100 × phase + profile", vec![100, 101, 200, 201]),
        (EMPTY, "tick", [DVB_SECOND, A110_SECOND].map(i64::from).into_iter().flat_map(|u| [0, u - 1, u, u32::MAX.into()]).collect()),
        (EMPTY, "on the mark (10) with pending (1)", vec![0, 1, 10, 11]),
        (EMPTY, "on the mark with index", indexes.iter().copied().chain([255]).collect()),
        (EMPTY, "before the mark with pending", vec![0, 1]),
        (LIMITED, "taken, a less the limit", vec![-1, 0]),
        (LIMITED, "taken, by a limit of", vec![64, 163, 164, 255, 256, 1_000]),
        (LIMITED, "26, a less the limit", vec![1, 2]),
        (LIMITED, "26, by a limit of", vec![0, 63, 64, 65, 162]),
        (LIMITED, "26, of a hunting (1), a locked slave (2)", vec![1, 2]),
        (LIMITED, "26, with a wrong check value", vec![0, 1]),
        (LIMITED, "26, the label by its pointer counted (1) or another (0)", vec![0, 1]),
        (LIMITED, "8 by a above 163, by a limit of", vec![0, 64, 163, 255, 1_000]),
        (LIMITED, "plain, or of profile 1, with byte 20 above the limit", vec![0, 1]),
        (NUMBERS, "number", vec![0, 15, 1, 2, 3, 20]),
        (NUMBERS, "of length", lengths),
        (NUMBERS, "taken with index", indexes.iter().copied().chain([255]).collect()),
        (NUMBERS, "turn", vec![0, 1]),
        (NUMBERS, "11 for STS (1), MD (2)", vec![1, 2, 3]),
        (NUMBERS, "12 for pointer (1), index (2)", vec![1, 2, 3]),
        (NUMBERS, "judged by 13, MD + OD", [-1, 0].into_iter().chain([-1, 0].map(|k| k + i64::from(A110_SECOND))).collect()),
        (NUMBERS, "judged by 13, MD + OD + TAD", [0, 1].into_iter().chain([-1, 0].map(|k| k + i64::from(A110_SECOND))).collect()),
        // 0 untold, 1 too few, 2 exactly, 3 too many
        (RUN, "packets lost and told", vec![0, 1, 2, 3]),
        (RUN, "resumed with", vec![0, 16]),
        ("gap", "number", vec![0, 15]),
        ("gap", "in phase", vec![1, 2]),
        ("gap", "k", (0..=65_535).collect()),
        ("gap", "marks passed", (0..=106).collect()),
        ("gap", "k less the packets to a pending mark", vec![-1, 0, 1]),
        ("gap", "index raised to", indexes.clone()),
        ("gap", "coasted on to less 255, over more marks than one", vec![-1, 0, 1]),
        ("gap", "coasted over marks, from", (0..=255).collect()),
        (EMPTY, "coasted over its mark, from", (0..=255).collect()),
        ("slave", "15 for its part", (0..14).collect()),
    ];
    let plain = [100, 130, 200, 201, 202, 203, 230, 231, 232, 233];
    let noticed = [110, 111, 210, 211, 212, 213, 220, 221];
    for (whose, profile, kinds, numbers) in [
        (PACKET[0], 0, [&plain[..], &noticed].concat(), vec![4, 6, 7, 8, 26, 9, 10, 11, 12, 13]),
        (PACKET[1], 1, plain.to_vec(), vec![4]),
        (NUMBERS, 1, [&[130, 230, 231, 232, 233][..], &noticed].concat(), vec![4, 11, 12, 13]),
    ] {
        let u = i64::from(second(profile));
        list.push((whose, "100 × phase + 10 × notice + mark", kinds));
        for what in ["hunting, ignored with", "locked, ignored with", "off the mark beside", "untimed beside", "late beside", "released beside"] {
            list.push((whose, what, numbers.clone()));
        }
        list.push((whose, "has a place", if profile == 0 { vec![0] } else { vec![0, 1] }));
        if whose != PACKET[1] {
            list.push((whose, "taken off the mark with pending", vec![0, 1]));
            list.push((whose, "slip onto label 0 with pending", vec![0, 1]));
            list.push((whose, "slip elsewhere with pending", vec![0, 1]));
            list.push((whose, "slip from a counted", vec![0, 1]));
            list.push((whose, "coasted before it, taken off the mark (0), on it (1), slip off (2), on (3)", coasted(4)));
        }
        list.push((whose, "coasted over a mark untimed (0), late (1), released (2), from", coasted(3)));
        if profile == 1 {
            list.push((whose, "index raised from", indexes.clone()));
            list.push((whose, "M/H place before index", indexes.clone()));
        }
        list.push((whose, "tick", vec![0, u - 1, u]));
        list.push((whose, "released at tick", vec![0, u - 1]));
        list.push((whose, "wait", vec![-1, 0, 1]));
        list.push((whose, "lateness", vec![1, u - 1, u, u + 1, 2 * (u - 1)]));
        for sum in ["released, STS + MD", "released, STS + MD + OD", "released, STS + MD + OD - TAD"] {
            list.push((whose, sum, vec![u - 1, u, u + 1]));
        }
        list.push((whose, "reference", vec![0, u - 1]));
        list.push((whose, "emission", vec![0, u - 1]));
        list.push((whose, "modulation", vec![0, u - 1]));
    }
    list
}
