// Long comparisons of the archive's numbers: every root, and many angles and distances, bit for bit. Each says whether none differs.

use crate::archive;
use crate::tally::Tally;
use oracle::gap;
use oracle::judge::Refusal;
use oracle::random::Random;

fn same(ours: Option<f32>, theirs: Option<f32>) -> bool {
    ours.map(f32::to_bits) == theirs.map(f32::to_bits)
}

/// The refusals of a single float have row 4, place 0 and nothing beside it.
fn known(answer: Result<f32, Refusal>) -> Option<f32> {
    if let Err(refusal) = answer {
        assert_eq!(refusal, Refusal { row: 4, place: 0, beside: 0 });
    }
    answer.ok()
}

pub fn roots() -> bool {
    let mut tally = Tally::default();
    for bits in 0..=u32::MAX {
        let x = f32::from_bits(bits);
        let (ours, theirs) = (known(archive::root(x)), rules::root_or_refused(x));
        tally.add(same(ours, theirs), 0, || format!("{bits:08X} {ours:?} {theirs:?}"));
        if bits % 0x1000_0000 == 0x0FFF_FFFF {
            eprintln!("{} of 16", bits / 0x1000_0000 + 1);
        }
    }
    tally.print("roots")
}

/// Every fourth pair has patterns of any kind, NaN and infinities among them.
fn pair(random: &mut Random, i: u64) -> (f32, f32) {
    if i % 4 == 3 {
        (random.pattern(), random.pattern())
    } else {
        gap::difference(random, (i / 4) as usize % gap::KINDS)
    }
}

pub fn pairs(count: u64, seed: u64) -> bool {
    let mut random = Random::new(seed);
    let (mut angles, mut distances) = (Tally::default(), Tally::default());
    for i in 0..count {
        let (dx, dy) = pair(&mut random, i);
        let (ours, theirs) = (known(archive::angle(dx, dy)), rules::angle_or_refused(dx, dy));
        angles.add(same(ours, theirs), 0, || format!("{:08X} {:08X}", dx.to_bits(), dy.to_bits()));
        let (angle, axis) = (theirs.unwrap_or(dx), if i % 2 == 0 { random.within(-8.0, 8.0) as f32 } else { dy });
        let (ours, theirs) = (ngeunsadok::axis_distance(angle, axis), rules::distance_or_none(angle, axis));
        distances.add(same(ours, theirs), 0, || format!("{:08X} {:08X}", angle.to_bits(), axis.to_bits()));
    }
    angles.print("angles") & distances.print("distances")
}
