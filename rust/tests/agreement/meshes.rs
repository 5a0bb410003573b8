//! Random sheets that are accepted: every shape of mesh, every kind of numbers.

use crate::draft::Draft;
use crate::random::Random;

const MOST_GAP: i64 = 64;
const LAST_LINE: i64 = 4096;
/// The greatest number of a node.
pub const MOST: i64 = 4095;

/// How far lines lie apart.
#[derive(Clone, Copy, Debug)]
pub enum Gaps {
    All(i64),
    UpTo(i64),
}

/// What the nodes hold.
#[derive(Clone, Copy, Debug)]
pub enum Numbers {
    /// Anything allowed.
    Random,
    /// Only the ends of what is allowed.
    Extreme,
    /// The ends, and one inside of them, and 0.
    NearExtreme,
    /// Mostly 0.
    Sparse,
    /// From −n to n, so that ties are met.
    UpTo(i64),
    /// No height, and slopes from −n to −1: halves below 0.
    Below(i64),
}

const ALL_GAPS: [Gaps; 8] = [
    Gaps::All(1),
    Gaps::All(2),
    Gaps::All(64),
    Gaps::UpTo(2),
    Gaps::UpTo(4),
    Gaps::UpTo(9),
    Gaps::UpTo(33),
    Gaps::UpTo(64),
];

const ALL_NUMBERS: [Numbers; 9] = [
    Numbers::Random,
    Numbers::Random,
    Numbers::Extreme,
    Numbers::NearExtreme,
    Numbers::Sparse,
    Numbers::UpTo(1),
    Numbers::UpTo(6),
    Numbers::Below(2),
    Numbers::Below(40),
];

/// A random sheet, small as a rule.
pub fn any(random: &mut Random) -> Draft {
    let most = random.pick(&[2, 3, 4, 4, 5, 6, 8, 12]);
    let (columns, rows) = (random.between(2, most), random.between(2, most));
    let (x_gaps, y_gaps) = (random.pick(&ALL_GAPS), random.pick(&ALL_GAPS));
    let numbers = random.pick(&ALL_NUMBERS);
    sheet(random, [columns, rows], [x_gaps, y_gaps], numbers)
}

/// A random sheet of up to 65 by 65 lines.
pub fn large(random: &mut Random) -> Draft {
    let counts = [random.pick(&[2, 3, 13, 40, 64, 65]), random.between(2, 65)];
    let gaps = [random.pick(&ALL_GAPS), random.pick(&ALL_GAPS)];
    let numbers = random.pick(&ALL_NUMBERS);
    let turned = random.once_in(2);
    sheet(random, if turned { [counts[1], counts[0]] } else { counts }, gaps, numbers)
}

/// A random sheet of the most bytes that one can have.
pub fn longest(random: &mut Random) -> Draft {
    let gaps = [random.pick(&ALL_GAPS), random.pick(&ALL_GAPS)];
    let numbers = random.pick(&ALL_NUMBERS);
    sheet(random, [65, 65], gaps, numbers)
}

/// A sheet on the lines of another, with numbers of its own.
pub fn renumbered(random: &mut Random, draft: &Draft, numbers: Numbers) -> Draft {
    let nodes = draft.nodes.iter().map(|_| node(random, numbers)).collect();
    Draft { nodes, ..draft.clone() }
}

/// The extremes: the fewest and most lines, the least and most gaps, the numbers' ends.
pub fn extremes(random: &mut Random) -> Vec<Draft> {
    let mut drafts = Vec::new();
    for counts in [[2, 2], [2, 65], [65, 2], [65, 65]] {
        for gaps in [Gaps::All(1), Gaps::All(64), Gaps::UpTo(64)] {
            for numbers in [Numbers::Extreme, Numbers::Random] {
                drafts.push(sheet(random, counts, [gaps, gaps], numbers));
            }
        }
    }
    drafts
}

fn sheet(random: &mut Random, counts: [i64; 2], gaps: [Gaps; 2], numbers: Numbers) -> Draft {
    let x_lines = lines(random, counts[0], gaps[0]);
    let y_lines = lines(random, counts[1], gaps[1]);
    let nodes = (0..counts[0] * counts[1]).map(|_| node(random, numbers)).collect();
    Draft { x_lines, y_lines, nodes }
}

/// Lines that start at 0, end at the last place for one, or lie anywhere between.
fn lines(random: &mut Random, count: i64, gaps: Gaps) -> Vec<u16> {
    let mut offsets = vec![0];
    for _ in 1..count {
        let gap = match gaps {
            Gaps::All(gap) => gap,
            Gaps::UpTo(most) => random.between(1, most.min(MOST_GAP)),
        };
        offsets.push(offsets[offsets.len() - 1] + gap);
    }
    let room = LAST_LINE - offsets[offsets.len() - 1];
    let anywhere = random.between(0, room);
    let first = random.pick(&[0, room, anywhere]);
    offsets.iter().map(|offset| (first + offset) as u16).collect()
}

fn node(random: &mut Random, numbers: Numbers) -> [i16; 3] {
    [0, 1, 2].map(|place| {
        let number = match numbers {
            Numbers::Random => random.between(-MOST, MOST),
            Numbers::Extreme => random.pick(&[-MOST, MOST]),
            Numbers::NearExtreme => random.pick(&[-MOST, 1 - MOST, 0, MOST - 1, MOST]),
            Numbers::Sparse if random.once_in(9) => random.between(-MOST, MOST),
            Numbers::Sparse => 0,
            Numbers::UpTo(most) => random.between(-most, most),
            Numbers::Below(_) if place == 0 => 0,
            Numbers::Below(most) => random.between(-most, -1),
        };
        number as i16
    })
}
