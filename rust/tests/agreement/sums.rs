//! Pairs of sheets with one sum at an end of the range, or beyond it; all other sums are in range.

use crate::bench::Bench;
use crate::draft::Draft;
use crate::meshes::MOST;
use crate::pooling::pool;
use crate::random::Random;

/// The ends, one beyond each, and the farthest that two numbers can come.
const SUMS: [i64; 6] = [MOST, -MOST, MOST + 1, -MOST - 1, 2 * MOST, -2 * MOST];
/// Lines along x and y of the sheet whose every number has its turn.
const WHOLE: [u16; 2] = [9, 7];
/// Those of sheets whose first and last node have.
const ENDS: [[u16; 2]; 5] = [[2, 2], [3, 2], [2, 65], [65, 2], [65, 65]];

/// Two sheets, and the sum.
struct Pair {
    first: Draft,
    second: Draft,
    sum: i64,
}

/// Pools them: those with a sum beyond the range are refused, the others are not.
pub fn run(bench: &mut Bench, random: &mut Random, name: &str) {
    for Pair { first, second, sum } in pairs(random) {
        let pooled = pool(bench, name, &first.bytes(), &second.bytes());
        assert_eq!(pooled.is_some(), sum.abs() <= MOST, "a sum of {sum}");
    }
}

fn pairs(random: &mut Random) -> Vec<Pair> {
    let mut places: Vec<([u16; 2], usize)> = (0..numbers(WHOLE)).map(|k| (WHOLE, k)).collect();
    for counts in ENDS {
        let last = numbers(counts) - 3;
        places.extend([0, 1, 2, last, last + 1, last + 2].map(|k| (counts, k)));
    }
    let cases = places.iter().flat_map(|&place| SUMS.map(|sum| (place, sum)));
    cases.map(|((counts, place), sum)| pair(random, counts, place, sum)).collect()
}

/// How many numbers the nodes of so many lines have.
fn numbers(counts: [u16; 2]) -> usize {
    3 * usize::from(counts[0]) * usize::from(counts[1])
}

fn pair(random: &mut Random, counts: [u16; 2], place: usize, sum: i64) -> Pair {
    let [mut first, mut second] = [0, 1].map(|_| half_high(random, counts));
    let share = random.between((sum - MOST).max(-MOST), (sum + MOST).min(MOST));
    first.nodes.as_flattened_mut()[place] = share as i16;
    second.nodes.as_flattened_mut()[place] = (sum - share) as i16;
    Pair { first, second, sum }
}

/// A sheet whose numbers go no farther than to half of the range.
fn half_high(random: &mut Random, counts: [u16; 2]) -> Draft {
    let [x_lines, y_lines] = counts.map(|count| (0..count).collect::<Vec<u16>>());
    let mut draft = Draft::flat(&x_lines, &y_lines);
    for number in draft.nodes.as_flattened_mut() {
        *number = random.between(-MOST / 2, MOST / 2) as i16;
    }
    draft
}
