//! Three sheets, such as those of screen, lens and port glass: a pool can be pooled again.

use crate::bench::Bench;
use crate::call::{Call, Written};
use crate::meshes::{self, Numbers};
use crate::pixels::{self, Pixel};
use crate::pooling::pool;
use crate::random::Random;
use crate::sheet::Sheet;

const ORDERS: [[usize; 3]; 6] = [[0, 1, 2], [0, 2, 1], [1, 0, 2], [1, 2, 0], [2, 0, 1], [2, 1, 0]];
/// Three numbers of the first kind never leave the range, those of the others at times.
const NUMBERS: [Numbers; 3] = [Numbers::UpTo(1365), Numbers::UpTo(2000), Numbers::NearExtreme];

/// Three sheets pooled in all orders and groupings: all that are not refused are the same.
pub fn run(bench: &mut Bench, random: &mut Random, name: &str) {
    let draft = meshes::any(random);
    let numbers = random.pick(&NUMBERS);
    let sheets = [0, 1, 2].map(|_| meshes::renumbered(random, &draft, numbers).bytes());
    let mut pools = Vec::new();
    for order in ORDERS {
        let [one, two, three] = order.map(|place| &sheets[place]);
        let left = pool(bench, name, one, two);
        pools.extend(left.and_then(|both| pool(bench, name, &both, three)));
        let right = pool(bench, name, two, three);
        pools.extend(right.and_then(|both| pool(bench, name, one, &both)));
    }
    assert!(pools.iter().all(|pool| *pool == pools[0]), "in any order and grouping");
    reads_as_the_sum(bench, random, name, &sheets);
}

/// "Its level differs from the sum of the two levels by at most 1 grain."
fn reads_as_the_sum(bench: &mut Bench, random: &mut Random, name: &str, sheets: &[Vec<u8>; 3]) {
    let [first, second, _] = sheets;
    let Some(both) = pool(bench, name, first, second) else {
        return;
    };
    let mesh = Sheet::decode(first).expect("an accepted sheet");
    let pixels = pixels::of_every_sort(&mesh, random, 12);
    let [first, second, both] =
        [first, second, &both].map(|sheet| levels(bench, name, sheet, &pixels));
    for ((first, second), both) in first.iter().zip(&second).zip(&both) {
        assert!((both - first - second).abs() <= 1.0 / 64.0, "the level of a pool");
    }
}

/// The levels read from a sheet, in steps.
fn levels(bench: &mut Bench, name: &str, sheet: &[u8], pixels: &[Pixel]) -> Vec<f64> {
    bench.lay_again(name, sheet);
    let mut level = |&(x, y): &Pixel| match bench.compare(Call::Read { x, y, kind: 0 }).written {
        Written::Values(values) => values[0],
        written => panic!("a level, not {written:?}"),
    };
    pixels.iter().map(&mut level).collect()
}
