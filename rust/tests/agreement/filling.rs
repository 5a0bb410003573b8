//! Filling slopes, on any sheet, accepted or not.

use crate::bench::Bench;
use crate::call::Call;
use crate::random::Random;
use crate::sheet::Sheet;
use crate::slopes;

/// Beyond the end, some of them inside if cut to 8 or 16 bits; then the ends, flat slopes last.
const STIFFNESSES: [u32; 17] =
    [65, 66, 127, 128, 255, 256, 257, 320, 65_535, 65_536, 65_600, 1 << 31, u32::MAX, 64, 63, 1, 0];

/// Stiffnesses about the greatest that the heights allow, and on both sides of what is allowed.
pub fn run(bench: &mut Bench, random: &mut Random) {
    if let Some(sheet) = bench.sheet().cloned() {
        about_the_stiffest(bench, random, &sheet);
    }
    for stiffness in STIFFNESSES {
        bench.compare(Call::FillSlopes { stiffness });
    }
}

fn about_the_stiffest(bench: &mut Bench, random: &mut Random, sheet: &Sheet) {
    let stiffest = slopes::stiffest(sheet);
    let lower = random.between(0, stiffest.into()) as u32;
    // Refused before anything is filled, and where slopes of a fill stand already.
    for stiffness in [stiffest + 1, lower, stiffest + 1, stiffest, stiffest] {
        bench.compare(Call::FillSlopes { stiffness });
    }
    for _ in 0..4 {
        let (x, y) = (random.pick(&sheet.x_lines), random.pick(&sheet.y_lines));
        bench.compare(Call::Read { x, y, kind: 0 });
        bench.compare(Call::Read { x, y, kind: 1 });
    }
    bench.compare(Call::Check);
}
