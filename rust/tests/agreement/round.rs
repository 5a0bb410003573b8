//! One round of cases: all that is compared from one seed.

use crate::battery;
use crate::bench::Bench;
use crate::boundaries;
use crate::call::{Call, Written};
use crate::creases;
use crate::damage;
use crate::draft::Draft;
use crate::exercise::{self, Depth};
use crate::filling;
use crate::meshes;
use crate::pooling;
use crate::random::Random;
use crate::requests::Case;
use crate::sheet::Sheet;
use crate::steep;
use crate::sums;
use crate::three;
use crate::vectors::Vector;
use crate::worst;
use crate::zoning;

const SMALL_SHEETS: usize = 2_500;
const LARGE_SHEETS: usize = 200;
const DAMAGED_SHEETS: usize = 1_500;
const TRIPLES: usize = 300;

/// Every pixel of any cell.
const WHOLE: Depth = Depth { pixels: 65 * 65, runs: 20, nodes: 12 };
const SMALL: Depth = Depth { pixels: 1_500, runs: 20, nodes: 12 };
const LARGE: Depth = Depth { pixels: 1_000, runs: 12, nodes: 12 };
const DAMAGED: Depth = Depth { pixels: 100, runs: 4, nodes: 4 };

/// Everything the vectors say, asked of the archive too.
pub fn vectors(bench: &mut Bench, vectors: &[Vector]) {
    for vector in vectors {
        let name = format!("vector {}", vector.name);
        bench.lay(&name, &vector.bytes);
        for &(call, _) in &vector.calls {
            let outcome = bench.compare(call);
            if let Written::Nodes { .. } = outcome.written {
                bench.lay(&name, &vector.bytes);
            }
        }
        exercise::run(bench, &mut Random::new(0), WHOLE);
    }
}

/// Every case of the requests, bare and through the wrapper.
pub fn requests(bench: &mut Bench, cases: &[Case]) {
    for (case, wrapped) in cases.iter().flat_map(|case| [(case, false), (case, true)]) {
        bench.lay(&case.name, &case.sheet);
        bench.lay_second(&case.second);
        bench.lay_zones(&case.zones);
        bench.compare_by(case.call, wrapped);
    }
}

/// Everything drawn from a seed.
pub fn run(bench: &mut Bench, seed: u64) {
    let random = &mut Random::new(seed);
    boundary_sheets(bench, random, seed);
    for (k, draft) in meshes::extremes(random).iter().enumerate() {
        accepted(bench, random, &format!("seed {seed}, extreme sheet {k}"), draft, LARGE);
    }
    for (k, draft) in worst::sheets().iter().enumerate() {
        accepted(bench, random, &format!("seed {seed}, worst sheet {k}"), draft, WHOLE);
    }
    for (k, (draft, pixel)) in worst::creased_sheets().into_iter().enumerate() {
        bench.lay(&format!("seed {seed}, worst creased sheet {k}"), &draft.bytes());
        creases::beside_the_reading(bench, random, &draft.sheet(), pixel);
    }
    for (k, (draft, stiffness)) in steep::sheets().into_iter().enumerate() {
        bench.lay(&format!("seed {seed}, steep sheet {k}"), &draft.bytes());
        bench.compare(Call::FillSlopes { stiffness });
    }
    for k in 0..LARGE_SHEETS {
        let draft = meshes::large(random);
        accepted(bench, random, &format!("seed {seed}, large sheet {k}"), &draft, LARGE);
    }
    for k in 0..SMALL_SHEETS {
        let draft = meshes::any(random);
        accepted(bench, random, &format!("seed {seed}, sheet {k}"), &draft, SMALL);
    }
    for k in 0..DAMAGED_SHEETS {
        let draft = meshes::any(random);
        let (damage, bytes) = damage::damaged(random, &draft);
        bench.lay(&format!("seed {seed}, damaged sheet {k}: {damage}"), &bytes);
        everything(bench, random, &draft.sheet(), DAMAGED);
    }
    pools(bench, random, seed);
}

/// Pools of sheets that are made for it.
fn pools(bench: &mut Bench, random: &mut Random, seed: u64) {
    sums::run(bench, random, &format!("seed {seed}, a pair with a sum at an end"));
    pooling::same_line_bytes(bench, &format!("seed {seed}, same line bytes"));
    for k in 0..TRIPLES {
        three::run(bench, random, &format!("seed {seed}, three sheets {k}"));
    }
}

fn boundary_sheets(bench: &mut Bench, random: &mut Random, seed: u64) {
    let base = boundaries::base(random).sheet();
    for boundary in boundaries::all(random) {
        bench.lay(&format!("seed {seed}, boundary {}", boundary.name), &boundary.bytes);
        let mesh = bench.sheet().unwrap_or(&base).clone();
        everything(bench, random, &mesh, DAMAGED);
    }
}

fn accepted(bench: &mut Bench, random: &mut Random, name: &str, draft: &Draft, depth: Depth) {
    bench.lay(name, &draft.bytes());
    everything(bench, random, &draft.sheet(), depth);
}

/// Every call on the sheet that lies there, with arguments about the ends of a mesh too.
fn everything(bench: &mut Bench, random: &mut Random, mesh: &Sheet, depth: Depth) {
    exercise::run(bench, random, depth);
    battery::run(bench, mesh);
    creases::run(bench, random, mesh);
    pooling::run(bench, random, mesh);
    zoning::run(bench, random, mesh);
    // Last, because it leaves flat slopes.
    filling::run(bench, random);
}
