//! Seeded inputs for the three calls, the program and demand 3. Everything
//! here is a function of a `u64` seed.
//!
//! - `sound` makes data and a plan that check accepts, limits near what the
//!   plan uses; `multipliers` adds multipliers that certify accepts;
//! - `optimal` makes plans in merit order with multipliers of gap 0, `solved` small
//!   cases with a battery and `linked` small cases with lines, of gap 0 by the simplex
//!   method;
//! - `damage` changes a sound case so that a chosen refusal is met;
//! - `extremes` are fixed cases at and just past 2^62 − 1, `products` cases that turn on
//!   one product, by the lengths of its two factors;
//! - `anything` makes lists of any length and content;
//! - `frames` writes a case as the program's text, sound and damaged; `bytes`
//!   changes a text byte by byte, `large` makes texts as large as any that can be
//!   accepted, and larger; `thousandths` makes texts without a SCAL line;
//! - `stations` are the ten cases of document 01's one-plant station, `seasons` fixed cases
//!   of links by season;
//! - `rivals` makes other feasible plans over the same data.

pub mod anything;
pub mod bytes;
pub mod damage;
pub mod draft;
pub mod extremes;
pub mod frames;
pub mod large;
pub mod linked;
pub mod multipliers;
pub mod needed;
pub mod optimal;
pub mod products;
pub mod random;
pub mod rivals;
pub mod seasons;
pub mod solved;
pub mod sound;
pub mod stations;
pub mod thousandths;

use crate::calls::LARGEST_MULTIPLIER;
use crate::columns::COLUMNS;
use crate::data::TABLES;
use crate::rows::FAMILIES;
use crate::shape::Shape;
use damage::{damage, entry_edges, Damage, Expected};
use draft::{Case, Draft};
use random::Random;

/// A case for all three calls, with what is known of its answer.
#[derive(Clone, Debug)]
pub struct Generated {
    pub label: String,
    pub case: Case,
    /// Known by construction; none where the outcome is left to the law.
    pub expected: Option<Expected>,
}

/// A small shape: thousands of cases a minute. One in ten has all counts 1,
/// one in forty is of middle size, and of the others one in six has up to four seasons,
/// each of one day.
pub fn shape(random: &mut Random) -> Shape {
    if random.chance(1, 10) {
        return Shape::new([1; 7]);
    }
    if random.chance(1, 40) {
        return Shape::new([4, 8, 3, 2, 2, 8, 4]);
    }
    let largest = match random.below(6) {
        0 => [3, 5, 2, 4, 1, 4, 4],
        _ => [3, 5, 2, 2, 2, 4, 4],
    };
    Shape::new(largest.map(|count| random.between(1, count) as usize))
}

/// N: often 1 or 1000, otherwise anything between.
pub fn scale(random: &mut Random) -> u32 {
    match random.below(6) {
        0 => 1,
        1 => 1000,
        2 => *random.pick(&[2, 3, 10, 100, 999]),
        _ => random.between(1, 1000) as u32,
    }
}

/// The largest counts.
pub const LARGEST_COUNTS: [usize; 7] = [8, 32, 8, 4, 4, 24, 10];

/// A seed of which sound cases of the largest counts have batteries and lines, and three
/// quarters of their multipliers not 0.
pub const FULL_SIZE_SEED: u64 = 13;

/// A sound case of the largest counts.
pub fn full_size_case() -> Case {
    sound_case(Shape::new(LARGEST_COUNTS), FULL_SIZE_SEED)
}

/// A sound case of a given shape: check, certify and post accept it. The work
/// is about linear in the number of rows and columns.
pub fn sound_case(shape: Shape, seed: u64) -> Case {
    sound_draft(&mut Random::new(seed), shape).case
}

pub(crate) fn sound_draft(random: &mut Random, shape: Shape) -> Draft {
    let scale = scale(random);
    sound_draft_at(random, shape, scale)
}

/// A sound case of a given shape and scale.
fn sound_draft_at(random: &mut Random, shape: Shape, scale: u32) -> Draft {
    let mut draft = sound::draft(random, shape, scale);
    multipliers::draw(random, &mut draft);
    draft.draw_board(random);
    draft
}

/// A case for all three calls, sound or damaged.
pub fn case(seed: u64) -> Generated {
    let mut random = Random::new(seed);
    if random.chance(1, 4) {
        let shape = shape(&mut random);
        return sound(sound_draft(&mut random, shape), "sound");
    }
    if random.chance(1, 8) {
        return match random.below(4) {
            0 => sound(solved::draft(&mut random), "solved"),
            1 => sound(linked::draft(&mut random), "linked"),
            _ => sound(optimal::draft(&mut random), "optimal"),
        };
    }
    let all = Damage::all();
    let chosen = *random.pick(&all);
    damaged_case(&mut random, chosen)
}

fn sound(draft: Draft, label: &str) -> Generated {
    Generated {
        label: label.to_string(),
        case: draft.case,
        expected: None,
    }
}

/// A case with a chosen damage. Not every sound case can take every damage (a
/// ramp needs two hours), so sound cases are drawn until one can.
pub fn damaged_case(random: &mut Random, chosen: Damage) -> Generated {
    loop {
        let shape = shape(random);
        let draft = sound_draft(random, shape);
        if let Some((case, expected)) = damage(random, draft, chosen) {
            return Generated {
                label: format!("{chosen:?}"),
                case,
                expected,
            };
        }
    }
}

/// A case with two faults, to tell which is met first: one that certify alone
/// tests, then any.
pub fn twice_damaged_case(random: &mut Random) -> Case {
    let all = Damage::all();
    loop {
        let late = [
            Damage::MultiplierRange,
            Damage::ColumnOffScale,
            Damage::Underpriced(random.pick(&COLUMNS).column),
            Damage::GapOffScale,
            Damage::AnyMultiplier,
        ];
        let (first, second) = (*random.pick(&late), *random.pick(&all));
        let once = damaged_case(random, first).case;
        if let Some((case, _)) = damage(random, Draft::of(once), second) {
            return case;
        }
    }
}

/// Both sides of the ends of every range of multipliers.
const MULTIPLIER_EDGES: [i64; 9] = [
    i64::MIN,
    -LARGEST_MULTIPLIER - 1,
    -LARGEST_MULTIPLIER,
    -1,
    0,
    1,
    LARGEST_MULTIPLIER,
    LARGEST_MULTIPLIER + 1,
    i64::MAX,
];

/// A sound case with one multiplier of each family in turn at each of the edges.
pub fn multiplier_edges(seed: u64) -> Vec<Case> {
    let mut random = Random::new(seed);
    let shape = shape(&mut random);
    let sound = sound_draft(&mut random, shape);
    let mut cases = vec![];
    for family in &FAMILIES {
        let place = random.below(shape.size(family.axes) as u64) as usize;
        let row = sound
            .rows
            .index(family.number, &shape.indices(family.axes, place));
        for edge in MULTIPLIER_EDGES {
            let mut case = sound.case.clone();
            case.multipliers[row] = edge;
            cases.push(case);
        }
    }
    cases
}

/// A sound case with one entry of each table in turn at the ends of its range and
/// just past them. A table that this case cannot pass is left out: GenCap without a
/// candidate, MaxNewCap without an existing plant, those without a range.
pub fn range_edges(seed: u64) -> Vec<Case> {
    let mut random = Random::new(seed);
    let shape = shape(&mut random);
    let sound = sound_draft(&mut random, shape);
    let mut cases = vec![];
    for entry in &TABLES {
        let mut places = vec![];
        for place in 0..shape.size(entry.axes) {
            let indices = shape.indices(entry.axes, place);
            if !entry_edges(&sound, entry, &indices).is_empty() {
                places.push(indices);
            }
        }
        if places.is_empty() {
            continue;
        }
        let indices = random.pick(&places);
        for (inside, outside) in entry_edges(&sound, entry, indices) {
            for value in [inside, outside] {
                let mut case = sound.case.clone();
                case.data[sound.layout.index(entry.table, indices)] = value;
                cases.push(case);
            }
        }
    }
    cases
}
