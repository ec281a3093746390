//! The walk written by hand answers as the second implementation does: costs, gaps,
//! and every refusal with its place.

use epm_reference::columns::Column;
use epm_reference::data::Table;
use epm_reference::earlier::certificates;
use epm_reference::generator::anything::{any_contents, any_lists, steep};
use epm_reference::generator::damage::{damage, Damage};
use epm_reference::generator::draft::{Case, Draft};
use epm_reference::generator::random::Random;
use epm_reference::generator::seasons;
use epm_reference::generator::stations::stations;
use epm_reference::generator::{
    case, extremes, multiplier_edges, range_edges, sound_case, twice_damaged_case,
};
use epm_reference::met::Met;
use epm_reference::refusal::{
    Refusal, BROKEN, COLUMN_OFF_SCALE, ENTRY, MULTIPLIER, OF_ALL_CALLS, OF_CERTIFY, PLACED,
    ROW_OFF_SCALE, UNDERPRICED,
};
use epm_reference::shape::Shape;
use epm_reference::sums::LIMIT;
use std::collections::BTreeSet;

/// The refusals that certify can give.
fn refusals() -> Vec<u32> {
    [&OF_ALL_CALLS[..], &OF_CERTIFY].concat()
}

/// What was met on inputs where both agree.
#[derive(Default)]
struct Agreement {
    certified: u64,
    met: Met,
}

impl Agreement {
    /// Holds check and certify to the second implementation; answers what certify does.
    fn hold(&mut self, label: &str, case: &Case) -> Result<(u64, u64), Refusal> {
        let (data, scale, plan) = (&case.data, case.scale, &case.plan);
        let expected = epm_reference::check(data, scale, plan);
        assert_eq!(epm_bench::check(data, scale, plan), expected, "{label}");
        let expected = epm_reference::certify(data, scale, plan, &case.multipliers);
        let answered = epm_bench::certify(data, scale, plan, &case.multipliers);
        assert_eq!(answered, expected, "{label}");
        match expected {
            Ok(_) => self.certified += 1,
            Err(refusal) => self.met.count(data, refusal),
        }
        expected
    }
}

#[test]
fn the_walk_agrees_on_seeded_inputs() {
    let mut agreement = Agreement::default();
    let mut hold = |label: &str, case: &Case| agreement.hold(label, case);
    for seed in 0..3000 {
        let _ = hold(&format!("seed {seed}"), &case(seed).case);
    }
    for station in stations() {
        let _ = hold("station", &station.case());
    }
    for extreme in extremes::all() {
        assert_eq!(hold(extreme.name, &extreme.case), extreme.answer);
    }
    for seed in 0..20 {
        for case in multiplier_edges(seed).iter().chain(&range_edges(seed)) {
            let _ = hold(&format!("edge of seed {seed}"), case);
        }
    }
    let mut random = Random::new(7);
    for length in 0..400 {
        let _ = hold("two faults", &twice_damaged_case(&mut random));
        let _ = hold("any lists", &any_lists(&mut random, length));
        let _ = hold("any contents", &any_contents(&mut random));
        let _ = hold("steep", &steep(&mut random));
    }
    // Every refusal, each in every family or table that can be refused by it.
    assert_eq!(agreement.met.missing(&refusals()), Vec::<String>::new());
    assert_eq!(agreement.met.missing_places(&PLACED), Vec::<String>::new());
    assert!(agreement.certified > 500);
}

/// Links by season in (21): cases worked out by hand, and certificates of the earlier row.
#[test]
fn the_walk_agrees_on_the_lowest_season_limit() {
    let mut agreement = Agreement::default();
    for worked in seasons::all() {
        let answer = agreement.hold(&worked.name, &worked.case);
        assert_eq!(answer, worked.answer, "{}", worked.name);
    }
    for earlier in certificates() {
        let tried = earlier.tried();
        let answer = agreement.hold(&earlier.name, &earlier.case);
        assert_eq!(answer, tried.answer, "{}", earlier.name);
        if let Some((mended, figures)) = tried.mended {
            let answer = agreement.hold(&earlier.name, &mended);
            assert_eq!(answer, Ok(figures), "{}, mended", earlier.name);
        }
    }
}

/// The generator's own shapes have few slices. These have runs of slices of all lengths that
/// the vector code tells apart: long ones, and ones that are no whole number of vectors.
#[test]
fn the_walk_agrees_on_long_runs_of_slices() {
    let mut agreement = Agreement::default();
    let mut random = Random::new(8);
    for counts in [
        [2, 3, 2, 3, 3, 23, 2],
        [3, 4, 2, 4, 4, 24, 1],
        [2, 4, 1, 1, 1, 13, 2],
        [2, 4, 2, 2, 3, 1, 3],
    ] {
        for seed in 0..5 {
            let sound = sound_case(Shape::new(counts), seed);
            let answer = agreement.hold(&format!("{counts:?}"), &sound);
            assert!(answer.is_ok());
            for chosen in Damage::all() {
                let draft = Draft::of(sound.clone());
                if let Some((case, _)) = damage(&mut random, draft, chosen) {
                    let _ = agreement.hold(&format!("{counts:?}, {chosen:?}"), &case);
                }
            }
        }
    }
    let placed = [BROKEN, UNDERPRICED];
    assert_eq!(agreement.met.missing_places(&placed), Vec::<String>::new());
}

/// An entry one more, one less, far above and at its most.
fn changed(entry: u32) -> [u32; 4] {
    [
        entry.wrapping_add(1),
        entry.wrapping_sub(1),
        entry.wrapping_add(1 << 24),
        u32::MAX,
    ]
}

/// Each entry of a sound case and each multiplier in turn is changed, so that the first
/// fault is once at each place, and limits are far from what is used.
#[test]
fn the_walk_agrees_on_each_entry_changed() {
    let sound = sound_case(Shape::new([2, 3, 2, 2, 2, 3, 2]), 2);
    assert!(sound.scale > 256, "limits past 32 bits");
    let draft = Draft::of(sound.clone());
    let battery = (0..draft.shape.plants).any(|g| draft.is_battery(g) && draft.cap(0, g) > 0);
    assert!(battery, "no battery");
    assert!(draft.entry(Column::Total, &[1, 0, 1]) > 0, "no lines");
    let mut agreement = Agreement::default();
    for place in 7..sound.data.len() {
        for entry in changed(sound.data[place]) {
            let mut case = sound.clone();
            case.data[place] = entry;
            let _ = agreement.hold(&format!("data entry {place} is {entry}"), &case);
        }
    }
    for place in 0..sound.plan.len() {
        for entry in changed(sound.plan[place]) {
            let mut case = sound.clone();
            case.plan[place] = entry;
            let _ = agreement.hold(&format!("plan entry {place} is {entry}"), &case);
        }
    }
    for place in 0..sound.multipliers.len() {
        for change in [1, -1, 1 << 24, 1 << 36, -(1 << 36)] {
            let mut case = sound.clone();
            case.multipliers[place] += change;
            let _ = agreement.hold(&format!("multiplier {place} by {change}"), &case);
        }
    }
    let met = [ENTRY, BROKEN, MULTIPLIER, UNDERPRICED];
    assert_eq!(agreement.met.missing(&met), Vec::<String>::new());
}

/// One idle VRE plant in two days of three slices of 8784 hours each. Families 10 and
/// 17 load each hour with `hourly`, so the negative sum of each generation column is
/// 8784·hourly.
fn loaded_columns(hourly: i128) -> Draft {
    let mut draft = Draft::empty(Shape::new([1, 1, 1, 1, 2, 3, 1]), 1);
    for (table, value) in [
        (Table::ReturnRate, 1),
        (Table::Weight, 1),
        (Table::Year, 2),
        (Table::Vre, 1),
        (Table::HeatRate, 1),
    ] {
        draft.set_data(table, &[0], value);
    }
    draft.set_data(Table::FixedOm, &[0, 0], 1 << 31);
    draft.set_data(Table::Err, &[], 1);
    draft.set_data(Table::SresVoll, &[], 1 << 31);
    for s in 0..6 {
        draft.set_data(Table::Duration, &[s], 8784);
    }
    draft.set_multiplier(10, &[0, 0, 0], hourly / 1000);
    draft.set_multiplier(17, &[0, 0, 0], hourly % 1000);
    draft
}

/// Adds `more` to the negative sum of the last column, by family 3; family 6 keeps
/// the reserve column priced well.
fn load_last(draft: &mut Draft, more: i128) {
    draft.set_multiplier(3, &[0, 0, 5], more);
    draft.set_multiplier(6, &[0, 0, 5], more);
}

/// Any small multipliers of the families that a generation column has slice by slice,
/// among slices of any length, so that sums fall to both sides of limit and price.
fn draw_slices(random: &mut Random, draft: &mut Draft) {
    for s in 0..6 {
        let hours = *random.pick(&[0, 1, 8784, 8784]);
        draft.set_data(Table::Duration, &[s], hours);
        let sign = *random.pick(&[1, -1]);
        draft.set_multiplier(1, &[0, 0, s], sign * i128::from(random.below(4)));
        let sign = *random.pick(&[1, -1]);
        draft.set_multiplier(21, &[0, 0, s], sign * i128::from(random.below(4)));
        for family in [3, 5, 6, 7, 8, 9, 11, 22, 23, 24, 25] {
            draft.set_multiplier(family, &[0, 0, s], i128::from(random.below(4)));
        }
    }
    for day in 0..2 {
        let minimum_load = i128::from(random.below(2));
        draft.set_data(Table::MinimumLoadDay, &[0, day], minimum_load);
    }
    let vre = i128::from(random.below(2));
    draft.set_data(Table::Vre, &[0], vre);
    draft.set_data(Table::Battery, &[0], 1 - vre);
    draft.set_data(Table::Efficiency, &[0], i128::from(random.below(1001)));
    draft.set_data(Table::Err, &[], i128::from(random.below(1001)));
}

/// The sums of generation columns at the limit and just past it.
#[test]
fn the_walk_agrees_at_the_limit_of_generation_columns() {
    let mut agreement = Agreement::default();
    let limit = LIMIT as i128;
    let (most, rest) = (limit / 8784, limit % 8784);
    let mut draft = loaded_columns(most);
    load_last(&mut draft, rest);
    assert_eq!(agreement.hold("at the limit", &draft.case), Ok((0, 0)));
    load_last(&mut draft, rest + 1);
    let last = draft.columns.index(Column::Gen, &[0, 0, 5]);
    let refusal = Refusal::at(COLUMN_OFF_SCALE, last);
    assert_eq!(agreement.hold("past it", &draft.case), Err(refusal));

    let mut random = Random::new(9);
    for near in [most, 1000] {
        for _ in 0..3000 {
            let hourly = near + i128::from(random.below(6)) - 4;
            let mut draft = loaded_columns(hourly);
            draw_slices(&mut random, &mut draft);
            let _ = agreement.hold(&format!("{hourly} an hour"), &draft.case);
        }
    }
    // The families at their most, with either sign of the first.
    for hourly in [1000, most] {
        for sign in [1, -1] {
            let mut draft = loaded_columns(hourly);
            for s in 0..6 {
                draft.set_multiplier(1, &[0, 0, s], sign << 40);
                draft.set_multiplier(21, &[0, 0, s], sign << 40);
                for family in [3, 5, 6, 7, 8, 9, 11, 22, 23, 24, 25] {
                    draft.set_multiplier(family, &[0, 0, s], 1 << 40);
                }
            }
            let _ = agreement.hold("all at their most", &draft.case);
        }
    }
    assert!(agreement.met.refusals(COLUMN_OFF_SCALE) > 100);
    assert!(agreement.met.refusals(UNDERPRICED) > 100);
}

/// Two zones of two seasons and two years. In the first year `total` Nths of a line are
/// built, which carry `each` MW from zone 0 to zone 1 and nothing back.
fn with_lines(each: i128, total: i128) -> Draft {
    let mut draft = Draft::empty(Shape::new([2, 1, 1, 2, 1, 2, 2]), 1);
    draft.set_data(Table::Year, &[0], 3);
    draft.set_data(Table::LineMw, &[0, 1], each);
    for y in 0..2 {
        draft.set_data(Table::ReturnRate, &[y], 1);
        draft.set_data(Table::Weight, &[y], 1);
    }
    for (z, z2) in [(0, 1), (1, 0)] {
        draft.set_data(Table::LineLimit, &[z, z2], total);
        draft.set_entry(Column::Built, &[0, z, z2], total);
        for y in 0..2 {
            draft.set_entry(Column::Total, &[y, z, z2], total);
        }
    }
    draft
}

/// Two factors of 32 bits whose product is the limit, 2^62 − 1.
const FACTORS: (i128, i128) = ((1 << 31) + 1, (1 << 31) - 1);

/// The lines of a pair at the limit of family 2, which is past that of family 3; a MW of
/// cable in the second season is too much in family 2 as well.
#[test]
fn the_walk_agrees_at_the_limit_of_transfer_limits() {
    let mut agreement = Agreement::default();
    let (each, total) = FACTORS;
    assert_eq!(each * total, LIMIT as i128);
    let mut draft = with_lines(each, total);
    let off_scale = |row| Err(Refusal::at(ROW_OFF_SCALE, row));
    let into_zone_1 = draft.rows.index(3, &[0, 1, 0]);
    let answer = agreement.hold("at the limit", &draft.case);
    assert_eq!(answer, off_scale(into_zone_1));
    draft.set_data(Table::Tl, &[0, 0, 1, 1], 1);
    let second_season = draft.rows.index(2, &[0, 0, 1, 2]);
    let answer = agreement.hold("past it", &draft.case);
    assert_eq!(answer, off_scale(second_season));
}

/// What lines add to the spinning reserve, with spinshort, at the limit and just past it.
/// TL and SRes are one constant, so that they may cancel each other out.
#[test]
fn the_walk_agrees_at_the_limit_of_spinning_reserve() {
    let mut agreement = Agreement::default();
    let (limit, total) = (LIMIT as i128, 1 << 22);
    let each = limit / 1000 / total;
    let rest = limit - 1000 * each * total;
    let mut draft = with_lines(each, total);
    draft.set_entry(Column::SpinShort, &[1, 1, 3], rest);
    assert_eq!(agreement.hold("at the limit", &draft.case), Ok((0, 0)));
    let largest = i128::from(u32::MAX);
    draft.set_data(Table::Tl, &[1, 0, 1, 1], largest);
    draft.set_data(Table::SRes, &[1, 1], largest);
    draft.set_entry(Column::SpinShort, &[1, 1, 0], 0);
    draft.set_data(Table::Tl, &[1, 0, 1, 0], largest);
    assert_eq!(agreement.hold("no constant", &draft.case), Ok((0, 0)));
    draft.set_entry(Column::SpinShort, &[1, 1, 3], rest + 1);
    let last = draft.rows.index(3, &[1, 1, 3]);
    let refusal = Refusal::at(ROW_OFF_SCALE, last);
    assert_eq!(agreement.hold("past it", &draft.case), Err(refusal));
}

/// The sum of a total's terms at the limit, where its price is 0, and just past it.
#[test]
fn the_walk_agrees_at_the_limit_of_total_columns() {
    let mut agreement = Agreement::default();
    let (each, slices) = FACTORS;
    let mut draft = with_lines(each, 0);
    draft.set_multiplier(2, &[0, 0, 1, 0], 1);
    draft.set_multiplier(2, &[0, 0, 1, 3], slices - 1);
    let total = draft.columns.index(Column::Total, &[0, 0, 1]);
    let answer = agreement.hold("at the limit", &draft.case);
    assert_eq!(answer, Err(Refusal::at(UNDERPRICED, total)));
    draft.set_multiplier(28, &[0, 0, 1], 1);
    let answer = agreement.hold("past it", &draft.case);
    assert_eq!(answer, Err(Refusal::at(COLUMN_OFF_SCALE, total)));
}

/// Three zones of two seasons and two years with any lines between them, one time in
/// three of any size, now and then a Nth out of balance, past its limit or unlike its
/// other direction, and any multipliers of the families that lines stand in. Reserve and
/// spinshort have the largest price that there is, so that family 3 may be priced.
fn draw_lines(random: &mut Random) -> Draft {
    let mut draft = Draft::empty(Shape::new([3, 1, 1, 2, 1, 2, 2]), 1);
    let largest = i128::from(u32::MAX);
    draft.set_data(Table::Year, &[0], 3);
    draft.set_data(Table::ResCost, &[0], largest);
    draft.set_data(Table::SresVoll, &[], largest);
    for s in 0..4 {
        draft.set_data(Table::Duration, &[s], 8784);
    }
    for y in 0..2 {
        draft.set_data(Table::ReturnRate, &[y], *random.pick(&[1, 1000]));
        draft.set_data(Table::Weight, &[y], *random.pick(&[1, 20]));
    }
    let sizes = random.below(3);
    for (z, z2) in [(0, 1), (0, 2), (1, 2)] {
        let built = [(); 2].map(|_| match sizes {
            0 => *random.pick(&[0, 3, 1 << 22, FACTORS.1]),
            _ => i128::from(random.below(4)),
        });
        for pair in [[z, z2], [z2, z]] {
            draw_pair(random, &mut draft, pair, built);
        }
    }
    draw_multipliers(random, &mut draft);
    draft
}

/// The data and entries of one direction of a pair that builds these lines.
fn draw_pair(random: &mut Random, draft: &mut Draft, [z, z2]: [usize; 2], built: [i128; 2]) {
    let mut slip = || i128::from(random.below(40) == 0);
    // One Nth more than in the other direction.
    let built = [built[0] + slip(), built[1]];
    let limit = built[0] + built[1] - slip();
    let (mut total, too_much) = (slip(), slip());
    draft.set_data(Table::LineLimit, &[z, z2], limit.max(0));
    let each = *random.pick(&[0, 1, 5, 1_099_511_627, FACTORS.0, (1 << 32) - 1]);
    draft.set_data(Table::LineMw, &[z, z2], each);
    let annuity = *random.pick(&[0, 7, (1 << 32) - 1]);
    draft.set_data(Table::LineAnnuity, &[z, z2], annuity);
    for (y, more) in built.into_iter().enumerate() {
        total += more;
        draft.set_entry(Column::Built, &[y, z, z2], more);
        draft.set_entry(Column::Total, &[y, z, z2], total);
        for q in 0..2 {
            let limit = *random.pick(&[0, 4, (1 << 32) - 1]);
            draft.set_data(Table::Tl, &[y, z, z2, q], limit);
        }
    }
    // 5 MW more than a cable of 4 MW carries, unmet where they leave.
    draft.set_entry(Column::Trans, &[0, z, z2, 3], 5 * too_much);
    if too_much == 1 {
        draft.set_entry(Column::Unmet, &[0, z, 3], 5000);
        draft.set_entry(Column::Surplus, &[0, z2, 3], 5000);
    }
}

fn draw_multipliers(random: &mut Random, draft: &mut Draft) {
    for row in 0..draft.rows.count() {
        let most = *random.pick(&[0, 0, 2, 1 << 20, 1 << 34]);
        let sign = match draft.rows.family(row) {
            Some(26 | 28) => *random.pick(&[1, -1]),
            Some(2 | 3 | 27) => 1,
            _ => 0,
        };
        draft.case.multipliers[row] = sign * random.below(most + 1) as i64;
    }
    // A total that lines of no size and no multiplier leave at its price.
    if random.below(3) == 0 {
        draft.case.multipliers.fill(0);
    }
}

/// Every family and column of the lines as the first refusal, off scale too.
#[test]
fn the_walk_agrees_on_any_lines() {
    let mut agreement = Agreement::default();
    let mut random = Random::new(10);
    let mut met = BTreeSet::new();
    for draw in 0..6000 {
        let draft = draw_lines(&mut random);
        let answer = agreement.hold(&format!("draw {draw}"), &draft.case);
        let Err(Refusal { number, place }) = answer else {
            continue;
        };
        let place = place as usize;
        match number {
            ROW_OFF_SCALE | BROKEN => {
                let family = draft.rows.family(place).expect("a row");
                met.insert((number, format!("family {family}")));
            }
            COLUMN_OFF_SCALE | UNDERPRICED => {
                let (column, _) = draft.columns.locate(place).expect("a column");
                met.insert((number, format!("{column:?}")));
            }
            _ => (),
        }
    }
    for (number, place) in [
        (ROW_OFF_SCALE, "family 2"),
        (ROW_OFF_SCALE, "family 3"),
        (BROKEN, "family 2"),
        (BROKEN, "family 26"),
        (BROKEN, "family 27"),
        (BROKEN, "family 28"),
        (COLUMN_OFF_SCALE, "Total"),
        (UNDERPRICED, "Built"),
        (UNDERPRICED, "Total"),
    ] {
        let wanted = (number, place.to_string());
        assert!(met.contains(&wanted), "{wanted:?} is not among {met:?}");
    }
    assert!(agreement.certified > 50);
}
