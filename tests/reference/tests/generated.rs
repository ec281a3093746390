//! The generator's cases answer as their construction says.

use epm_reference::columns::{Column, ColumnLayout, COLUMN_TABLES};
use epm_reference::data::{read_shape, TABLES, TABLE_COUNT};
use epm_reference::generator::damage::{
    entry_edges, limits, Damage, Expected, FAMILIES_WITH_LIMIT,
};
use epm_reference::generator::draft::{Case, Draft};
use epm_reference::generator::random::Random;
use epm_reference::generator::{
    damaged_case, extremes, linked, optimal, shape, solved, sound_case,
};
use epm_reference::refusal::{ENTRY, MULTIPLIER, OF_ALL_CALLS, OF_CERTIFY};
use epm_reference::rows::{RowLayout, FAMILIES, FAMILY_COUNT};
use epm_reference::shape::Shape;
use epm_reference::{certify, check, post, Refusal};

const SEEDS: u64 = 200;

fn sound(seed: u64) -> Case {
    let mut random = Random::new(seed);
    let shape = shape(&mut random);
    sound_case(shape, seed)
}

fn check_case(case: &Case) -> Result<u64, Refusal> {
    check(&case.data, case.scale, &case.plan)
}

fn certify_case(case: &Case) -> Result<(u64, u64), Refusal> {
    certify(&case.data, case.scale, &case.plan, &case.multipliers)
}

fn post_case(case: &Case) -> (Result<u64, Refusal>, Vec<u32>) {
    let mut board = case.board.clone();
    let answer = post(
        &case.data, case.scale, &case.plan, case.year, &mut board, case.start,
    );
    (answer, board)
}

#[test]
fn sound_cases_are_accepted_by_all_calls() {
    for seed in 0..SEEDS {
        let case = sound(seed);
        let cost = check_case(&case).unwrap_or_else(|refusal| panic!("seed {seed}: {refusal}"));
        let (certified, _) = certify_case(&case).expect("sound multipliers");
        assert_eq!(certified, cost, "seed {seed}");
        assert_eq!(post_case(&case).0, Ok(cost), "seed {seed}");
    }
}

/// Multipliers of all 0 are always accepted and their gap is the cost.
#[test]
fn zero_multipliers_leave_the_whole_cost_as_gap() {
    for seed in 0..SEEDS {
        let mut case = sound(seed);
        let cost = check_case(&case).expect("a sound plan");
        case.multipliers.fill(0);
        assert_eq!(certify_case(&case), Ok((cost, cost)), "seed {seed}");
    }
}

/// Sound cases use what the law has: every column table is non-zero somewhere,
/// multipliers of every family are, and the families of equalities have both signs.
#[test]
fn sound_cases_are_not_trivial() {
    let mut columns_used = [0_u64; COLUMN_TABLES];
    let mut rows_used = [0_u64; FAMILY_COUNT];
    let mut below_zero = [0_u64; FAMILY_COUNT];
    let mut bounds_above_zero = 0;
    let (mut non_zero, mut all, mut far_from_zero) = (0_u64, 0_u64, 0_u64);
    for seed in 0..SEEDS {
        let case = sound(seed);
        let shape = read_shape(&case.data).expect("sound data");
        let (columns, rows) = (ColumnLayout::new(shape), RowLayout::new(shape));
        for (number, _) in case.plan.iter().enumerate().filter(|entry| *entry.1 > 0) {
            let (column, _) = columns.locate(number).expect("a column");
            columns_used[column as usize] += 1;
        }
        for (number, &multiplier) in case.multipliers.iter().enumerate() {
            let family = rows.family(number).expect("a row");
            rows_used[family - 1] += u64::from(multiplier > 0);
            below_zero[family - 1] += u64::from(multiplier < 0);
            non_zero += u64::from(multiplier != 0);
            all += 1;
        }
        let used = case.multipliers.iter().filter(|m| **m != 0).count();
        far_from_zero += u64::from(used * 4 > 3 * case.multipliers.len());
        let (cost, gap) = certify_case(&case).expect("a sound case");
        bounds_above_zero += u64::from(cost > gap);
    }
    println!("columns used {columns_used:?}");
    println!("multipliers above 0 {rows_used:?}");
    println!("multipliers below 0 {below_zero:?}");
    println!("cases with three quarters of their multipliers not 0: {far_from_zero}");
    println!("not 0: {non_zero} of {all}; bounds above 0: {bounds_above_zero}");
    assert!(columns_used.iter().all(|&count| count > 0));
    assert!(rows_used.iter().all(|&count| count > 0));
    for family in &FAMILIES {
        let both_signs = below_zero[family.number - 1] > 0;
        assert_eq!(both_signs, family.equality, "{}", family.name);
    }
    assert!(
        non_zero * 2 > all,
        "{non_zero} of {all} multipliers are not 0"
    );
    assert!(far_from_zero * 4 > SEEDS);
    assert!(bounds_above_zero * 4 > SEEDS);
}

/// Merit order with its rents is optimal, so the gap is 0.
#[test]
fn merit_order_has_gap_zero() {
    let mut costs_above_zero = 0;
    for seed in 0..SEEDS {
        let case = optimal::draft(&mut Random::new(seed)).case;
        let (cost, gap) = certify_case(&case).expect("an optimal case");
        assert_eq!(gap, 0, "seed {seed}");
        costs_above_zero += u64::from(cost > 0);
    }
    assert!(costs_above_zero * 2 > SEEDS);
}

/// The optimum with a battery, by the second implementation's own simplex: the gap is
/// 0, and each limit of a battery is worth something in some case.
#[test]
fn solved_cases_with_a_battery_have_gap_zero() {
    let mut worth = [0_u64; FAMILY_COUNT];
    let mut built = 0;
    for seed in 0..SEEDS {
        let draft = solved::draft(&mut Random::new(seed));
        let case = &draft.case;
        let (cost, gap) = certify_case(case).expect("an optimal case");
        assert_eq!(gap, 0, "seed {seed}");
        assert!(cost > 0, "seed {seed}");
        let battery = (0..draft.shape.plants).find(|&g| draft.is_battery(g));
        let battery = battery.expect("a battery");
        let charges = draft.columns.of_table(Column::Charge);
        assert!(charges.into_iter().any(|column| case.plan[column] > 0));
        built += u64::from(draft.entry(Column::Build, &[0, battery]) > 0);
        for family in &FAMILIES {
            let mut rows = draft.rows.of_family(family.number);
            let used = rows.any(|row| case.multipliers[row] != 0);
            worth[family.number - 1] += u64::from(used);
        }
    }
    println!("battery built {built}, families with multipliers {worth:?}");
    assert!(built > 0);
    for family in [1, 5, 12, 21, 22, 23, 24, 25] {
        assert!(worth[family - 1] > 0, "family {family}");
    }
}

/// The optimum of two isles by the same simplex: the gap is 0 where lines are built, which
/// may be in either year and in fractions of a line, and where they are not worth it.
#[test]
fn solved_cases_with_lines_have_gap_zero() {
    let mut worth = [0_u64; FAMILY_COUNT];
    let (mut built, mut not_built, mut later, mut fractions) = (0, 0, 0, 0);
    for seed in 0..SEEDS {
        let draft = linked::draft(&mut Random::new(seed));
        let case = &draft.case;
        let (cost, gap) = certify_case(case).expect("an optimal case");
        assert_eq!(gap, 0, "seed {seed}");
        assert!(cost > 0, "seed {seed}");
        let lines = |y: usize| draft.entry(Column::Built, &[y, 0, 1]);
        let last_year = draft.shape.years - 1;
        let total = draft.entry(Column::Total, &[last_year, 0, 1]);
        built += u64::from(total > 0);
        not_built += u64::from(total == 0);
        later += u64::from(last_year > 0 && lines(last_year) > 0);
        fractions += u64::from(total % draft.scale() != 0);
        for family in &FAMILIES {
            let mut rows = draft.rows.of_family(family.number);
            let used = rows.any(|row| case.multipliers[row] != 0);
            worth[family.number - 1] += u64::from(used);
        }
    }
    println!("built {built}, not built {not_built}, in the second year {later}");
    println!("fractions {fractions}, families with multipliers {worth:?}");
    assert!(built > 0 && not_built > 0 && later > 0 && fractions > 0);
    for family in [1, 2, 3, 5, 12, 26, 27, 28] {
        assert!(worth[family - 1] > 0, "family {family}");
    }
}

/// A later shape of full size is made by the same functions.
#[test]
fn generator_is_a_function_of_its_seed() {
    for seed in 0..20 {
        let shape = Shape::new([2, 3, 2, 2, 1, 3, 2]);
        assert_eq!(sound_case(shape, seed), sound_case(shape, seed));
        assert_ne!(sound_case(shape, seed), sound_case(shape, seed + 1));
    }
}

/// Every limit that the plan reaches: at the value it meets check accepts, one
/// step further the family is broken first.
#[test]
fn limits_hold_at_their_value_and_break_one_past_it() {
    let mut tried = [0_u64; FAMILY_COUNT];
    for seed in 0..SEEDS {
        let case = sound(seed);
        let draft = Draft::of(case.clone());
        let cost = check_case(&case).expect("a sound plan");
        let rows = RowLayout::new(draft.shape);
        for family in FAMILIES_WITH_LIMIT {
            let mut found = limits(&draft, family);
            found.truncate(4);
            for limit in found {
                let mut at = draft.clone();
                at.set_data(limit.table, &limit.indices, limit.met);
                assert_eq!(check_case(&at.case), Ok(cost), "seed {seed} {limit:?}");
                at.set_data(limit.table, &limit.indices, limit.broken);
                let refusal = check_case(&at.case).expect_err("a limit passed");
                assert_eq!(refusal.number, 7, "seed {seed} {limit:?}");
                let broken = rows.family(refusal.place as usize);
                assert_eq!(broken, Some(family), "seed {seed} {limit:?}");
                tried[family - 1] += 1;
            }
        }
    }
    println!("limits tried {tried:?}");
    for family in FAMILIES_WITH_LIMIT {
        assert!(tried[family - 1] > 0, "family {family}");
    }
}

fn meets(case: &Case, refusal: Refusal, expected: &Expected) -> bool {
    let place = refusal.place as usize;
    let shape = || read_shape(&case.data).expect("places are found after the counts");
    refusal.number == expected.number
        && expected.place.is_none_or(|place| place == refusal.place)
        && expected
            .family
            .is_none_or(|family| RowLayout::new(shape()).family(place) == Some(family))
        && expected.column.is_none_or(|column| {
            ColumnLayout::new(shape())
                .locate(place)
                .map(|found| found.0)
                == Some(column)
        })
}

/// Each damage gives the refusal it was made for, in the calls that test it, and
/// post leaves the board as it was.
#[test]
fn damages_give_the_refusal_they_were_made_for() {
    for damage in Damage::all() {
        for seed in 0..12 {
            let mut random = Random::new(seed);
            let generated = damaged_case(&mut random, damage);
            let case = &generated.case;
            let Some(expected) = generated.expected else {
                continue;
            };
            let told = |refusal: Refusal| {
                assert!(
                    meets(case, refusal, &expected),
                    "seed {seed}, {damage:?}: {refusal}, expected {expected:?}"
                );
            };
            match expected.number {
                number if OF_ALL_CALLS.contains(&number) => {
                    told(check_case(case).expect_err("check"));
                    told(certify_case(case).expect_err("certify"));
                    let (answer, board) = post_case(case);
                    told(answer.expect_err("post"));
                    assert_eq!(board, case.board);
                }
                number if OF_CERTIFY.contains(&number) => {
                    told(certify_case(case).expect_err("certify"));
                    let cost = check_case(case).expect("a sound plan");
                    assert_eq!(post_case(case).0, Ok(cost));
                }
                _ => {
                    let (answer, board) = post_case(case);
                    told(answer.expect_err("post"));
                    assert_eq!(board, case.board);
                    certify_case(case).expect("a sound case");
                }
            }
        }
    }
}

#[test]
fn extremes_answer_as_worked_out_by_hand() {
    for extreme in extremes::all() {
        assert_eq!(
            certify_case(&extreme.case),
            extreme.answer,
            "{}",
            extreme.name
        );
    }
}

/// Entry ranges: the last value inside is never refused as an entry, the first
/// outside always is, at its place.
#[test]
fn entry_ranges_end_where_the_page_says() {
    let mut random = Random::new(3);
    let mut tried = vec![0; TABLES.len()];
    for seed in 0..60 {
        let case = sound(seed);
        let draft = Draft::of(case.clone());
        for (number, entry) in TABLES.iter().enumerate() {
            let size = draft.shape.size(entry.axes);
            let place = random.below(size as u64) as usize;
            let indices = draft.shape.indices(entry.axes, place);
            for (inside, outside) in entry_edges(&draft, entry, &indices) {
                let index = draft.layout.index(entry.table, &indices);
                let mut at = draft.clone();
                at.set_data(entry.table, &indices, i128::from(outside));
                let refusal = Refusal::at(ENTRY, index);
                assert_eq!(check_case(&at.case), Err(refusal), "{}", entry.name);
                at.set_data(entry.table, &indices, i128::from(inside));
                let answer = check_case(&at.case);
                // Another kind asks for other entries further on, which is no
                // matter of the kind's own range.
                if entry.name != "kind" {
                    let number = answer.err().map(|refusal| refusal.number);
                    assert_ne!(number, Some(ENTRY), "{}", entry.name);
                }
                tried[number] += 1;
            }
        }
    }
    let ranged = tried.iter().filter(|&&count| count > 0).count();
    println!("tables with a range tried {ranged}");
    // All tables but ResCost, Annuity, FixedOM, GenCost, Demand, SRes, the two
    // caps, MaxFuel, BuildLimit, VOLL, SurplusPenalty, RESVoLL, SRESVoLL,
    // MaxCapital and energy capacity.
    assert_eq!(ranged, TABLE_COUNT - 16);
}

/// Multipliers at ±2^40 are in range, one past is not.
#[test]
fn multipliers_end_at_two_to_the_forty() {
    let largest = 1_i64 << 40;
    for seed in 0..30 {
        let case = sound(seed);
        let rows = RowLayout::new(read_shape(&case.data).expect("sound data"));
        for family in &FAMILIES {
            let first = rows.index(family.number, &vec![0; family.axes.len()]);
            let least = if family.equality { -largest } else { 0 };
            for (multiplier, inside) in [
                (largest, true),
                (largest + 1, false),
                (least, true),
                (least - 1, false),
                (i64::MIN, false),
                (i64::MAX, false),
            ] {
                let mut changed = case.clone();
                changed.multipliers[first] = multiplier;
                let answer = certify_case(&changed);
                let refused = Err(Refusal::at(MULTIPLIER, first));
                assert_eq!(answer == refused, !inside, "{} {multiplier}", family.name);
            }
        }
    }
}

/// Post writes the year's gen table and nothing else.
#[test]
fn post_writes_the_years_output_and_nothing_else() {
    for seed in 0..SEEDS {
        let case = sound(seed);
        let shape = read_shape(&case.data).expect("sound data");
        let part = shape.plants * shape.slices();
        let (_, board) = post_case(&case);
        // gen follows cap, build and retire, each [y,g].
        let gen = 3 * shape.years * shape.plants + case.year * part;
        for (place, &number) in board.iter().enumerate() {
            let written = (case.start..case.start + part).contains(&place);
            let expected = match written {
                true => case.plan[gen + place - case.start],
                false => case.board[place],
            };
            assert_eq!(number, expected, "seed {seed} place {place}");
        }
    }
}

#[test]
fn post_tests_year_and_start_last() {
    for seed in 0..60 {
        let mut case = sound(seed);
        let shape = read_shape(&case.data).expect("sound data");
        let part = shape.plants * shape.slices();
        let cost = check_case(&case).expect("a sound plan");
        let refused = Err(Refusal {
            number: 14,
            place: 0,
        });
        let length = case.board.len();
        for (year, start, accepted) in [
            (shape.years - 1, length - part, true),
            (shape.years, length - part, false),
            (usize::MAX, length - part, false),
            (0, length - part + 1, false),
            (0, length, false),
            (0, length + 1, false),
            (0, usize::MAX, false),
            (0, usize::MAX - part + 1, false),
        ] {
            case.year = year;
            case.start = start;
            let expected = if accepted { Ok(cost) } else { refused };
            assert_eq!(post_case(&case).0, expected, "{year} {start}");
        }
        // A broken plan answers its own refusal, whatever the year.
        case.year = usize::MAX;
        let unmet = ColumnLayout::new(shape).index(Column::Unmet, &[0, 0, 0]);
        case.plan[unmet] += 1;
        assert_eq!(
            post_case(&case).0,
            Err(Refusal {
                number: 7,
                place: 0
            })
        );
    }
}
