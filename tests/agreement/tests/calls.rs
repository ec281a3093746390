//! The exported calls at the edges of what a caller can hand over.

use epm::raw::{self, epm_certify, epm_check, epm_post, OUT_TOO_SHORT};
use epm_agreement::{certify, check, measure, measure_rivals, post, Agreement};
use epm_reference::calls::LARGEST_MULTIPLIER;
use epm_reference::columns::ColumnLayout;
use epm_reference::data::DataLayout;
use epm_reference::generator::draft::Case;
use epm_reference::generator::random::Random;
use epm_reference::generator::stations::stations;
use epm_reference::generator::{full_size_case, shape, sound_case, LARGEST_COUNTS};
use epm_reference::rows::RowLayout;
use epm_reference::shape::Shape;
use epm_reference::Refusal;
use std::ptr::{null, null_mut};

const UNTOUCHED: u64 = 0x5555_5555_5555_5555;

/// Where there are differences, the first few of them are enough to look into.
fn none_differ(agreement: &Agreement) {
    let first: Vec<_> = agreement.differences.iter().take(3).collect();
    assert!(first.is_empty(), "{first:#?}");
}

/// No difference, and nothing that was not met; 500 seeds would do for the second.
#[test]
fn the_calls_agree_on_seeded_inputs() {
    let failures = measure(1000).failures();
    assert!(failures.is_empty(), "{failures:#?}");
}

#[test]
fn a_short_out_is_refused_and_nothing_is_written() {
    let case = sound_case(Shape::new([1; 7]), 1);
    for length in 0..2 {
        let mut out = vec![UNTOUCHED; length];
        assert_eq!(
            raw::check(&case.data, case.scale, &case.plan, &mut out),
            OUT_TOO_SHORT
        );
        let status = raw::certify(
            &case.data,
            case.scale,
            &case.plan,
            &case.multipliers,
            &mut out,
        );
        assert_eq!(status, OUT_TOO_SHORT);
        let mut board = vec![7; case.board.len()];
        let status = raw::post(
            &case.data, case.scale, &case.plan, 0, &mut board, 0, &mut out,
        );
        assert_eq!(status, OUT_TOO_SHORT);
        assert!(out.iter().all(|word| *word == UNTOUCHED));
        assert!(board.iter().all(|place| *place == 7));
    }
}

#[test]
fn only_the_first_two_words_of_out_are_written() {
    let case = sound_case(Shape::new([1; 7]), 2);
    let mut out = [UNTOUCHED; 5];
    assert_eq!(raw::check(&case.data, case.scale, &case.plan, &mut out), 0);
    assert_ne!(out[0], UNTOUCHED);
    assert_eq!(out[1], 0);
    assert!(out[2..].iter().all(|word| *word == UNTOUCHED));

    let (cost, gap) =
        certify(&case.data, case.scale, &case.plan, &case.multipliers).expect("a sound case");
    let mut out = [UNTOUCHED; 5];
    let mut multipliers = case.multipliers.clone();
    let status = raw::certify(&case.data, case.scale, &case.plan, &multipliers, &mut out);
    assert_eq!(status, 0);
    assert_eq!(out, [cost, gap, UNTOUCHED, UNTOUCHED, UNTOUCHED]);
    let last = multipliers.len() - 1;
    multipliers[last] = i64::MIN;
    let status = raw::certify(&case.data, case.scale, &case.plan, &multipliers, &mut out);
    assert_eq!(status, 10);
    assert_eq!(out, [last as u64, 0, UNTOUCHED, UNTOUCHED, UNTOUCHED]);
}

/// Twice as many numbers as the longest list that passes, the multipliers of the
/// largest shape.
fn very_long() -> usize {
    2 * RowLayout::new(Shape::new(LARGEST_COUNTS)).count()
}

/// A case with one list of another length, and what certify has to answer. The
/// numbers that the list had stay, so that a call which reads no further accepts.
fn one_list_resized(case: &Case, length: usize) -> [(&'static str, Case, u32, usize); 3] {
    let (mut data, mut plan, mut multipliers) = (case.clone(), case.clone(), case.clone());
    data.data.resize(length, 0);
    plan.plan.resize(length, 0);
    multipliers.multipliers.resize(length, 0);
    let wanted = if length < 7 { 7 } else { case.data.len() };
    [
        ("data", data, 2, wanted),
        ("plan", plan, 5, case.plan.len()),
        ("multipliers", multipliers, 9, case.multipliers.len()),
    ]
}

#[test]
fn empty_and_very_long_lists_are_answered() {
    let sound = sound_case(Shape::new([1; 7]), 3);
    let mut agreement = Agreement::default();
    for length in [0, very_long()] {
        for (list, case, number, place) in one_list_resized(&sound, length) {
            let label = format!("{list} of {length} numbers");
            agreement.compare(&label, &case);
            let answer = certify(&case.data, case.scale, &case.plan, &case.multipliers);
            assert_eq!(answer, Err(Refusal::at(number, place)), "{label}");
        }
        let case = Case {
            data: vec![1; length],
            plan: vec![1; length],
            multipliers: vec![1; length],
            board: vec![1; length],
            ..sound.clone()
        };
        agreement.compare(&format!("all lists of {length} numbers"), &case);
    }
    none_differ(&agreement);
}

/// The output is written at the very end of the board, every other place is kept.
#[test]
fn a_very_long_board_is_written_at_its_end() {
    let mut case = sound_case(Shape::new([1; 7]), 3);
    case.start = very_long() - case.board.len();
    case.board = vec![9; very_long()];
    let mut agreement = Agreement::default();
    agreement.compare("a very long board", &case);
    none_differ(&agreement);
    assert_eq!((agreement.posted, agreement.written), (1, 1));
}

/// The length that the largest counts give is wanted of data that have nothing else,
/// and of data that go on for twice as long as any list that passes.
#[test]
fn the_largest_counts_want_their_length() {
    let counts = LARGEST_COUNTS.map(|count| count as u32);
    let wanted = DataLayout::new(Shape::new(LARGEST_COUNTS)).length();
    let mut agreement = Agreement::default();
    for length in [counts.len(), very_long()] {
        let mut case = sound_case(Shape::new([1; 7]), 3);
        case.data = counts.to_vec();
        case.data.resize(length, 0);
        agreement.compare(&format!("data of {length} numbers"), &case);
        let answer = check(&case.data, case.scale, &case.plan);
        assert_eq!(answer, Err(Refusal::at(2, wanted)));
    }
    none_differ(&agreement);
}

/// As `include/epm.h` says.
#[test]
fn an_empty_list_may_have_a_null_pointer() {
    let case = sound_case(Shape::new([1; 7]), 4);
    let (data, entries) = (case.data.as_ptr(), case.data.len());
    let (plan, columns) = (case.plan.as_ptr(), case.plan.len());
    let rows = case.multipliers.len() as u64;
    let (scale, mut out) = (case.scale, [UNTOUCHED; 2]);
    // SAFETY: each pointer and length is that of one list, or null and 0.
    unsafe {
        let answer = epm_check(null(), 0, scale, null(), 0, out.as_mut_ptr(), 2);
        assert_eq!((answer, out), (2, [7, 0]));
        let answer = epm_check(data, entries, scale, null(), 0, out.as_mut_ptr(), 2);
        assert_eq!((answer, out), (5, [columns as u64, 0]));
        let (none, written) = (null(), out.as_mut_ptr());
        let answer = epm_certify(data, entries, scale, plan, columns, none, 0, written, 2);
        assert_eq!((answer, out), (9, [rows, 0]));
        let (none, written) = (null_mut(), out.as_mut_ptr());
        let answer = epm_post(
            data, entries, scale, plan, columns, 0, none, 0, 0, written, 2,
        );
        assert_eq!((answer, out), (14, [0, 0]));
        let answer = epm_check(data, entries, scale, plan, columns, null_mut(), 0);
        assert_eq!(answer, OUT_TOO_SHORT);
    }
}

#[test]
fn no_rival_is_below_a_certificate() {
    let rivals = measure_rivals(100);
    assert!(rivals.failures().is_empty(), "{:?}", rivals.failures());
}

/// The largest shape, more than a million rows: accepted, and with a fault in the
/// last column and in the last row.
#[test]
fn the_calls_agree_at_full_size() {
    let mut case = full_size_case();
    let used = case.multipliers.iter().filter(|m| **m != 0).count();
    assert!(
        2 * used > case.multipliers.len(),
        "{used} multipliers are not 0"
    );
    let mut agreement = Agreement::default();
    agreement.compare("full size", &case);
    none_differ(&agreement);
    assert_eq!((agreement.certified, agreement.posted), (1, 1));

    // The last column is the total within the last zone, in the last year: its price is 0,
    // and its row of family 26 asks 1 of it.
    let shape = Shape::new(LARGEST_COUNTS);
    let (rows, columns) = (RowLayout::new(shape), ColumnLayout::new(shape));
    let last = [shape.years - 1, shape.zones - 1, shape.zones - 1];
    case.multipliers.fill(0);
    case.multipliers[rows.index(26, &last)] = 1;
    let answer = certify(&case.data, case.scale, &case.plan, &case.multipliers);
    assert_eq!(answer, Err(Refusal::at(12, columns.count() - 1)));
    // The last row is of a family of equalities, which take multipliers below 0.
    *case.multipliers.last_mut().expect("a row") = -LARGEST_MULTIPLIER - 1;
    let answer = certify(&case.data, case.scale, &case.plan, &case.multipliers);
    assert_eq!(answer, Err(Refusal::at(10, rows.count() - 1)));
}

#[test]
fn the_board_at_its_ends() {
    let mut random = Random::new(11);
    for seed in 0..40 {
        let case = sound_case(shape(&mut random), seed);
        let places = case.data[1] as usize * (case.data[3] * case.data[4] * case.data[5]) as usize;
        let years = case.data[6] as usize;
        for length in [0, places - 1, places, places + 3] {
            for start in [
                0,
                1,
                3,
                4,
                places,
                length,
                length + 1,
                usize::MAX,
                usize::MAX - places,
            ] {
                for year in [0, years - 1, years, usize::MAX] {
                    let mut expected = vec![9; length];
                    let mut board = vec![9; length];
                    assert_eq!(
                        post(&case.data, case.scale, &case.plan, year, &mut board, start),
                        epm_reference::post(
                            &case.data,
                            case.scale,
                            &case.plan,
                            year,
                            &mut expected,
                            start
                        ),
                    );
                    assert_eq!(board, expected);
                }
            }
        }
    }
}

/// Request (v) gives the programs a default and not the calls: 0 is no scale that is left out,
/// and N is taken as it is handed over.
#[test]
fn the_calls_have_no_default_scale() {
    let refused = Refusal::at(4, 0);
    let mut random = Random::new(12);
    for seed in 0..20 {
        let case = sound_case(shape(&mut random), seed);
        let (data, plan) = (&case.data, &case.plan);
        assert_eq!(check(data, 0, plan), Err(refused), "seed {seed}");
        let certified = certify(data, 0, plan, &case.multipliers);
        assert_eq!(certified, Err(refused), "seed {seed}");
        let mut board = case.board.clone();
        let posted = post(data, 0, plan, case.year, &mut board, case.start);
        assert_eq!(posted, Err(refused), "seed {seed}");
        assert_eq!(board, case.board, "seed {seed}");
    }
    let [station, ..] = stations();
    let megawatts = station.case();
    let kilowatts: Vec<u32> = megawatts.plan.iter().map(|entry| 1000 * entry).collect();
    for (scale, plan, answer) in [
        (1, &megawatts.plan, Ok((40_000_000_000, 0))),
        (1000, &kilowatts, Ok((40_000_000_000_000, 0))),
        (0, &kilowatts, Err(refused)),
    ] {
        let certified = certify(&megawatts.data, scale, plan, &megawatts.multipliers);
        assert_eq!(certified, answer, "N {scale}");
    }
}

#[test]
fn both_sides_of_every_limit() {
    let mut agreement = Agreement::default();
    let mut random = Random::new(5);
    for seed in 0..25 {
        let case = sound_case(shape(&mut random), seed);
        for scale in [0, 1, 1000, 1001, u32::MAX] {
            let mut other = case.clone();
            other.scale = scale;
            agreement.compare("scale", &other);
        }
        for place in 0..7 {
            for count in [0, 1, 4, 5, 8, 9, 10, 11, 24, 25, 32, 33, u32::MAX] {
                let mut other = case.clone();
                other.data[place] = count;
                agreement.compare("count", &other);
            }
        }
        for place in 7..case.data.len() {
            for number in [
                0,
                1,
                2,
                20,
                21,
                1000,
                1001,
                5000,
                5001,
                8784,
                8785,
                10000,
                10001,
                100000,
                100001,
                u32::MAX,
            ] {
                if random.chance(1, 24) {
                    let mut other = case.clone();
                    other.data[place] = number;
                    agreement.compare("entry", &other);
                }
            }
        }
        for place in 0..case.plan.len() {
            if random.chance(1, 6) {
                let mut other = case.clone();
                other.plan[place] = random
                    .pick(&[0, 1, other.plan[place] / 2, u32::MAX])
                    .wrapping_add(random.below(2) as u32);
                agreement.compare("plan", &other);
            }
        }
    }
    none_differ(&agreement);
}
