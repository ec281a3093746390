//! Times check, certify and post of the static library beside the walk written by
//! hand and one pass over the same memory, at full size and at smaller shapes.
//! Every time is the best of many runs in this one process.

use epm_reference::columns::Column;
use epm_reference::generator::draft::{Case, Draft};
use epm_reference::generator::{sound_case, FULL_SIZE_SEED, LARGEST_COUNTS};
use epm_reference::shape::Shape;
use std::hint::black_box;
use std::time::{Duration, Instant};

/// Z, G, F, Q, D, T, Y from small to the largest.
const SHAPES: [[usize; 7]; 4] = [
    [2, 4, 2, 1, 2, 6, 2],
    [4, 8, 4, 2, 2, 12, 4],
    [6, 16, 8, 4, 2, 24, 6],
    LARGEST_COUNTS,
];

/// How long each call is repeated.
const PATIENCE: Duration = Duration::from_millis(1500);
const LEAST_RUNS: u32 = 5;

/// The best time of many runs, in nanoseconds.
fn best<T>(mut run: impl FnMut() -> T) -> f64 {
    let mut best = Duration::MAX;
    let mut runs = 0;
    let start = Instant::now();
    while runs < LEAST_RUNS || start.elapsed() < PATIENCE {
        let begin = Instant::now();
        black_box(run());
        best = best.min(begin.elapsed());
        runs += 1;
    }
    best.as_secs_f64() * 1e9
}

/// The times of one case, in nanoseconds.
struct Times {
    /// One pass over data and plan, and over the multipliers as well.
    plan_pass: f64,
    whole_pass: f64,
    walk_check: f64,
    walk_certify: f64,
    check: f64,
    certify: f64,
    post: f64,
}

fn sum(list: &[u32]) -> u64 {
    list.iter().map(|&number| u64::from(number)).sum()
}

fn sum_signed(list: &[i64]) -> i64 {
    list.iter().fold(0, |sum, &number| sum.wrapping_add(number))
}

/// Holds the answers of all to each other before anything is timed.
fn agree(case: &Case) {
    let (data, scale, plan) = (&case.data, case.scale, &case.plan);
    let certificate = epm::certify(data, scale, plan, &case.multipliers).expect("a sound case");
    let (cost, gap) = (certificate.cost, certificate.gap);
    let mut board = case.board.clone();
    let posted = epm::post(data, scale, plan, case.year, &mut board, case.start);
    assert_eq!(epm::check(data, scale, plan), Ok(cost));
    assert_eq!(posted, Ok(cost));
    assert_eq!(epm_bench::check(data, scale, plan), Ok(cost));
    let walked = epm_bench::certify(data, scale, plan, &case.multipliers);
    assert_eq!(walked, Ok((cost, gap)));
}

fn measure(case: &Case) -> Times {
    agree(case);
    let (data, scale, plan) = (black_box(&case.data), case.scale, black_box(&case.plan));
    let multipliers = black_box(&case.multipliers);
    let mut board = case.board.clone();
    Times {
        plan_pass: best(|| sum(data) + sum(plan)),
        whole_pass: best(|| (sum(data) + sum(plan), sum_signed(multipliers))),
        walk_check: best(|| epm_bench::check(data, scale, plan)),
        walk_certify: best(|| epm_bench::certify(data, scale, plan, multipliers)),
        check: best(|| epm::check(data, scale, plan)),
        certify: best(|| epm::certify(data, scale, plan, multipliers)),
        post: best(|| epm::post(data, scale, plan, case.year, &mut board, case.start)),
    }
}

/// The pairs of zones that have new lines in the last year, each pair once.
fn pairs_with_lines(draft: &Draft) -> usize {
    let (zones, last) = (draft.shape.zones, draft.shape.years - 1);
    let pairs = (0..zones).flat_map(|z| (z + 1..zones).map(move |z2| [last, z, z2]));
    pairs
        .filter(|pair| draft.entry(Column::Total, pair) > 0)
        .count()
}

fn print_full_size(case: &Case, times: &Times) {
    let (rows, columns) = (case.multipliers.len(), case.plan.len());
    let used = case.multipliers.iter().filter(|m| **m != 0).count();
    println!(
        "full size: {rows} rows, {columns} columns, {} data entries",
        case.data.len()
    );
    let draft = Draft::of(case.clone());
    let batteries = (0..draft.shape.plants).filter(|&g| draft.is_battery(g));
    println!("batteries: {}", batteries.count());
    println!("zone pairs with new lines: {}", pairs_with_lines(&draft));
    println!("multipliers that are not 0: {used}");
    println!();
    println!("| | ms | ns a row | times the walk | times the pass |");
    println!("|---|---|---|---|---|");
    for (name, time, walk, pass) in [
        (
            "one pass over data and plan",
            times.plan_pass,
            times.walk_check,
            times.plan_pass,
        ),
        (
            "check by hand",
            times.walk_check,
            times.walk_check,
            times.plan_pass,
        ),
        ("check", times.check, times.walk_check, times.plan_pass),
        ("post", times.post, times.walk_check, times.plan_pass),
        (
            "one pass, multipliers as well",
            times.whole_pass,
            times.walk_certify,
            times.whole_pass,
        ),
        (
            "certify by hand",
            times.walk_certify,
            times.walk_certify,
            times.whole_pass,
        ),
        (
            "certify",
            times.certify,
            times.walk_certify,
            times.whole_pass,
        ),
    ] {
        println!(
            "| {name} | {:.2} | {:.2} | {:.2} | {:.1} |",
            time / 1e6,
            time / rows as f64,
            time / walk,
            time / pass
        );
    }
    println!();
}

fn main() {
    let results: Vec<([usize; 7], Case, Times)> = SHAPES
        .into_iter()
        .map(|counts| {
            let case = sound_case(Shape::new(counts), FULL_SIZE_SEED);
            let times = measure(&case);
            (counts, case, times)
        })
        .collect();
    let (_, case, times) = results.last().expect("the largest shape");
    print_full_size(case, times);
    println!("| Z, G, F, Q, D, T, Y | rows | columns | check, ns a row | by hand | certify, ns a row and column | by hand |");
    println!("|---|---|---|---|---|---|---|");
    for (counts, case, times) in &results {
        let (rows, columns) = (case.multipliers.len(), case.plan.len());
        let (each_row, each) = (rows as f64, (rows + columns) as f64);
        println!(
            "| {counts:?} | {rows} | {columns} | {:.2} | {:.2} | {:.2} | {:.2} |",
            times.check / each_row,
            times.walk_check / each_row,
            times.certify / each,
            times.walk_certify / each
        );
    }
}
