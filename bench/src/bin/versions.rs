//! Times check and certify of several builds of the proved library beside one another,
//! in one process, on two full-sized cases. `bench/versions` makes the builds.
//!
//!     versions NAME=LIBRARY NAME=LIBRARY ...
//!
//! A library is a shared one, made of a build's `libepm_c.a`. The builds take turns: each
//! round calls every build once, and the next round begins with the next build, so that
//! a machine that is slower for a while is slower for all of them. The ratios are those
//! to the build that is named first.

use epm::raw::ACCEPTED;
use epm_bench::currency;
use epm_bench::library::{Answer, Library};
use epm_bench::products::{self, Class, Counts, CLASSES};
use epm_reference::generator::draft::Case;
use epm_reference::generator::full_size_case;
use std::hint::black_box;
use std::process::exit;
use std::time::{Duration, Instant};

const ROUNDS: usize = 60;

struct Version {
    name: String,
    library: Library,
}

/// The version of an argument NAME=LIBRARY.
fn version(argument: &str) -> Result<Version, String> {
    let Some((name, path)) = argument.split_once('=') else {
        return Err(format!("{argument} is not NAME=LIBRARY"));
    };
    // SAFETY: the user names libraries that are made of a `libepm_c.a`.
    let library = unsafe { Library::open(path)? };
    Ok(Version {
        name: name.to_string(),
        library,
    })
}

fn check(library: &Library, case: &Case) -> Answer {
    library.check(&case.data, case.scale, &case.plan)
}

fn certify(library: &Library, case: &Case) -> Answer {
    library.certify(&case.data, case.scale, &case.plan, &case.multipliers)
}

/// Holds the answers of all versions to the walk by hand, and so to each other, before
/// anything is timed; answers cost and gap.
fn agree(versions: &[Version], case: &Case) -> (u64, u64) {
    let walked = epm_bench::certify(&case.data, case.scale, &case.plan, &case.multipliers);
    let (cost, gap) = walked.expect("a sound case");
    let accepted = |out: [u64; 2]| Answer {
        returned: ACCEPTED,
        out,
    };
    for version in versions {
        let (name, library) = (&version.name, &version.library);
        assert_eq!(check(library, case), accepted([cost, 0]), "check of {name}");
        let answer = certify(library, case);
        assert_eq!(answer, accepted([cost, gap]), "certify of {name}");
    }
    (cost, gap)
}

/// The times of one call of one version, one a round.
#[derive(Default)]
struct Times(Vec<Duration>);

impl Times {
    fn take(&mut self, run: impl FnOnce() -> Answer) {
        let begin = Instant::now();
        black_box(run());
        self.0.push(begin.elapsed());
    }

    /// In milliseconds.
    fn best(&self) -> f64 {
        self.sorted()[0]
    }

    fn median(&self) -> f64 {
        self.sorted()[self.0.len() / 2]
    }

    fn sorted(&self) -> Vec<f64> {
        let mut times = self.0.clone();
        times.sort();
        times.iter().map(|time| time.as_secs_f64() * 1e3).collect()
    }
}

/// Check and certify of one version.
#[derive(Default)]
struct Measured {
    check: Times,
    certify: Times,
}

fn measure(versions: &[Version], case: &Case) -> Vec<Measured> {
    let case = black_box(case);
    let mut measured: Vec<Measured> = versions.iter().map(|_| Measured::default()).collect();
    for round in 0..ROUNDS {
        for turn in 0..versions.len() {
            let place = (round + turn) % versions.len();
            let (library, times) = (&versions[place].library, &mut measured[place]);
            times.check.take(|| check(library, case));
            times.certify.take(|| certify(library, case));
        }
    }
    measured
}

/// Best, median, ratio to the first version, ns a row.
fn cells(times: &Times, first: &Times, rows: usize) -> String {
    let (best, median) = (times.best(), times.median());
    let ratio = best / first.best();
    let each = best * 1e6 / rows as f64;
    format!("{best:.2} | {median:.2} | {ratio:.3} | {each:.2}")
}

fn print_times(versions: &[Version], measured: &[Measured], rows: usize) {
    let first = &versions[0].name;
    println!("| version | check, ms (best) | median | times {first} | ns a row | certify, ms (best) | median | times {first} | ns a row |");
    println!("|---|---|---|---|---|---|---|---|---|");
    for (version, times) in versions.iter().zip(measured) {
        println!(
            "| {} | {} | {} |",
            version.name,
            cells(&times.check, &measured[0].check, rows),
            cells(&times.certify, &measured[0].certify, rows)
        );
    }
    println!();
}

/// The number of a class and its share of all.
fn share(counts: &Counts, class: Class) -> String {
    let part = 100.0 * counts.of(class) as f64 / counts.all() as f64;
    format!("{} ({part:.2} %)", counts.of(class))
}

fn print_products(case: &Case) {
    let products = products::count(case);
    println!("Products of the second implementation's rows and columns, term by term; the calls group some factors otherwise:");
    println!();
    println!("| product | check | certify, after check |");
    println!("|---|---|---|");
    for class in CLASSES {
        println!(
            "| {} | {} | {} |",
            class.title(),
            share(&products.check, class),
            share(&products.multipliers, class)
        );
    }
    println!();
}

fn time_case(versions: &[Version], title: &str, case: &Case) {
    let (cost, gap) = agree(versions, case);
    let rows = case.multipliers.len();
    let used = case.multipliers.iter().filter(|m| **m != 0).count();
    println!(
        "{title}: {rows} rows, {} columns, N {}, {used} multipliers not 0, cost {cost}, gap {gap}",
        case.plan.len(),
        case.scale
    );
    println!();
    print_products(case);
    print_times(versions, &measure(versions, case), rows);
}

fn main() {
    let versions: Result<Vec<Version>, String> = std::env::args()
        .skip(1)
        .map(|word| version(&word))
        .collect();
    let versions = match versions {
        Ok(versions) if !versions.is_empty() => versions,
        Ok(_) => stop("usage: versions NAME=LIBRARY ..."),
        Err(message) => stop(&message),
    };
    println!("{ROUNDS} rounds; every version once in each.");
    println!();
    time_case(&versions, "The full-sized case", &full_size_case());
    let small = currency::full_size_case();
    time_case(&versions, "Full size in a small currency", &small);
}

fn stop(message: &str) -> ! {
    eprintln!("versions: {message}");
    exit(2)
}
