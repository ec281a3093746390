//! What the program `versions` stands on: products by class, the case in a small
//! currency, and the calls out of a shared library.

use epm::raw::ACCEPTED;
use epm_bench::currency::{dearer_energy, for_zones_and_slices, small_plants, weighted_hours};
use epm_bench::library::{Answer, Library};
use epm_bench::products::{count, Class, Products, CLASSES};
use epm_reference::columns::Column;
use epm_reference::data::Table;
use epm_reference::generator::case;
use epm_reference::generator::draft::{Case, Draft};
use epm_reference::shape::Shape;
use std::process::Command;

/// A number of so many bits: the least and the largest.
fn of_length(bits: u32) -> [u128; 2] {
    [1 << (bits - 1), (1 << bits) - 1]
}

#[test]
fn a_class_begins_and_ends_where_it_says() {
    let small = (1 << 31) - 1;
    assert_eq!(Class::of(small, small), Class::Small);
    assert_eq!(Class::of(0, small), Class::Small);
    for (a, b) in [(small + 1, 0), (small + 1, 1), (small + 1, small)] {
        let expected = if b == small {
            Class::Close
        } else {
            Class::Fits
        };
        assert_eq!(Class::of(a, b), expected);
        assert_eq!(Class::of(b, a), expected);
    }
    for long in 32..=60 {
        for (sum, class) in [(62, Class::Fits), (63, Class::Close), (64, Class::Large)] {
            for (a, b) in [(0, 0), (0, 1), (1, 0), (1, 1)] {
                let factors = (of_length(long)[a], of_length(sum - long)[b]);
                assert_eq!(Class::of(factors.0, factors.1), class, "{factors:?}");
                assert_eq!(Class::of(factors.1, factors.0), class, "{factors:?}");
            }
        }
    }
}

/// The length of 0 is 0, whatever the other factor is.
#[test]
fn a_factor_of_0_adds_no_length() {
    for (bits, class) in [(62, Class::Fits), (63, Class::Close), (64, Class::Large)] {
        for number in of_length(bits) {
            assert_eq!(Class::of(0, number), class);
            assert_eq!(Class::of(number, 0), class);
        }
    }
}

/// The classes' counts are as they were, but for `moved` products that left the small ones.
fn moved(before: Products, after: Products, class: Class, moved: u64) {
    for other in CLASSES {
        let more = u64::from(other == class) * moved;
        let less = u64::from(other == Class::Small) * moved;
        let (was, is) = (before.multipliers.of(other), after.multipliers.of(other));
        assert_eq!(was + more, is + less, "{other:?}");
    }
    assert_eq!(before.check, after.check);
}

/// One existing plant in one slice, in service, and nothing else.
fn single_plant() -> Draft {
    let mut draft = Draft::empty(Shape::new([1; 7]), 1);
    draft.set_data(Table::Year, &[0], 2);
    draft.set_data(Table::Weight, &[0], 1);
    draft
}

/// The row of family 1 of a single plant: gen, charge, unmet and surplus, and a demand.
#[test]
fn the_products_of_a_row_are_counted_by_its_multiplier() {
    let mut draft = single_plant();
    draft.set_data(Table::Demand, &[0, 0, 0], 1 << 20);
    draft.set_data(Table::Ee, &[0, 0], 1);
    let before = count(&draft.case);
    let counts = [before.check, before.multipliers];
    assert_eq!(
        counts.map(|of| of.of(Class::Small)),
        counts.map(|of| of.all())
    );
    let mut with = |m: i128| {
        draft.set_multiplier(1, &[0, 0, 0], m);
        count(&draft.case)
    };
    moved(before, with((1 << 31) - 1), Class::Fits, 0);
    // Two coefficients of 1000, two of 1 and the constant of 21 bits.
    moved(before, with(1 << 31), Class::Fits, 5);
    moved(before, with(-(1 << 31)), Class::Fits, 5);
    moved(before, with((1 << 40) - 1), Class::Fits, 5);
}

/// The constant of family 1 has 45 bits here and is large beside every multiplier. So is
/// that of family 4, by its peak, whose multiplier is 0.
#[test]
fn the_product_with_a_large_constant_is_counted_by_both_lengths() {
    let mut draft = single_plant();
    draft.set_data(Table::Demand, &[0, 0, 0], (1 << 32) - 1);
    draft.set_data(Table::Ee, &[0, 0], 4097);
    let mut large = |m: i128| {
        draft.set_multiplier(1, &[0, 0, 0], m);
        let counts = count(&draft.case).multipliers;
        CLASSES.map(|class| counts.of(class) * u64::from(class != Class::Small))
    };
    assert_eq!(large(0), [0, 2, 0, 0]);
    assert_eq!(large((1 << 17) - 1), [0, 2, 0, 0]);
    assert_eq!(large(1 << 17), [0, 1, 1, 0]);
    assert_eq!(large((1 << 18) - 1), [0, 1, 1, 0]);
    assert_eq!(large(1 << 18), [0, 1, 0, 1]);
}

/// The output of a single plant in a slice of no hours stands in families 1 and 5, and has
/// a price.
#[test]
fn the_products_of_an_entry_are_counted_by_the_entry() {
    let mut draft = single_plant();
    let mut with = |entry: i128| {
        draft.set_entry(Column::Gen, &[0, 0, 0], entry);
        count(&draft.case)
    };
    let (before, at_most, above) = (with(0), with((1 << 31) - 1), with(1 << 31));
    assert_eq!(before, at_most);
    assert_eq!(
        above.check.of(Class::Fits),
        before.check.of(Class::Fits) + 3
    );
    assert_eq!(
        above.check.of(Class::Small),
        before.check.of(Class::Small) - 3
    );
    assert_eq!(above.multipliers, before.multipliers);
}

fn certified(case: &Case) -> (i128, i128) {
    let (data, scale, plan) = (&case.data, case.scale, &case.plan);
    let answer = epm_reference::certify(data, scale, plan, &case.multipliers);
    let walked = epm_bench::certify(data, scale, plan, &case.multipliers);
    assert_eq!(walked, answer);
    let (cost, gap) = answer.expect("an accepted case");
    (i128::from(cost), i128::from(gap))
}

/// What dearer energy adds to the cost, by kWh made or unmet, and to the bound, cost less
/// gap, by kWh asked for: each W·Dur·mills.
fn added(case: &Case, mills: i128) -> (i128, i128) {
    let draft = Draft::of(case.clone());
    let (mut cost, mut bound) = (0, 0);
    for_zones_and_slices(draft.shape, |[y, z, s]| {
        let made: i128 = draft
            .plants_in(z)
            .iter()
            .map(|&g| 1000 * draft.gen(y, g, s))
            .sum();
        let unmet = draft.entry(Column::Unmet, &[y, z, s]);
        let asked = draft.data(Table::Demand, &[y, z, s]) * draft.data(Table::Ee, &[y, z]);
        let price = weighted_hours(&draft, y, s) * mills;
        cost += price * (made + unmet);
        bound += price * draft.scale() * asked;
    });
    (cost, bound)
}

#[test]
fn dearer_energy_adds_to_cost_and_bound_what_it_says() {
    let mut large = 0;
    for seed in 0..40 {
        let case = small_plants(Shape::new([3, 6, 2, 2, 2, 6, 3]), 13, seed);
        let (cost, gap) = certified(&case);
        let mills = 50_000;
        let dearer = dearer_energy(case.clone(), mills);
        assert_eq!(dearer.plan, case.plan);
        let (more_cost, more_bound) = added(&case, mills);
        assert!(more_cost > 0);
        let expected = (cost + more_cost, gap + more_cost - more_bound);
        assert_eq!(certified(&dearer), expected, "seed {seed}");
        large +=
            count(&dearer).multipliers.of(Class::Fits) - count(&case).multipliers.of(Class::Fits);
    }
    assert!(large > 10_000, "{large}");
}

/// A shared library made of the static one that this tree has.
fn shared_library(name: &str) -> String {
    let archive = concat!(
        env!("CARGO_MANIFEST_DIR"),
        "/../target/staticlib/libepm_c.a"
    );
    let path = format!("{}/{name}.so", env!("CARGO_TARGET_TMPDIR"));
    let status = Command::new("cc")
        .args(["-shared", "-o", &path, "-Wl,--whole-archive", archive])
        .args(["-Wl,--no-whole-archive", "-Wl,-Bsymbolic"])
        .status();
    assert!(status.expect("cc").success());
    path
}

/// Two libraries in one process answer as the linked one does, accepting and refusing.
#[test]
fn a_shared_library_answers_as_the_linked_one() {
    let open = |name: &str| unsafe { Library::open(&shared_library(name)) }.expect("a library");
    let libraries = [open("one"), open("other")];
    let (mut accepted, mut refused) = (0, 0);
    for seed in 0..200 {
        let case = case(seed).case;
        let (data, scale, plan) = (&case.data, case.scale, &case.plan);
        let mut out = [0; 2];
        let returned = epm::raw::check(data, scale, plan, &mut out);
        let check = Answer { returned, out };
        let returned = epm::raw::certify(data, scale, plan, &case.multipliers, &mut out);
        let certify = Answer { returned, out };
        for library in &libraries {
            assert_eq!(library.check(data, scale, plan), check);
            let answer = library.certify(data, scale, plan, &case.multipliers);
            assert_eq!(answer, certify);
        }
        match certify.returned {
            ACCEPTED => accepted += 1,
            _ => refused += 1,
        }
    }
    assert!(accepted > 20 && refused > 20);
}

#[test]
fn a_library_that_is_not_there_is_named() {
    let missing = unsafe { Library::open("/nowhere/libepm_c.so") };
    let message = missing.err().expect("no library");
    assert!(message.contains("/nowhere/libepm_c.so"), "{message}");
}
