//! Request (iv), the lowest season limit in (21): the cases of `generator::seasons`, worked
//! out by hand, each of which another reading would answer otherwise, and the certificates
//! of the earlier row. `agreement/tests/seasons.rs` puts both to the proved calls.

use epm_reference::certify;
use epm_reference::earlier::certificates;
use epm_reference::generator::draft::Case;
use epm_reference::generator::seasons::{self, Worked};
use epm_reference::refusal::BROKEN;
use epm_reference::Refusal;

fn answer(case: &Case) -> Result<(u64, u64), Refusal> {
    certify(&case.data, case.scale, &case.plan, &case.multipliers)
}

fn hold(cases: Vec<Worked>) {
    for worked in cases {
        assert_eq!(answer(&worked.case), worked.answer, "{}", worked.name);
    }
}

#[test]
fn a_link_counts_with_its_lowest_season_limit() {
    hold(seasons::lowest_in_any_season());
}

#[test]
fn the_lowest_limit_counts_n_times() {
    hold(seasons::lowest_at_a_scale());
}

#[test]
fn each_link_has_its_own_lowest_season() {
    hold(seasons::each_link_in_its_own_season());
}

#[test]
fn links_of_different_sizes_are_added_up() {
    hold(seasons::links_of_different_sizes());
}

#[test]
fn a_season_without_the_cable_leaves_nothing() {
    hold(seasons::a_season_without_the_cable());
}

#[test]
fn the_limits_into_the_zone_count() {
    hold(seasons::the_direction_into_the_zone());
}

#[test]
fn one_season_is_as_before() {
    hold(seasons::one_season());
}

#[test]
fn the_gap_has_the_constant_of_the_row() {
    hold(seasons::the_constant_of_the_gap());
}

// Certificates of the earlier row

/// Every one of them is answered as follows from its earlier answer: as before, with a
/// smaller gap, or refused at the first row of (21) that its links no longer meet. With the
/// plan mended by firmshort the gap is larger, or not.
#[test]
fn earlier_certificates_are_tried_anew() {
    let (mut same, mut smaller, mut refused, mut grown) = (0, 0, 0, 0);
    for earlier in certificates() {
        let (name, tried) = (&earlier.name, earlier.tried());
        assert_eq!(answer(&earlier.case), tried.answer, "{name}");
        match tried.answer {
            Ok(figures) if figures == (earlier.cost, earlier.gap) => same += 1,
            Ok((cost, gap)) => {
                assert!(cost == earlier.cost && gap < earlier.gap, "{name}");
                smaller += 1;
            }
            Err(_) => {
                let (mended, figures) = tried.mended.expect("something is missing");
                assert_eq!(answer(&mended), Ok(figures), "{name}, mended");
                refused += 1;
                grown += usize::from(figures.1 > earlier.gap);
            }
        }
    }
    assert_eq!((same, smaller, refused, grown), (9, 5, 10, 5));
}

/// One whose gap grew and one of one season that is unchanged, in figures.
#[test]
fn an_earlier_certificate_whose_gap_grew_and_one_that_is_unchanged() {
    let named = |name: &str| {
        let mut all = certificates().into_iter();
        all.find(|earlier| earlier.name == name).expect("its name")
    };
    let grown = named("sound_case [2, 2, 1, 2, 1, 1, 1] seed 3");
    assert_eq!(grown.gap, 735_189_996_183_772_878);
    assert_eq!(answer(&grown.case), Err(Refusal::at(BROKEN, 16)));
    let (mended, _) = grown.tried().mended.expect("something is missing");
    let figures = (726_110_656_771_190_625, 743_887_262_594_591_703);
    assert_eq!(answer(&mended), Ok(figures));

    let unchanged = named("sound_case [2, 2, 1, 1, 1, 2, 1] seed 3");
    let figures = (374_704_785_156_196_755, 371_776_224_830_076_273);
    assert_eq!((unchanged.cost, unchanged.gap), figures);
    assert_eq!(answer(&unchanged.case), Ok(figures));
}

/// To the digit.
#[test]
fn earlier_certificates_of_one_season_are_answered_as_before() {
    let all = certificates();
    let of_one_season: Vec<_> = all.iter().filter(|e| e.seasons() == 1).collect();
    assert_eq!(of_one_season.len(), 6);
    for earlier in of_one_season {
        let figures = (earlier.cost, earlier.gap);
        assert_eq!(answer(&earlier.case), Ok(figures), "{}", earlier.name);
    }
}
