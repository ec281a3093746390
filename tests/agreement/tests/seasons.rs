//! Request (iv), the lowest season limit in (21): the proved calls on the cases that are
//! worked out by hand and on the certificates of the earlier row.

use epm_agreement::{certify, Agreement};
use epm_reference::earlier::certificates;
use epm_reference::generator::draft::Case;
use epm_reference::generator::seasons;
use epm_reference::Refusal;

fn answer(case: &Case) -> Result<(u64, u64), Refusal> {
    certify(&case.data, case.scale, &case.plan, &case.multipliers)
}

/// Check and post answer as the second implementation does.
fn compared(cases: Vec<(String, Case)>) {
    let mut agreement = Agreement::default();
    for (name, case) in cases {
        agreement.compare(&name, &case);
    }
    assert_eq!(agreement.differences, Vec::<String>::new());
}

#[test]
fn the_lowest_season_limit_counts() {
    for worked in seasons::all() {
        assert_eq!(answer(&worked.case), worked.answer, "{}", worked.name);
    }
    let cases = seasons::all().into_iter();
    compared(cases.map(|worked| (worked.name, worked.case)).collect());
}

/// As before, with a smaller gap, or refused; those that are refused mended by firmshort, with
/// the earlier multipliers.
#[test]
fn earlier_certificates_are_tried_anew() {
    let mut cases = vec![];
    for earlier in certificates() {
        let (name, tried) = (earlier.name.clone(), earlier.tried());
        assert_eq!(answer(&earlier.case), tried.answer, "{name}");
        cases.push((name.clone(), earlier.case));
        if let Some((mended, figures)) = tried.mended {
            assert_eq!(answer(&mended), Ok(figures), "{name}, mended");
            cases.push((format!("{name}, mended"), mended));
        }
    }
    compared(cases);
}
