//! Document 01, "One-plant station": the ten cases of its table, through the
//! calls and through the program.

use epm_reference::generator::stations::{station_data, stations, COLUMNS, ROWS};
use epm_reference::program::answer_line;
use epm_reference::{certify, check, run, Refusal};

const DATA_LENGTH: usize = 55;

/// The station's data written out by hand, as a test of the table list.
const STATION_BY_HAND: [u32; DATA_LENGTH] = [
    1, 1, 1, 1, 1, 1, 1, // counts
    1000, 1, 100, 0, // R, V, Dur, minimum-load day
    0, 0, 0, 0, 10, 2, 0, // zone, fuel, kind, VRE, GenCap, year, MaxNewCap
    0, 0, 1000, 1000, 0, 1000, // OverLoad, ResOffer, RampDn, RampUp, MinCapFac, CapCredit
    0, 0, 0, // HeatRate, E, ResCost
    1000, 1000, // Availability, Profile
    0, 0, 50_000, // Annuity, FixedOM, GenCost
    8, 1000, 0, 100, // Demand, EE, SRes, PRM
    0, 0, // TL, Loss
    0, 0, 0, 0, 0, // zone cap, system cap, Tax, MaxFuel, BuildLimit
    1000, 0, 0, 0, 0, 0, // VOLL, SurplusPenalty, RESVoLL, SRESVoLL, Err, MaxCapital
    0, 0, 0, // battery, efficiency, energy capacity
    0, 0, 0, // line limit, MW per line, line annuity
];

#[test]
fn data_list_has_the_order_of_the_page() {
    assert_eq!(station_data(), STATION_BY_HAND);
}

#[test]
fn ten_cases_through_certify() {
    for (case, station) in stations().iter().enumerate() {
        let given = station.case();
        let answer = certify(&given.data, given.scale, &given.plan, &given.multipliers);
        assert_eq!(answer, station.certified, "case {case}");
    }
}

#[test]
fn ten_cases_through_check() {
    for (case, station) in stations().iter().enumerate() {
        let expected = match station.certified {
            // Check has no multipliers, so it accepts the underpriced case.
            Err(Refusal { number: 12, .. }) => Ok(40_000_000_000),
            other => other.map(|(cost, _)| cost),
        };
        let given = station.case();
        let answer = check(&given.data, given.scale, &given.plan);
        assert_eq!(answer, expected, "case {case}");
    }
}

#[test]
fn ten_cases_through_the_program() {
    for (case, station) in stations().iter().enumerate() {
        let expected = answer_line(station.certified);
        assert_eq!(run(&station.text()), expected, "case {case}");
    }
}

#[test]
fn first_case_as_four_lines_prints_its_line() {
    let text = String::from_utf8(stations()[0].text()).expect("letters and digits");
    let lines: Vec<&str> = text.lines().collect();
    assert_eq!(lines.len(), 4);
    assert_eq!(lines[0].split(' ').count(), 1 + DATA_LENGTH);
    assert_eq!(lines[1].split(' ').count(), 1 + COLUMNS);
    assert_eq!(lines[2], "SCAL 00000001");
    assert_eq!(lines[3].split(' ').count(), 1 + ROWS);
    assert_eq!(run(text.as_bytes()), "A 40000000000 0\n");
}
