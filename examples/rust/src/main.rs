//! The one-plant station of docs/FORMAT.md through the three calls. It stops with an
//! error where an answer is not the expected one.

use epm::{Certificate, Reason, Refusal};

/// All counts are 1, so each table has one entry.
const DATA: [u32; 55] = [
    1, 1, 1, 1, 1, 1, 1, // zones, plants, fuels, seasons, days, hours, years
    1000, 1, 100, 0, // R, V, Dur, minimum-load day
    0, 0, 0, 0, 10, 2, 0, // zone, fuel, kind, VRE, GenCap, year, MaxNewCap
    0, 0, 1000, 1000, 0, 1000, // OverLoad, ResOffer, RampDn, RampUp, MinCapFac, CapCredit
    0, 0, 0, // HeatRate, E, ResCost
    1000, 1000, // Availability, Profile
    0, 0, 50_000, // Annuity, FixedOM, GenCost
    8, 1000, 0, 100, // Demand, EE, SRes, PRM
    0, 0, // TL, Loss
    0, 0, 0, 0, 0, // zone cap, system cap, Tax, MaxFuel, BuildLimit
    1000, 0, 0, 0, 0, 0, // VOLL, SurplusPenalty, RESVoLL, SRESVoLL, Err, MaxCapital
    0, 0, 0, // battery, efficiency, energy capacity
    0, 0, 0, // line limit, MW per line, line annuity
];

/// Columns: cap, build, retire, gen, reserve, trans, unmet, surplus, spinshort,
/// firmshort, charge, level, built, total.
const PLAN: [u32; 14] = [10, 0, 0, 8, 0, 0, 0, 0, 0, 0, 0, 0, 0, 0];
const OVERLOADED: [u32; 14] = [10, 0, 0, 11, 0, 0, 0, 3000, 0, 0, 0, 0, 0, 0];

const COST: u64 = 40_000_000_000;

fn main() -> Result<(), Refusal> {
    let cost = epm::check(&DATA, 1, &PLAN)?;
    println!("check: accepted, cost {cost}");
    assert_eq!(cost, COST);

    // Row 0 is the station's balance: 5 money units for a kW through the slice.
    let mut multipliers = [0; 28];
    multipliers[0] = 5_000_000;
    let certificate = epm::certify(&DATA, 1, &PLAN, &multipliers)?;
    let Certificate { cost, gap } = certificate;
    println!("certify: accepted, cost {cost}, gap {gap}");
    assert_eq!(certificate, Certificate { cost: COST, gap: 0 });

    let mut board = [1; 3];
    let cost = epm::post(&DATA, 1, &PLAN, 0, &mut board, 1)?;
    println!("post: accepted, cost {cost}, board {board:?}");
    assert_eq!((cost, board), (COST, [1, 8, 1]));

    // Row 4 is equation (22): 11 MW from a plant of 10 MW.
    let refusal = epm::check(&DATA, 1, &OVERLOADED).expect_err("row 4 does not hold");
    println!("check of 11 MW: {refusal}");
    assert_eq!((refusal.reason, refusal.place), (Reason::Broken, 4));
    Ok(())
}
