//! Document 01, "One-plant station": its data and the ten cases of its table.

use super::draft::Case;
use super::frames::{join, plain_lines};
use crate::data::{DataLayout, Table, TABLES};
use crate::refusal::Refusal;
use crate::shape::Shape;

pub const COLUMNS: usize = 14;
pub const ROWS: usize = 28;

const CAP: usize = 0;
const GEN: usize = 3;
const UNMET: usize = 6;
const SURPLUS: usize = 7;

/// All counts 1 and the nonzero data of the page.
pub fn station_data() -> Vec<u32> {
    let layout = DataLayout::new(Shape::new([1; 7]));
    let mut data = vec![0; layout.length()];
    data[..7].fill(1);
    let mut set = |table: Table, value: u32| {
        let axes = TABLES[table as usize].axes.len();
        data[layout.index(table, &vec![0; axes])] = value;
    };
    set(Table::ReturnRate, 1000);
    set(Table::Weight, 1);
    set(Table::Duration, 100);
    set(Table::GenCap, 10);
    set(Table::Year, 2);
    set(Table::RampDn, 1000);
    set(Table::RampUp, 1000);
    set(Table::CapCredit, 1000);
    set(Table::Availability, 1000);
    set(Table::Profile, 1000);
    set(Table::GenCost, 50_000);
    set(Table::Demand, 8);
    set(Table::Ee, 1000);
    set(Table::Prm, 100);
    set(Table::Voll, 1000);
    data
}

/// A case of the table: what it changes of the base plan, the multiplier of row
/// 0 and the outcome.
pub struct Station {
    scale: u32,
    plan: [u32; COLUMNS],
    multiplier: i64,
    pub certified: Result<(u64, u64), Refusal>,
}

/// The base plan with the given entries changed.
fn plan(changes: &[(usize, u32)]) -> [u32; COLUMNS] {
    let mut plan = [0; COLUMNS];
    plan[CAP] = 10;
    plan[GEN] = 8;
    for &(column, entry) in changes {
        plan[column] = entry;
    }
    plan
}

fn accepted(scale: u32, changes: &[(usize, u32)], multiplier: i64, cost: u64, gap: u64) -> Station {
    Station {
        scale,
        plan: plan(changes),
        multiplier,
        certified: Ok((cost, gap)),
    }
}

fn refused(changes: &[(usize, u32)], multiplier: i64, number: u32, place: u64) -> Station {
    Station {
        scale: 1,
        plan: plan(changes),
        multiplier,
        certified: Err(Refusal { number, place }),
    }
}

/// The ten rows of the page's table in order. Where the page names the gap
/// alone, the cost follows from the prices: gen 5·10^9 a MW, unmet 10^8 a kW.
pub fn stations() -> [Station; 10] {
    [
        accepted(1, &[], 5_000_000, 40_000_000_000, 0),
        accepted(1, &[], 0, 40_000_000_000, 40_000_000_000),
        accepted(1, &[], 4_000_000, 40_000_000_000, 8_000_000_000),
        refused(&[], 5_000_001, 12, 3),
        accepted(2, &[(CAP, 20), (GEN, 16)], 5_000_000, 80_000_000_000, 0),
        accepted(
            1,
            &[(GEN, 7), (UNMET, 1000)],
            5_000_000,
            135_000_000_000,
            95_000_000_000,
        ),
        refused(&[(GEN, 7), (UNMET, 999)], 0, 7, 0),
        accepted(
            1,
            &[(GEN, 9), (SURPLUS, 1000)],
            5_000_000,
            45_000_000_000,
            5_000_000_000,
        ),
        refused(&[(GEN, 11), (SURPLUS, 3000)], 0, 7, 4),
        refused(&[(CAP, 11)], 0, 7, 11),
    ]
}

impl Station {
    pub fn case(&self) -> Case {
        let mut multipliers = vec![0; ROWS];
        multipliers[0] = self.multiplier;
        Case {
            data: station_data(),
            scale: self.scale,
            plan: self.plan.to_vec(),
            multipliers,
            year: 0,
            board: vec![0],
            start: 0,
        }
    }

    /// One line for each word, as the page gives its first case, and with request (v) the
    /// SCAL line that the page leaves out.
    pub fn text(&self) -> Vec<u8> {
        join(&plain_lines(&self.case(), 64))
    }
}
