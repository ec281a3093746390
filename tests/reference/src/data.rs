//! Document 01, "The data": the tables in order, their index sets and ranges,
//! and the tests of refusals 1, 2, 3 and 16.

use crate::refusal::{Refusal, DATA_LENGTH, ENTRY, SHAPE, STORAGE};
use crate::shape::{is_within_zone, Axis, Shape, COUNTS};

/// The tables in the order of the data list. Requests append at the end.
#[derive(Clone, Copy, Debug, PartialEq, Eq)]
pub enum Table {
    ReturnRate,
    Weight,
    Duration,
    MinimumLoadDay,
    Zone,
    Fuel,
    Kind,
    Vre,
    GenCap,
    Year,
    MaxNewCap,
    OverLoad,
    ResOffer,
    RampDn,
    RampUp,
    MinCapFac,
    CapCredit,
    HeatRate,
    Emission,
    ResCost,
    Availability,
    Profile,
    Annuity,
    FixedOm,
    GenCost,
    Demand,
    Ee,
    SRes,
    Prm,
    Tl,
    Loss,
    ZoneCap,
    SystemCap,
    Tax,
    MaxFuel,
    BuildLimit,
    Voll,
    SurplusPenalty,
    ResVoll,
    SresVoll,
    Err,
    MaxCapital,
    // Request (i).
    Battery,
    Efficiency,
    EnergyCapacity,
    // Request (ii).
    LineLimit,
    LineMw,
    LineAnnuity,
}

/// The range of a table's entries. The last four depend on the plant's kind or
/// on the entry's own indices; an entry outside one of them is refused as any
/// other (docs/DECISIONS.md, "Data": "0 for a candidate").
#[derive(Clone, Copy, Debug, PartialEq, Eq)]
pub enum Range {
    /// No range named: all 32 bits.
    Any,
    Within(u32, u32),
    BelowZones,
    BelowFuels,
    /// GenCap: 0 for a candidate.
    ZeroForCandidate,
    /// MaxNewCap: 0 for an existing plant.
    ZeroForExisting,
    /// Existing: retirement 2..Y+1; candidate: commission 1..Y.
    YearByKind,
    /// TL and the tables of lines: 0 where z = z2.
    ZeroWithinZone,
}

pub struct TableEntry {
    pub table: Table,
    pub name: &'static str,
    pub axes: &'static [Axis],
    pub range: Range,
}

const Y: &[Axis] = &[Axis::Year];
const S: &[Axis] = &[Axis::Slice];
const QD: &[Axis] = &[Axis::Season, Axis::Day];
const G: &[Axis] = &[Axis::Plant];
const GQ: &[Axis] = &[Axis::Plant, Axis::Season];
const GS: &[Axis] = &[Axis::Plant, Axis::Slice];
const YG: &[Axis] = &[Axis::Year, Axis::Plant];
const YZS: &[Axis] = &[Axis::Year, Axis::Zone, Axis::Slice];
const YZ: &[Axis] = &[Axis::Year, Axis::Zone];
const Z: &[Axis] = &[Axis::Zone];
const YZZQ: &[Axis] = &[Axis::Year, Axis::Zone, Axis::OtherZone, Axis::Season];
const YZZ: &[Axis] = &[Axis::Year, Axis::Zone, Axis::OtherZone];
const YF: &[Axis] = &[Axis::Year, Axis::Fuel];
const ZZ: &[Axis] = &[Axis::Zone, Axis::OtherZone];
const SINGLE: &[Axis] = &[];

const THOUSANDTHS: Range = Range::Within(0, 1000);
const FLAG: Range = Range::Within(0, 1);

const fn entry(
    table: Table,
    name: &'static str,
    axes: &'static [Axis],
    range: Range,
) -> TableEntry {
    TableEntry {
        table,
        name,
        axes,
        range,
    }
}

pub const TABLE_COUNT: usize = 48;

/// The data list after its seven counts.
pub const TABLES: [TableEntry; TABLE_COUNT] = [
    entry(Table::ReturnRate, "R", Y, THOUSANDTHS),
    entry(Table::Weight, "V", Y, Range::Within(1, 20)),
    entry(Table::Duration, "Dur", S, Range::Within(0, 8784)),
    entry(Table::MinimumLoadDay, "minimum-load day", QD, FLAG),
    entry(Table::Zone, "zone", G, Range::BelowZones),
    entry(Table::Fuel, "fuel", G, Range::BelowFuels),
    entry(Table::Kind, "kind", G, FLAG),
    entry(Table::Vre, "VRE", G, FLAG),
    entry(Table::GenCap, "GenCap", G, Range::ZeroForCandidate),
    entry(Table::Year, "year", G, Range::YearByKind),
    entry(Table::MaxNewCap, "MaxNewCap", G, Range::ZeroForExisting),
    entry(Table::OverLoad, "OverLoad", G, THOUSANDTHS),
    entry(Table::ResOffer, "ResOffer", G, THOUSANDTHS),
    entry(Table::RampDn, "RampDn", G, THOUSANDTHS),
    entry(Table::RampUp, "RampUp", G, THOUSANDTHS),
    entry(Table::MinCapFac, "MinCapFac", G, THOUSANDTHS),
    entry(Table::CapCredit, "CapCredit", G, THOUSANDTHS),
    entry(Table::HeatRate, "HeatRate", G, Range::Within(0, 100_000)),
    entry(Table::Emission, "E", G, Range::Within(0, 10_000)),
    entry(Table::ResCost, "ResCost", G, Range::Any),
    entry(Table::Availability, "Availability", GQ, THOUSANDTHS),
    entry(Table::Profile, "Profile", GS, THOUSANDTHS),
    entry(Table::Annuity, "Annuity", YG, Range::Any),
    entry(Table::FixedOm, "FixedOM", YG, Range::Any),
    entry(Table::GenCost, "GenCost", YG, Range::Any),
    entry(Table::Demand, "Demand", YZS, Range::Any),
    entry(Table::Ee, "EE", YZ, Range::Within(0, 5000)),
    entry(Table::SRes, "SRes", YZ, Range::Any),
    entry(Table::Prm, "PRM", Z, THOUSANDTHS),
    entry(Table::Tl, "TL", YZZQ, Range::ZeroWithinZone),
    entry(Table::Loss, "Loss", YZZ, THOUSANDTHS),
    entry(Table::ZoneCap, "zone cap", YZ, Range::Any),
    entry(Table::SystemCap, "system cap", Y, Range::Any),
    entry(Table::Tax, "Tax", Y, Range::Within(0, 100_000)),
    entry(Table::MaxFuel, "MaxFuel", YF, Range::Any),
    entry(Table::BuildLimit, "BuildLimit", Y, Range::Any),
    entry(Table::Voll, "VOLL", SINGLE, Range::Any),
    entry(Table::SurplusPenalty, "SurplusPenalty", SINGLE, Range::Any),
    entry(Table::ResVoll, "RESVoLL", SINGLE, Range::Any),
    entry(Table::SresVoll, "SRESVoLL", SINGLE, Range::Any),
    entry(Table::Err, "Err", SINGLE, THOUSANDTHS),
    entry(Table::MaxCapital, "MaxCapital", SINGLE, Range::Any),
    entry(Table::Battery, "battery", G, FLAG),
    entry(Table::Efficiency, "efficiency", G, THOUSANDTHS),
    entry(Table::EnergyCapacity, "energy capacity", G, Range::Any),
    entry(Table::LineLimit, "line limit", ZZ, Range::ZeroWithinZone),
    entry(Table::LineMw, "MW per line", ZZ, Range::ZeroWithinZone),
    entry(
        Table::LineAnnuity,
        "line annuity",
        ZZ,
        Range::ZeroWithinZone,
    ),
];

/// Where each table starts in the data list.
#[derive(Clone, Debug)]
pub struct DataLayout {
    pub shape: Shape,
    starts: [usize; TABLE_COUNT],
    length: usize,
}

impl DataLayout {
    pub fn new(shape: Shape) -> DataLayout {
        let mut starts = [0; TABLE_COUNT];
        let mut next = COUNTS.len();
        for (start, entry) in starts.iter_mut().zip(&TABLES) {
            *start = next;
            next += shape.size(entry.axes);
        }
        DataLayout {
            shape,
            starts,
            length: next,
        }
    }

    /// The length that the counts give.
    pub fn length(&self) -> usize {
        self.length
    }

    /// The index of an entry in the data list.
    pub fn index(&self, table: Table, indices: &[usize]) -> usize {
        let entry = &TABLES[table as usize];
        self.starts[table as usize] + self.shape.place(entry.axes, indices)
    }

    /// The table and indices at an index of the data list past the counts.
    pub fn locate(&self, index: usize) -> Option<(Table, Vec<usize>)> {
        if index < COUNTS.len() || index >= self.length {
            return None;
        }
        let last = self.starts.iter().rposition(|&start| start <= index)?;
        let entry = &TABLES[last];
        let indices = self.shape.indices(entry.axes, index - self.starts[last]);
        Some((entry.table, indices))
    }
}

/// A data list that passed the tests of refusals 1, 2, 3 and 16.
#[derive(Clone, Debug)]
pub struct Data<'a> {
    pub shape: Shape,
    layout: DataLayout,
    list: &'a [u32],
}

/// The counts of a data list: refusal 2 when there are under 7 numbers, then
/// refusal 1.
pub fn read_shape(list: &[u32]) -> Result<Shape, Refusal> {
    if list.len() < COUNTS.len() {
        return Err(Refusal::at(DATA_LENGTH, COUNTS.len()));
    }
    let mut counts = [0; COUNTS.len()];
    for (index, &(_, largest)) in COUNTS.iter().enumerate() {
        if list[index] < 1 || list[index] > largest {
            return Err(Refusal::at(SHAPE, index));
        }
        counts[index] = list[index] as usize;
    }
    Ok(Shape::new(counts))
}

impl<'a> Data<'a> {
    /// The tests of refusals 2, 1, 2, 3 and 16, in that order.
    pub fn read(list: &'a [u32]) -> Result<Data<'a>, Refusal> {
        let data = Data::laid_out(list)?;
        data.test_entries()?;
        data.test_batteries()?;
        Ok(data)
    }

    /// The tests of refusals 2, 1 and 2; the entries may be out of range.
    pub fn laid_out(list: &'a [u32]) -> Result<Data<'a>, Refusal> {
        let shape = read_shape(list)?;
        let layout = DataLayout::new(shape);
        if list.len() != layout.length() {
            return Err(Refusal::at(DATA_LENGTH, layout.length()));
        }
        Ok(Data {
            shape,
            layout,
            list,
        })
    }

    fn test_entries(&self) -> Result<(), Refusal> {
        for entry in &TABLES {
            for place in 0..self.shape.size(entry.axes) {
                let indices = self.shape.indices(entry.axes, place);
                let index = self.layout.index(entry.table, &indices);
                let (least, most) = self.limits(entry, &indices);
                if self.list[index] < least || self.list[index] > most {
                    return Err(Refusal::at(ENTRY, index));
                }
            }
        }
        Ok(())
    }

    /// Refusal 16, after every entry: a battery has VRE set; the lowest such plant.
    fn test_batteries(&self) -> Result<(), Refusal> {
        let mut plants = 0..self.shape.plants;
        match plants.find(|&plant| self.is_battery(plant) && self.is_vre(plant)) {
            Some(plant) => Err(Refusal::at(STORAGE, plant)),
            None => Ok(()),
        }
    }

    /// The least and the most that an entry may be. The kind table lies before the
    /// tables whose ranges depend on it, so it has been tested when they are.
    pub fn limits(&self, entry: &TableEntry, indices: &[usize]) -> (u32, u32) {
        let years = self.shape.years as u32;
        let zero_if = |zero: bool| if zero { (0, 0) } else { (0, u32::MAX) };
        match entry.range {
            Range::Any => (0, u32::MAX),
            Range::Within(least, most) => (least, most),
            Range::BelowZones => (0, self.shape.zones as u32 - 1),
            Range::BelowFuels => (0, self.shape.fuels as u32 - 1),
            Range::ZeroForCandidate => zero_if(self.is_candidate(indices[0])),
            Range::ZeroForExisting => zero_if(!self.is_candidate(indices[0])),
            Range::YearByKind if self.is_candidate(indices[0]) => (1, years),
            Range::YearByKind => (2, years + 1),
            Range::ZeroWithinZone => zero_if(is_within_zone(entry.axes, indices)),
        }
    }

    /// The table and indices at an index of the list past the counts.
    pub fn locate(&self, index: usize) -> Option<(Table, Vec<usize>)> {
        self.layout.locate(index)
    }

    /// An entry, wide enough for every product of document 01.
    pub fn at(&self, table: Table, indices: &[usize]) -> i128 {
        i128::from(self.list[self.layout.index(table, indices)])
    }

    pub fn single(&self, table: Table) -> i128 {
        self.at(table, &[])
    }

    pub fn is_candidate(&self, plant: usize) -> bool {
        self.at(Table::Kind, &[plant]) == 1
    }

    pub fn is_vre(&self, plant: usize) -> bool {
        self.at(Table::Vre, &[plant]) == 1
    }

    pub fn is_battery(&self, plant: usize) -> bool {
        self.at(Table::Battery, &[plant]) == 1
    }

    pub fn zone_of(&self, plant: usize) -> usize {
        self.at(Table::Zone, &[plant]) as usize
    }

    pub fn fuel_of(&self, plant: usize) -> usize {
        self.at(Table::Fuel, &[plant]) as usize
    }

    pub fn plants_in(&self, zone: usize) -> impl Iterator<Item = usize> + '_ {
        (0..self.shape.plants).filter(move |&plant| self.zone_of(plant) == zone)
    }

    /// The zones of a sum over z2: "In every sum z2 differs from z".
    pub fn zones_beside(&self, zone: usize) -> impl Iterator<Item = usize> {
        (0..self.shape.zones).filter(move |&other| other != zone)
    }

    /// W = R·V.
    pub fn year_weight(&self, year: usize) -> i128 {
        self.at(Table::ReturnRate, &[year]) * self.at(Table::Weight, &[year])
    }

    pub fn duration(&self, slice: usize) -> i128 {
        self.at(Table::Duration, &[slice])
    }

    pub fn is_minimum_load_day(&self, slice: usize) -> bool {
        let day = [self.shape.season_of(slice), self.shape.day_of(slice)];
        self.at(Table::MinimumLoadDay, &day) == 1
    }
}
