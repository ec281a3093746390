//! The lists cut into their tables, and the tests of the data.

use epm_reference::columns::{ColumnLayout, COLUMNS, COLUMN_TABLES};
use epm_reference::data::{read_shape, DataLayout, Range, Table, TABLES, TABLE_COUNT};
use epm_reference::refusal::{DATA_LENGTH, ENTRY, STORAGE};
use epm_reference::rows::{RowLayout, FAMILIES, FAMILY_COUNT};
use epm_reference::shape::{is_within_zone, Shape};
use epm_reference::Refusal;

/// The data by table, with the counts by document 01's letters.
pub struct View<'a> {
    pub z: usize,
    pub g: usize,
    pub f: usize,
    pub q: usize,
    pub y: usize,
    /// S = Q·D·T.
    pub s: usize,
    /// Slices of a season.
    pub season: usize,
    /// Hours of a day.
    pub day: usize,
    pub columns: ColumnLayout,
    pub rows: RowLayout,
    /// The plants of each zone.
    pub plants: Vec<Vec<usize>>,
    tables: [&'a [u32]; TABLE_COUNT],
}

/// Cuts a list into parts of the given sizes; none where the sizes do not add up.
fn cut<T, const N: usize>(list: &[T], sizes: [usize; N]) -> Option<[&[T]; N]> {
    if list.len() != sizes.iter().sum() {
        return None;
    }
    let mut rest = list;
    Some(sizes.map(|size| {
        let (part, later) = rest.split_at(size);
        rest = later;
        part
    }))
}

impl<'a> View<'a> {
    /// Refusals 1 to 3, and 16.
    pub fn read(data: &'a [u32]) -> Result<View<'a>, Refusal> {
        let shape = read_shape(data)?;
        let sizes: [usize; TABLE_COUNT] =
            std::array::from_fn(|table| shape.size(TABLES[table].axes));
        let Some(tables) = cut(&data[7..], sizes) else {
            return Err(Refusal::at(DATA_LENGTH, DataLayout::new(shape).length()));
        };
        let mut view = View {
            z: shape.zones,
            g: shape.plants,
            f: shape.fuels,
            q: shape.seasons,
            y: shape.years,
            s: shape.slices(),
            season: shape.days * shape.hours,
            day: shape.hours,
            columns: ColumnLayout::new(shape),
            rows: RowLayout::new(shape),
            plants: vec![],
            tables,
        };
        view.test_entries(shape)?;
        if let Some(g) = (0..view.g).find(|&g| view.is_battery(g) && view.is_vre(g)) {
            return Err(Refusal::at(STORAGE, g));
        }
        let zones = view.table(Table::Zone);
        view.plants = (0..view.z)
            .map(|z| (0..view.g).filter(|&g| zones[g] as usize == z).collect())
            .collect();
        Ok(view)
    }

    fn test_entries(&self, shape: Shape) -> Result<(), Refusal> {
        let kinds = self.table(Table::Kind);
        let years = self.y as u32;
        let mut start = 7;
        for (entry, table) in TABLES.iter().zip(&self.tables) {
            // The range of each table, decided once for the table.
            let bad = match entry.range {
                Range::Any => None,
                Range::Within(least, most) => table
                    .iter()
                    .position(|&value| value < least || value > most),
                Range::BelowZones => table.iter().position(|&value| value as usize >= self.z),
                Range::BelowFuels => table.iter().position(|&value| value as usize >= self.f),
                Range::ZeroForCandidate => (0..self.g).find(|&g| kinds[g] == 1 && table[g] > 0),
                Range::ZeroForExisting => (0..self.g).find(|&g| kinds[g] == 0 && table[g] > 0),
                Range::YearByKind => {
                    let early = |g: usize| 2 - kinds[g].min(1);
                    (0..self.g).find(|&g| table[g] < early(g) || table[g] > years + early(g) - 1)
                }
                Range::ZeroWithinZone => (0..table.len()).find(|&place| {
                    let indices = || shape.indices(entry.axes, place);
                    table[place] > 0 && is_within_zone(entry.axes, &indices())
                }),
            };
            if let Some(place) = bad {
                return Err(Refusal::at(ENTRY, start + place));
            }
            start += table.len();
        }
        Ok(())
    }

    pub fn table(&self, table: Table) -> &'a [u32] {
        self.tables[table as usize]
    }

    pub fn single(&self, table: Table) -> u64 {
        u64::from(self.table(table)[0])
    }

    /// W = R·V.
    pub fn weight(&self, y: usize) -> u64 {
        u64::from(self.table(Table::ReturnRate)[y]) * u64::from(self.table(Table::Weight)[y])
    }

    pub fn is_candidate(&self, g: usize) -> bool {
        self.table(Table::Kind)[g] == 1
    }

    pub fn is_vre(&self, g: usize) -> bool {
        self.table(Table::Vre)[g] == 1
    }

    pub fn is_battery(&self, g: usize) -> bool {
        self.table(Table::Battery)[g] == 1
    }

    pub fn zone_of(&self, g: usize) -> usize {
        self.table(Table::Zone)[g] as usize
    }

    /// Whether a plant's capacity has to be 0 in a year.
    pub fn is_shut(&self, y: usize, g: usize) -> bool {
        let year = self.table(Table::Year)[g] as usize;
        (y + 1 < year) == self.is_candidate(g)
    }

    pub fn is_minimum_load_day(&self, s: usize) -> bool {
        self.table(Table::MinimumLoadDay)[s / self.day] == 1
    }

    /// Σ Dur of a season.
    pub fn season_hours(&self, q: usize) -> u64 {
        let season = &self.table(Table::Duration)[q * self.season..(q + 1) * self.season];
        season.iter().map(|&hours| u64::from(hours)).sum()
    }

    /// Zone pairs [y,z,z2] and links [y,z,z2,s] by place.
    pub fn pair(&self, y: usize, z: usize, z2: usize) -> usize {
        (y * self.z + z) * self.z + z2
    }

    /// The two zones of a pair [z,z2] or [y,z,z2] by place.
    pub fn zones_of(&self, pair: usize) -> (usize, usize) {
        (pair / self.z % self.z, pair % self.z)
    }

    /// Whether the lines of a pair pay their annuity: those from the lower zone to the
    /// higher.
    pub fn is_paid(&self, pair: usize) -> bool {
        let (z, z2) = self.zones_of(pair);
        z < z2
    }

    /// TL[y,z2,z,q] over z2 other than z.
    pub fn links_into(&self, y: usize, z: usize, q: usize) -> u64 {
        let limits = self.table(Table::Tl);
        let others = (0..self.z).filter(|&z2| z2 != z);
        others
            .map(|z2| u64::from(limits[self.pair(y, z2, z) * self.q + q]))
            .sum()
    }

    /// Σ of the lowest TL[y,z2,z,·] over z2 other than z.
    pub fn lowest_links_into(&self, y: usize, z: usize) -> u64 {
        let limits = self.table(Table::Tl);
        let others = (0..self.z).filter(|&z2| z2 != z);
        others
            .map(|z2| {
                let start = self.pair(y, z2, z) * self.q;
                let seasons = &limits[start..start + self.q];
                u64::from(*seasons.iter().min().expect("a season"))
            })
            .sum()
    }

    /// The largest Demand[y,z,·].
    pub fn peak(&self, y: usize, z: usize) -> u64 {
        let start = (y * self.z + z) * self.s;
        let demand = &self.table(Table::Demand)[start..start + self.s];
        u64::from(*demand.iter().max().expect("a slice"))
    }

    pub fn split_plan<'p>(&self, plan: &'p [u32]) -> Option<[&'p [u32]; COLUMN_TABLES]> {
        let shape = self.columns.shape;
        cut(
            plan,
            std::array::from_fn(|table| shape.size(COLUMNS[table].axes)),
        )
    }

    pub fn split_multipliers<'m>(&self, list: &'m [i64]) -> Option<[&'m [i64]; FAMILY_COUNT]> {
        let shape = self.rows.shape;
        cut(
            list,
            std::array::from_fn(|family| shape.size(FAMILIES[family].axes)),
        )
    }
}
