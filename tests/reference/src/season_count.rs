//! What a run of inputs had in (21) of links whose limits differ by season. Where a count is
//! above 0, another reading of request (iv) would answer one of these inputs otherwise.

use crate::calls::row_value;
use crate::data::{Data, Table};
use crate::generator::draft::Case;
use crate::met::absent;
use crate::model::Model;
use crate::refusal::{Refusal, BROKEN};
use std::fmt;

/// The family of (21).
const PLANNING: usize = 4;

/// Whether the links of a zone are as counted.
type Test = fn(&Links) -> bool;

/// What the links of a zone would count by another reading, in MW.
type Reading = fn(&Links) -> i128;

/// Certificates with such links in a row whose multiplier is above 0, so that the gap shows
/// what they count.
const PRICED: [(&str, Test); 8] = [
    ("limits that differ", |links| {
        links.into_zone.iter().any(|limits| differ(limits))
    }),
    ("lowest in the first season alone", |links| {
        links.are_lowest_alone(|q, _| q == 0)
    }),
    ("lowest between first and last alone", |links| {
        links.are_lowest_alone(|q, last| 0 < q && q < last)
    }),
    ("lowest in the last season alone", |links| {
        links.are_lowest_alone(|q, last| q == last)
    }),
    ("0 in one season, not in another", |links| {
        let mut differing = links.into_zone.iter().filter(|limits| differ(limits));
        differing.any(|limits| lowest(limits) == 0)
    }),
    ("two links above 0, limits that differ", |links| {
        let counted = links.into_zone.iter().filter(|limits| lowest(limits) > 0);
        counted.clone().count() > 1 && counted.clone().any(|limits| differ(limits))
    }),
    ("no season the lowest of all links", |links| {
        links.of_lowest_season() > links.counted()
    }),
    ("other limits out of the zone", |links| {
        let out: i128 = links.out_of_zone.iter().map(|limits| lowest(limits)).sum();
        out != links.counted()
    }),
];

/// Inputs refused at a row that would hold by such a reading.
const BROKEN_ROWS: [(&str, Reading); 3] = [
    ("broken, not with all seasons added up", |links| {
        links.into_zone.iter().flatten().sum()
    }),
    ("broken, not with the largest limits", |links| {
        let largest = links.into_zone.iter().map(|limits| limits.iter().max());
        largest.map(|limit| limit.expect("a season")).sum()
    }),
    ("broken, not with the other direction", |links| {
        links.out_of_zone.iter().map(|limits| lowest(limits)).sum()
    }),
];

/// Counts over a run of inputs of certify.
#[derive(Clone, Debug, Default, PartialEq, Eq)]
pub struct SeasonCount {
    priced: [u64; PRICED.len()],
    broken: [u64; BROKEN_ROWS.len()],
    /// Certificates with a row of value 0 in which limits differ and their lowest is above 0.
    exactly_met: u64,
    /// Refused for a row of value -1 in which limits differ and their lowest is above 0.
    just_broken: u64,
}

/// The season limits of every link of a zone in a year, by direction.
struct Links {
    into_zone: Vec<Vec<i128>>,
    out_of_zone: Vec<Vec<i128>>,
}

fn lowest(limits: &[i128]) -> i128 {
    *limits.iter().min().expect("a season")
}

fn differ(limits: &[i128]) -> bool {
    limits.iter().any(|&limit| limit != limits[0])
}

impl Links {
    fn of(data: &Data, y: usize, z: usize) -> Links {
        let limits = |z: usize, z2: usize| -> Vec<i128> {
            let seasons = 0..data.shape.seasons;
            seasons
                .map(|q| data.at(Table::Tl, &[y, z, z2, q]))
                .collect()
        };
        Links {
            into_zone: data.zones_beside(z).map(|z2| limits(z2, z)).collect(),
            out_of_zone: data.zones_beside(z).map(|z2| limits(z, z2)).collect(),
        }
    }

    /// What the row counts, in MW.
    fn counted(&self) -> i128 {
        self.into_zone.iter().map(|limits| lowest(limits)).sum()
    }

    /// What all links carry together in the season where that is least.
    fn of_lowest_season(&self) -> i128 {
        let seasons = self.into_zone.first().map_or(0, Vec::len);
        let carried = |q: usize| self.into_zone.iter().map(|limits| limits[q]).sum();
        (0..seasons).map(carried).min().unwrap_or(0)
    }

    /// Whether a link is lowest in one season alone, which is as asked among those up to the
    /// last.
    fn are_lowest_alone(&self, asked: fn(usize, usize) -> bool) -> bool {
        self.into_zone.iter().any(|limits| {
            let least = lowest(limits);
            let mut seasons = (0..limits.len()).filter(|&q| limits[q] == least);
            let first = seasons.next().expect("a season");
            seasons.next().is_none() && limits.len() > 1 && asked(first, limits.len() - 1)
        })
    }

    /// Whether the row counts a limit above 0 that is not that of every season.
    fn count_by_season(&self) -> bool {
        let mut links = self.into_zone.iter();
        links.any(|limits| differ(limits) && lowest(limits) > 0)
    }
}

/// A row of family 4: its links, its value and its multiplier.
struct Planning {
    links: Links,
    value: i128,
    multiplier: i64,
}

impl Planning {
    fn of(model: &Model, case: &Case, number: usize) -> Planning {
        let (_, i) = model.rows.locate(number).expect("a row");
        let row = model.row(number);
        Planning {
            links: Links::of(&model.data, i[0], i[1]),
            value: row_value(&row, case.scale, &case.plan).value(),
            // A row may be broken before the multipliers are counted.
            multiplier: case.multipliers.get(number).copied().unwrap_or(0),
        }
    }
}

impl SeasonCount {
    /// Counts an input with certify's answer to it.
    pub fn count(&mut self, case: &Case, answer: Result<(u64, u64), Refusal>) {
        match answer {
            Ok(_) => {
                let model = Model::read(&case.data).expect("accepted data");
                let rows = model.rows.of_family(PLANNING);
                self.count_accepted(rows.map(|row| Planning::of(&model, case, row)).collect());
            }
            Err(refusal) if refusal.number == BROKEN => {
                let model = Model::read(&case.data).expect("rows come after the data");
                let row = refusal.place as usize;
                if model.rows.family(row) == Some(PLANNING) {
                    self.count_broken(Planning::of(&model, case, row), case.scale);
                }
            }
            Err(_) => (),
        }
    }

    fn count_accepted(&mut self, rows: Vec<Planning>) {
        for (count, (_, asked)) in self.priced.iter_mut().zip(PRICED) {
            let mut priced = rows.iter().filter(|row| row.multiplier > 0);
            *count += u64::from(priced.any(|row| asked(&row.links)));
        }
        let mut met = rows.iter().filter(|row| row.value == 0);
        self.exactly_met += u64::from(met.any(|row| row.links.count_by_season()));
    }

    fn count_broken(&mut self, row: Planning, scale: u32) {
        let unit = 1000 * i128::from(scale);
        for (count, (_, counted)) in self.broken.iter_mut().zip(BROKEN_ROWS) {
            let more = unit * (counted(&row.links) - row.links.counted());
            *count += u64::from(row.value + more >= 0);
        }
        self.just_broken += u64::from(row.value == -1 && row.links.count_by_season());
    }

    /// Each count with what it counts.
    fn counts(&self) -> Vec<(u64, &'static str)> {
        let priced = self.priced.iter().zip(PRICED);
        let broken = self.broken.iter().zip(BROKEN_ROWS);
        let priced = priced.map(|(&count, (word, _))| (count, word));
        let broken = broken.map(|(&count, (word, _))| (count, word));
        let rows = [
            (self.exactly_met, "exactly met by limits that differ"),
            (self.just_broken, "one Nth of a kW less than that"),
        ];
        priced.chain(broken).chain(rows).collect()
    }

    /// The counts that are 0, in words.
    pub fn missing(&self) -> Vec<String> {
        absent(&self.counts())
    }
}

impl fmt::Display for SeasonCount {
    fn fmt(&self, f: &mut fmt::Formatter<'_>) -> fmt::Result {
        writeln!(f, "links by season in (21):")?;
        for (count, word) in self.counts() {
            writeln!(f, "  {word:38} {count:7}")?;
        }
        Ok(())
    }
}
