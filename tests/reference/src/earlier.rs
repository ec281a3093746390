//! Certificates that were accepted before request (iv), tried anew: what their answers must
//! be since. That is worked out from the earlier answer, the data, the plan and the
//! multipliers alone, and not through the rows of the implementation: where the links into a
//! zone count so many MW less, its row of (21) and the constant of that row lose as much.

use crate::columns::{Column, ColumnLayout};
use crate::data::{read_shape, DataLayout, Table};
use crate::generator::draft::{Case, Draft};
use crate::program::{read_lines, Input};
use crate::refusal::{Refusal, BROKEN};
use crate::rows::RowLayout;

/// How each was made, its input and, in the last line, the answer of the proved program at
/// commit d1f86ff (`tests/README.md`).
const CERTIFICATES: &str = include_str!("../earlier/certificates.txt");

/// A certificate with its earlier answer.
#[derive(Clone, Debug)]
pub struct Earlier {
    pub name: String,
    pub case: Case,
    pub cost: u64,
    pub gap: u64,
}

/// What becomes of an earlier certificate.
#[derive(Clone, Debug)]
pub struct Tried {
    /// The answer of certify.
    pub answer: Result<(u64, u64), Refusal>,
    /// The case with as much more firmshort as its rows of (21) now miss, and the answer of
    /// certify to that with the earlier multipliers; none where nothing is missing.
    pub mended: Option<(Case, (u64, u64))>,
}

/// All of them, in the order of the file.
pub fn certificates() -> Vec<Earlier> {
    CERTIFICATES.trim_end().split("\n\n").map(read).collect()
}

fn read(text: &str) -> Earlier {
    let (name, rest) = text.split_once('\n').expect("how it was made");
    let (input, answer) = rest.rsplit_once('\n').expect("an answer");
    let figures = answer.strip_prefix("A ").expect("an accepted certificate");
    let (cost, gap) = figures.split_once(' ').expect("cost and gap");
    let number = |digits: &str| digits.parse().expect("a number");
    Earlier {
        name: name.to_string(),
        case: grown(read_lines(format!("{input}\n").as_bytes()).expect("no Frame")),
        cost: number(cost),
        gap: number(gap),
    }
}

/// The lists with zeros for the tables, columns and rows that later requests add at their ends.
fn grown(mut input: Input) -> Case {
    let shape = read_shape(&input.data).expect("counts in range");
    input.data.resize(DataLayout::new(shape).length(), 0);
    input.plan.resize(ColumnLayout::new(shape).count(), 0);
    input.multipliers.resize(RowLayout::new(shape).count(), 0);
    Case {
        // At that commit N was 1 without a SCAL line and now it is 1000, so each has the line.
        scale: input.scale.expect("a SCAL line"),
        data: input.data,
        plan: input.plan,
        multipliers: input.multipliers,
        ..Case::default()
    }
}

/// What the links into a zone counted in (21), all seasons added up, and what they count
/// since, each with its lowest limit, in MW.
fn links_before_and_since(draft: &Draft, y: usize, z: usize) -> (i128, i128) {
    let (mut before, mut since) = (0, 0);
    for z2 in draft.zones_beside(z) {
        let seasons = 0..draft.shape.seasons;
        let mut limits: Vec<i128> = seasons
            .map(|q| draft.data(Table::Tl, &[y, z2, z, q]))
            .collect();
        limits.sort();
        before += limits.iter().sum::<i128>();
        since += limits[0];
    }
    (before, since)
}

/// (21) with links that count so many MW, less what is asked, in Nths of a kW.
fn planning_reserve(draft: &Draft, y: usize, z: usize, links: i128) -> i128 {
    let demand = (0..draft.shape.slices()).map(|s| draft.data(Table::Demand, &[y, z, s]));
    let peak = demand.max().expect("a slice");
    let asked = (1000 + draft.data(Table::Prm, &[z])) * peak;
    let mut value = draft.entry(Column::FirmShort, &[y, z]);
    for g in draft.plants_in(z) {
        value += draft.data(Table::CapCredit, &[g]) * draft.cap(y, g);
    }
    value + draft.scale() * (1000 * links - asked)
}

impl Earlier {
    pub fn seasons(&self) -> usize {
        Draft::of(self.case.clone()).shape.seasons
    }

    pub fn tried(&self) -> Tried {
        let mut draft = Draft::of(self.case.clone());
        let (mut cost, mut gap) = (i128::from(self.cost), i128::from(self.gap));
        let mut first_broken = None;
        for y in 0..draft.shape.years {
            let weight = draft.data(Table::ReturnRate, &[y]) * draft.data(Table::Weight, &[y]);
            let price = weight * draft.data(Table::ResVoll, &[]);
            for z in 0..draft.shape.zones {
                let (before, since) = links_before_and_since(&draft, y, z);
                assert!(planning_reserve(&draft, y, z, before) >= 0, "{}", self.name);
                gap -= draft.scale() * draft.multiplier(4, &[y, z]) * 1000 * (before - since);
                let missing = -planning_reserve(&draft, y, z, since);
                if missing > 0 {
                    first_broken = first_broken.or(Some(draft.rows.index(4, &[y, z])));
                    draft
                        .raise(Column::FirmShort, &[y, z], missing)
                        .expect("32 bits");
                    cost += price * missing;
                    gap += price * missing;
                }
            }
        }
        let figures = (cost as u64, gap as u64);
        match first_broken {
            None => Tried {
                answer: Ok(figures),
                mended: None,
            },
            Some(row) => Tried {
                answer: Err(Refusal::at(BROKEN, row)),
                mended: Some((draft.case, figures)),
            },
        }
    }
}
