//! Cases that turn on one product of two factors, about the lengths in bits at which
//! request (iii) tells what fits: 62 or less together, 63, and 64 or more.
//!
//! The factors are those that the proved code multiplies, in its order. They differ from
//! the second implementation's in three places: the gap's two totals are multiplied by N
//! once each, the hours of all slices by one price, the energy of a season by one rate.
//!
//! The proved code compares a sum with the limit at every term that it adds. So a product
//! of 2^62 or more that is taken as fitting, and that 64 bits hold, is refused when it is
//! added, and no answer changes. One product that can be above the limit is added to
//! nothing and not compared again: the gap's total below 0 times N. Of a product of 2^64 or
//! more that is taken as fitting the lowest 64 bits are left; where they are within the
//! limit, nothing refuses them.

use super::draft::{Case, Draft};
use super::extremes::{dear_plant, idle_candidate, idle_plant, laid_lines, WIDEST};
use super::random::Random;
use crate::calls::{LARGEST_MULTIPLIER, LARGEST_SCALE};
use crate::columns::Column;
use crate::data::Table;
use crate::product_count::{bit_length, class_of, Class, HALF};
use crate::refusal::{
    Refusal, BROKEN, COLUMN_OFF_SCALE, COST_OFF_SCALE, GAP_OFF_SCALE, ROW_OFF_SCALE,
};
use crate::sums::LIMIT;

/// A product that the proved code makes, named by its two factors.
#[derive(Clone, Copy, Debug, PartialEq, Eq)]
pub enum Product {
    /// The gap: a multiplier and TL.
    MultiplierAndLink,
    /// The gap: a multiplier and 10^9·MaxCapital.
    MultiplierAndBudget,
    /// The gap: the total of its terms above 0, and N.
    TotalAboveAndScale,
    /// The gap: the total of its terms below 0, and N.
    TotalBelowAndScale,
    /// A column: Annuity and the multiplier of family 18.
    AnnuityAndMultiplier,
    /// A row: N and 10^9·MaxCapital.
    ScaleAndBudget,
    /// A row: 1000·MW per line, and the total of lines.
    PowerAndLines,
    /// A row: a plant's energy in a season, and HeatRate.
    EnergyAndRate,
    /// The cost: FixedOM and a plant's capacity.
    PriceAndCapacity,
    /// The cost: W·VOLL, and Dur·unmet.
    PriceAndHours,
}

pub const PRODUCTS: [Product; 10] = [
    Product::MultiplierAndLink,
    Product::MultiplierAndBudget,
    Product::TotalAboveAndScale,
    Product::TotalBelowAndScale,
    Product::AnnuityAndMultiplier,
    Product::ScaleAndBudget,
    Product::PowerAndLines,
    Product::EnergyAndRate,
    Product::PriceAndCapacity,
    Product::PriceAndHours,
];

/// A case with the two factors of its product and the answer of certify, which follows
/// from them.
#[derive(Clone, Debug)]
pub struct Edge {
    pub product: Product,
    pub factors: [i128; 2],
    pub case: Case,
    pub answer: Result<(u64, u64), Refusal>,
}

/// What a factor can be: a unit times a number of a range.
#[derive(Clone, Copy)]
struct Factor {
    unit: i128,
    least: i128,
    most: i128,
}

const MULTIPLIER: Factor = factor(1, 0, LARGEST_MULTIPLIER as i128);
const ENTRY: Factor = factor(1, 0, WIDEST);
const BUDGET: Factor = factor(1_000_000_000, 0, WIDEST);
const SCALE: Factor = factor(1, 1, LARGEST_SCALE as i128);

/// The units of the totals of the gap: TL in one case; in the other 1024·2^22, W times
/// what is asked of firm capacity.
const LINK: i128 = 1 << 22;
const FIRM: i128 = 1 << 22;
const FIRM_WEIGHT: i128 = 1024;

/// Durations, W and hours that are powers of 2, so that the factors can be.
const LONG_DURATION: i128 = 1 << 13;
const LARGE_WEIGHT: i128 = 1 << 13;
const HOURS: usize = 16;

const fn factor(unit: i128, least: i128, most: i128) -> Factor {
    Factor { unit, least, most }
}

impl Factor {
    fn takes(&self, value: i128) -> bool {
        value % self.unit == 0 && (self.least..=self.most).contains(&(value / self.unit))
    }

    fn largest(&self) -> i128 {
        self.unit * self.most
    }

    fn longest(&self) -> u32 {
        bit_length(self.largest().unsigned_abs())
    }

    /// The least and the largest of a length from 1 on.
    fn of_length(&self, bits: u32) -> Option<[i128; 2]> {
        let shortest = 1_i128 << (bits - 1);
        let least = ((shortest + self.unit - 1) / self.unit).max(self.least);
        let most = (((1_i128 << bits) - 1) / self.unit).min(self.most);
        (least <= most).then(|| [self.unit * least, self.unit * most])
    }

    fn draw(&self, random: &mut Random, [least, most]: [i128; 2]) -> i128 {
        self.unit * random.signed(least / self.unit, most / self.unit)
    }
}

impl Edge {
    /// The product in words.
    pub fn label(&self) -> String {
        let [first, second] = self.factors;
        format!("{:?} {first}·{second}", self.product)
    }

    pub fn class(&self) -> Class {
        let [first, second] = self.factors.map(i128::unsigned_abs);
        class_of(first, second)
    }
}

impl Product {
    fn factors(self) -> [Factor; 2] {
        match self {
            Product::MultiplierAndLink => [MULTIPLIER, ENTRY],
            Product::MultiplierAndBudget => [MULTIPLIER, BUDGET],
            Product::TotalAboveAndScale => [factor(LINK, 0, (1 << 40) - 1), SCALE],
            Product::TotalBelowAndScale => [factor(FIRM_WEIGHT * FIRM, 0, (1 << 30) - 1), SCALE],
            Product::AnnuityAndMultiplier => [ENTRY, MULTIPLIER],
            Product::ScaleAndBudget => [SCALE, BUDGET],
            Product::PowerAndLines => [factor(1000, 0, WIDEST), ENTRY],
            Product::EnergyAndRate => {
                let unit = HOURS as i128 * LONG_DURATION;
                [factor(unit, 0, WIDEST), factor(1, 0, 100_000)]
            }
            Product::PriceAndCapacity => [ENTRY, ENTRY],
            Product::PriceAndHours => [
                factor(LARGE_WEIGHT, 0, WIDEST),
                factor(LONG_DURATION, 0, WIDEST),
            ],
        }
    }

    fn takes(self, [first, second]: [i128; 2]) -> bool {
        let [of_first, of_second] = self.factors();
        of_first.takes(first) && of_second.takes(second)
    }

    /// The case of two factors that the product can have.
    pub fn edge(self, factors: [i128; 2]) -> Edge {
        assert!(self.takes(factors), "{self:?} of {factors:?}");
        let draft = self.draft(factors);
        Edge {
            product: self,
            factors,
            answer: self.answer(&draft, factors),
            case: draft.case,
        }
    }

    fn draft(self, [first, second]: [i128; 2]) -> Draft {
        match self {
            Product::MultiplierAndLink => link(first, second),
            Product::MultiplierAndBudget => budget(first, second / BUDGET.unit, 1),
            Product::TotalAboveAndScale => scaled(link(first / LINK, LINK), second),
            Product::TotalBelowAndScale => firm_capacity(first / (FIRM_WEIGHT * FIRM), second),
            Product::AnnuityAndMultiplier => annuity(first, second),
            Product::ScaleAndBudget => budget(0, second / BUDGET.unit, first),
            Product::PowerAndLines => lines(first / 1000, second),
            Product::EnergyAndRate => fuel_use(first / (HOURS as i128 * LONG_DURATION), second),
            Product::PriceAndCapacity => dear_plant(second, first, 0),
            Product::PriceAndHours => unmet(first / LARGE_WEIGHT, second / LONG_DURATION),
        }
    }

    fn answer(self, draft: &Draft, [first, second]: [i128; 2]) -> Result<(u64, u64), Refusal> {
        let product = first * second;
        let over = is_over(product);
        let row_off_scale = |family: usize, indices: &[usize]| {
            Refusal::at(ROW_OFF_SCALE, draft.rows.index(family, indices))
        };
        match self {
            Product::MultiplierAndLink
            | Product::MultiplierAndBudget
            | Product::TotalAboveAndScale => match over {
                true => Err(Refusal::at(GAP_OFF_SCALE, 0)),
                false => Ok((0, product as u64)),
            },
            // Half of the product is paid and half is the total above 0 times N.
            Product::TotalBelowAndScale if is_over(product / 2) => {
                Err(Refusal::at(COST_OFF_SCALE, 0))
            }
            Product::TotalBelowAndScale if over => Err(Refusal::at(GAP_OFF_SCALE, 0)),
            Product::TotalBelowAndScale => Ok((product as u64 / 2, 0)),
            Product::AnnuityAndMultiplier if over => Err(Refusal::at(
                COLUMN_OFF_SCALE,
                draft.columns.index(Column::Cap, &[0, 0]),
            )),
            Product::ScaleAndBudget if over => Err(row_off_scale(18, &[])),
            // Family 2 has the MW without the factor 1000.
            Product::PowerAndLines if is_over(product / 1000) => {
                Err(row_off_scale(2, &[0, 0, 1, 0]))
            }
            Product::PowerAndLines if over => Err(row_off_scale(3, &[0, 1, 0])),
            Product::EnergyAndRate if over => Err(row_off_scale(17, &[0, 0, 0])),
            // There is no fuel.
            Product::EnergyAndRate if product > 0 => {
                Err(Refusal::at(BROKEN, draft.rows.index(17, &[0, 0, 0])))
            }
            Product::AnnuityAndMultiplier
            | Product::ScaleAndBudget
            | Product::PowerAndLines
            | Product::EnergyAndRate => Ok((0, 0)),
            // No multiplier is set, so the gap is the cost.
            Product::PriceAndCapacity | Product::PriceAndHours => match over {
                true => Err(Refusal::at(COST_OFF_SCALE, 0)),
                false => Ok((product as u64, product as u64)),
            },
        }
    }
}

fn is_over(product: i128) -> bool {
    product.unsigned_abs() > LIMIT
}

/// Every product about its edges: by length, about 2^62 − 1 and 2^64, with a factor 0, and
/// with factors about 2^31.
pub fn edges(seed: u64) -> Vec<Edge> {
    let mut random = Random::new(seed);
    let mut edges = vec![];
    for product in PRODUCTS {
        let factors = [
            by_length(&mut random, product),
            about_bounds(&mut random, product),
            with_zero(product),
            about_half(),
        ]
        .concat();
        let possible = factors.into_iter().filter(|&pair| product.takes(pair));
        edges.extend(possible.map(|pair| product.edge(pair)));
    }
    edges
}

/// The lengths together from which on factors are drawn, and up to which the least, the
/// largest and drawn ones are all taken. Of the longer ones one of the three is enough: the
/// least are 2^64 or more there, and leave 0 as the lowest 64 bits where they are powers of 2.
const SHORTEST: u32 = 61;
const SHORT: u32 = 66;

fn by_length(random: &mut Random, product: Product) -> Vec<[i128; 2]> {
    let [first, second] = product.factors();
    let mut pairs = vec![];
    for together in SHORTEST..=first.longest() + second.longest() {
        let splits: Vec<_> = (1..=first.longest().min(together - 1))
            .filter_map(|bits| Some([first.of_length(bits)?, second.of_length(together - bits)?]))
            .collect();
        if splits.is_empty() {
            continue;
        }
        let [firsts, seconds] = *random.pick(&splits);
        let drawn = [first.draw(random, firsts), second.draw(random, seconds)];
        let all = [[firsts[0], seconds[0]], [firsts[1], seconds[1]], drawn];
        match together <= SHORT {
            true => pairs.extend(all),
            false => pairs.push(*random.pick(&all)),
        }
    }
    pairs
}

/// A drawn factor with the two others between whose products the limit lies, and with the
/// two between whose products 2^64 lies.
fn about_bounds(random: &mut Random, product: Product) -> Vec<[i128; 2]> {
    let [first, second] = product.factors();
    let mut pairs = vec![];
    for bound in [LIMIT as i128, (1 << 64) - 1] {
        let least = (bound / second.largest()).max(first.unit) / first.unit;
        if least > first.most {
            continue;
        }
        let drawn = first.draw(random, [first.unit * least, first.largest()]);
        let below = bound / drawn / second.unit * second.unit;
        pairs.extend([[drawn, below], [drawn, below + second.unit]]);
    }
    pairs
}

fn with_zero(product: Product) -> Vec<[i128; 2]> {
    let [first, second] = product.factors();
    vec![[0, second.largest()], [first.largest(), 0]]
}

/// 2^31 − 1, up to which two factors fit whatever they are, and the two numbers after it:
/// (2^31 − 1)·(2^31 + 1) is the limit itself.
fn about_half() -> Vec<[i128; 2]> {
    let half = HALF as i128;
    let sides = [half, half + 1, half + 2];
    let pairs = sides.into_iter().flat_map(|a| sides.map(|b| [a, b]));
    pairs.collect()
}

fn scaled(mut draft: Draft, scale: i128) -> Draft {
    draft.case.scale = scale as u32;
    draft
}

/// Two zones and a link that nothing flows on.
fn link(multiplier: i128, limit: i128) -> Draft {
    let mut draft = idle_plant(2, 1);
    draft.set_data(Table::Tl, &[0, 0, 1, 0], limit);
    draft.set_multiplier(2, &[0, 0, 1, 0], multiplier);
    draft
}

/// A budget, and no candidate that it is for.
fn budget(multiplier: i128, capital: i128, scale: i128) -> Draft {
    let mut draft = scaled(idle_plant(1, 1), scale);
    draft.set_data(Table::MaxCapital, &[], capital);
    draft.set_multiplier(18, &[], multiplier);
    draft
}

/// Of 2^22 kW of firm capacity that are asked for, 1024 ‰ of 4096 MW, half are a plant's at
/// credit 1 ‰ and half are short, at `price` a kW. The multipliers of families 4 and 12 are
/// the price and less than 0 by as much. EE is 0, so nothing is generated. So the cost is
/// N·1024·price·2^21, the total above 0 is 1024·price·2^21, that below 0 is twice as much.
fn firm_capacity(price: i128, scale: i128) -> Draft {
    let mut draft = scaled(idle_plant(1, 1), scale);
    let half = FIRM / 2;
    draft.set_data(Table::ReturnRate, &[0], FIRM_WEIGHT / 2);
    draft.set_data(Table::Weight, &[0], 2);
    draft.set_data(Table::ResVoll, &[], price);
    draft.set_data(Table::CapCredit, &[0], 1);
    draft.set_data(Table::GenCap, &[0], half);
    draft.set_data(Table::Prm, &[0], 24);
    draft.set_data(Table::Demand, &[0, 0, 0], FIRM / 1024);
    draft.set_entry(Column::Cap, &[0, 0], scale * half);
    draft.set_entry(Column::FirmShort, &[0, 0], scale * half);
    draft.set_multiplier(4, &[0, 0], FIRM_WEIGHT * price);
    draft.set_multiplier(12, &[0, 0], -FIRM_WEIGHT * price);
    draft
}

/// A candidate that is not built, and no budget.
fn annuity(annuity: i128, multiplier: i128) -> Draft {
    let mut draft = idle_candidate();
    draft.set_data(Table::Annuity, &[0, 0], annuity);
    draft.set_multiplier(18, &[], multiplier);
    draft
}

/// Lines that carry MW one way and nothing flows on. Nothing has a price.
fn lines(power: i128, total: i128) -> Draft {
    let mut draft = laid_lines(total);
    draft.set_data(Table::LineMw, &[0, 1], power);
    draft
}

/// A plant at full output in every hour.
fn fuel_use(capacity: i128, rate: i128) -> Draft {
    let mut draft = idle_plant(1, HOURS);
    draft.set_data(Table::GenCap, &[0], capacity);
    draft.set_data(Table::CapCredit, &[0], 1000);
    draft.set_data(Table::Availability, &[0, 0], 1000);
    draft.set_data(Table::HeatRate, &[0], rate);
    draft.set_data(Table::Ee, &[0, 0], 1000);
    draft.set_entry(Column::Cap, &[0, 0], capacity);
    for s in 0..HOURS {
        draft.set_data(Table::Duration, &[s], LONG_DURATION);
        draft.set_data(Table::Demand, &[0, 0, s], capacity);
        draft.set_entry(Column::Gen, &[0, 0, s], capacity);
    }
    draft
}

/// What is unmet is a surplus as well, at no price, so that (14) holds.
fn unmet(price: i128, amount: i128) -> Draft {
    let mut draft = idle_plant(1, 1);
    draft.set_data(Table::ReturnRate, &[0], LARGE_WEIGHT / 16);
    draft.set_data(Table::Weight, &[0], 16);
    draft.set_data(Table::Duration, &[0], LONG_DURATION);
    draft.set_data(Table::Voll, &[], price);
    draft.set_entry(Column::Unmet, &[0, 0, 0], amount);
    draft.set_entry(Column::Surplus, &[0, 0, 0], amount);
    draft
}
