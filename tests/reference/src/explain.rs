//! The explain program: the line of certify, and a line that says the answer in
//! words. The sentences are those of `crates/sentences/specs`,
//! `crates/plain_words/specs` and `crates/answer_words/specs`; numbers,
//! indices, sums and ranges are this implementation's own.

use crate::calls::{column_loads, row_value, LARGEST_SCALE};
use crate::columns::COLUMNS;
use crate::data::{Data, TABLES};
use crate::model::Model;
use crate::program::{answer, answer_line, read_lines, Input};
use crate::refusal::{
    Refusal, BROKEN, COLUMN_OFF_SCALE, COST_OFF_SCALE, DATA_LENGTH, ENTRY, FRAME, GAP_OFF_SCALE,
    MULTIPLIER, MULTIPLIER_COUNT, PLAN_LENGTH, ROW_OFF_SCALE, SCALE, SHAPE, STORAGE, UNDERPRICED,
};
use crate::rows::{Family, FAMILIES, NO_NUMBER};
use crate::shape::{Axis, Shape, COUNTS};
use crate::sums::{SignedSum, LIMIT};

/// What the program prints for an input. The program has room for 1024 bytes;
/// nothing is cut off here, so that an answer without room would differ.
pub fn explain(input: &[u8]) -> Vec<u8> {
    // A Frame is told by its line alone, so the lists are not needed then.
    let read = read_lines(input).unwrap_or_default();
    let answer = answer(input);
    let mut printed = answer_line(answer).into_bytes();
    printed.extend(sentence(&read, answer).into_bytes());
    printed
}

/// The line in words.
fn sentence(read: &Input, answer: Result<(u64, u64), Refusal>) -> String {
    match answer {
        Ok((cost, gap)) => format!(
            "Accepted: the plan costs {cost} and no other plan costs less by more than {gap}, \
             in millionths of a money unit times N{}\n",
            scale_words(read)
        ),
        Err(refusal) => format!(
            "{}: {}{}\n",
            refusal.word(),
            body(read, refusal),
            match refusal.number {
                FRAME => String::new(), // no scale was taken
                _ => scale_words(read),
            }
        ),
    }
}

/// The scale that was taken, and where it comes from: a plan in MW that was read in
/// thousandths shows by this.
fn scale_words(read: &Input) -> String {
    let source = match read.scale {
        Some(_) => "from the SCAL line",
        None => "the default where there is no SCAL line",
    };
    format!("; the scale N is {}, {source}", read.scale())
}

/// The place of a refusal and its figures.
fn body(read: &Input, refusal: Refusal) -> String {
    let place = refusal.place as usize;
    match refusal.number {
        SHAPE => count_out_of_range(read, place),
        DATA_LENGTH => length("DATA", read.data.len(), place),
        ENTRY => entry_out_of_range(read, place),
        SCALE => format!("N{}", range(read.scale(), 1, LARGEST_SCALE)),
        PLAN_LENGTH => length("PLAN", read.plan.len(), place),
        ROW_OFF_SCALE => row_off_scale(read, place),
        BROKEN => broken(read, place),
        COST_OFF_SCALE => "the cost is more than 2^62 - 1".to_string(),
        MULTIPLIER_COUNT => length("DUAL", read.multipliers.len(), place),
        MULTIPLIER => multiplier_out_of_range(read, place),
        COLUMN_OFF_SCALE => column_off_scale(read, place),
        UNDERPRICED => underpriced(read, place),
        GAP_OFF_SCALE => "a sum of the terms N*m*k is more than 2^62 - 1".to_string(),
        STORAGE => format!("plant {} is a battery and has VRE set", place + 1),
        FRAME => format!(
            "line {place} of the input is not a line of DATA, PLAN, SCAL or DUAL as \
             docs/FORMAT.md has them, or brings more numbers than may come"
        ),
        number => unreachable!("certify does not refuse by {number}"),
    }
}

/// A sum or a price; above the limit it has no figure.
fn amount(sum: u128) -> String {
    match sum > LIMIT {
        true => "more than 2^62 - 1".to_string(),
        false => sum.to_string(),
    }
}

/// A number, and the least and the most that it may be.
fn range(number: u32, least: u32, most: u32) -> String {
    format!(": it is {number} and must be from {least} to {most}")
}

/// How many numbers a list has, and how many it must have.
fn length(list: &str, has: usize, must: usize) -> String {
    format!("{list} has {has} numbers and must have {must}")
}

/// The indices of a row, a column or an entry, each counted from 1.
fn place_words(shape: &Shape, axes: &[Axis], indices: &[usize]) -> String {
    let words = axes.iter().zip(indices);
    words
        .map(|(&axis, &index)| index_words(shape, axis, index))
        .collect()
}

fn index_words(shape: &Shape, axis: Axis, index: usize) -> String {
    let name = match axis {
        Axis::Year => "year",
        Axis::Zone => "zone",
        Axis::OtherZone => "to zone",
        Axis::Plant => "plant",
        Axis::Fuel => "fuel",
        Axis::Season => "season",
        Axis::Day => "day",
        Axis::Slice => return slice_words(shape, index),
    };
    format!(", {name} {}", index + 1)
}

/// A slice by its season, day and hour.
fn slice_words(shape: &Shape, slice: usize) -> String {
    format!(
        ", season {}, day {}, hour {}",
        shape.season_of(slice) + 1,
        shape.day_of(slice) + 1,
        shape.hour_of(slice) + 1
    )
}

// Rows

/// The model of data that passed its tests: a refusal of a row or a column comes
/// after those of the data.
fn model(read: &Input) -> Model<'_> {
    Model::read(&read.data).expect("data that passed")
}

/// A row's number, equation and name, and indices.
fn row_words(model: &Model, number: usize) -> String {
    let (family, indices) = model.rows.locate(number).expect("a row number");
    let family = &FAMILIES[family - 1];
    let place = place_words(&model.data.shape, family.axes, &indices);
    format!("row {number}, {}{place}", family_words(family))
}

/// A family by its equation and name; by its name alone where it has no number.
fn family_words(family: &Family) -> String {
    match family.equation {
        NO_NUMBER => family.name.to_string(),
        equation => format!("equation ({equation}) {}", family.name),
    }
}

/// A row and what its terms come to by sign.
fn row_and_sums(read: &Input, number: usize) -> String {
    let model = model(read);
    let sums = row_value(&model.row(number), read.scale(), &read.plan);
    format!(
        "{}: its positive terms come to {}, its negative terms to {}",
        row_words(&model, number),
        amount(sums.positive),
        amount(sums.negative)
    )
}

fn row_off_scale(read: &Input, number: usize) -> String {
    let row = row_and_sums(read, number);
    format!("{row}, and neither may be more than 2^62 - 1")
}

fn broken(read: &Input, number: usize) -> String {
    let row = row_and_sums(read, number);
    match model(read).row(number).equality {
        true => format!("{row}, and the two must be equal"),
        false => format!("{row}, and the first must not be less"),
    }
}

fn multiplier_out_of_range(read: &Input, number: usize) -> String {
    let model = model(read);
    let least = match model.row(number).equality {
        true => "-2^40",
        false => "0",
    };
    format!(
        "{}: it is {} and must be from {least} to 2^40",
        row_words(&model, number),
        read.multipliers[number]
    )
}

// Columns

/// A column's number, table and indices.
fn column_words(model: &Model, number: usize) -> String {
    let (column, indices) = model.columns.locate(number).expect("a column number");
    let entry = &COLUMNS[column as usize];
    let place = place_words(&model.data.shape, entry.axes, &indices);
    format!("column {number}, {}{place}", entry.name)
}

/// A column with its terms and its price in words.
fn priced(model: &Model, number: usize, load: SignedSum) -> String {
    format!(
        "{}: its terms m*a come to {} above zero and {} below, its price is {}",
        column_words(model, number),
        amount(load.positive),
        amount(load.negative),
        amount(model.price(number).unsigned_abs())
    )
}

fn column_off_scale(read: &Input, number: usize) -> String {
    let model = model(read);
    let load = column_loads(&model, &read.multipliers)[number];
    format!(
        "{}, and neither sum of terms may be more than 2^62 - 1",
        priced(&model, number, load)
    )
}

fn underpriced(read: &Input, number: usize) -> String {
    let model = model(read);
    let load = column_loads(&model, &read.multipliers)[number];
    format!(
        "{}, so it is underpriced by {}",
        priced(&model, number, load),
        load.value() - model.price(number)
    )
}

// Entries of the data

fn count_out_of_range(read: &Input, index: usize) -> String {
    let (name, most) = COUNTS[index];
    let range = range(read.data[index], 1, most);
    format!("entry {index} of DATA, the number of {name}{range}")
}

fn entry_out_of_range(read: &Input, index: usize) -> String {
    let data = Data::laid_out(&read.data).expect("a length that passed");
    let (table, indices) = data.locate(index).expect("an entry past the counts");
    let entry = &TABLES[table as usize];
    let place = place_words(&data.shape, entry.axes, &indices);
    let (least, most) = data.limits(entry, &indices);
    let range = range(read.data[index], least, most);
    format!("entry {index} of DATA, {}{place}{range}", entry.name)
}
