//! Document 01, "The twenty families", and those that requests append: their
//! order, index sets and equality flags, and the row numbers. The rows themselves
//! are in `model`.

use crate::shape::{describe, Axis, Shape};

/// The equation of a family that document 000 prints without a number.
pub const NO_NUMBER: u32 = 0;

/// One line of the fixed table of families. `number` is the place in the list,
/// `equation` the number in source document 000, or `NO_NUMBER`; family 21 is (42) in a
/// day's first hour and (43) in the others, and has the second.
pub struct Family {
    pub number: usize,
    pub equation: u32,
    pub name: &'static str,
    pub axes: &'static [Axis],
    /// The row holds at 0 alone and its multiplier has both signs.
    pub equality: bool,
}

const YZS: &[Axis] = &[Axis::Year, Axis::Zone, Axis::Slice];
const YZZS: &[Axis] = &[Axis::Year, Axis::Zone, Axis::OtherZone, Axis::Slice];
const YZ: &[Axis] = &[Axis::Year, Axis::Zone];
const YGS: &[Axis] = &[Axis::Year, Axis::Plant, Axis::Slice];
const YGQ: &[Axis] = &[Axis::Year, Axis::Plant, Axis::Season];
const YG: &[Axis] = &[Axis::Year, Axis::Plant];
const G: &[Axis] = &[Axis::Plant];
const YZF: &[Axis] = &[Axis::Year, Axis::Zone, Axis::Fuel];
const ONE: &[Axis] = &[];
const Y: &[Axis] = &[Axis::Year];
const YZZ: &[Axis] = &[Axis::Year, Axis::Zone, Axis::OtherZone];
const ZZ: &[Axis] = &[Axis::Zone, Axis::OtherZone];

impl Family {
    /// The family in words, such as `7 ramp down (24)`.
    pub fn title(&self) -> String {
        let name = format!("{} {}", self.number, self.name);
        match self.equation {
            NO_NUMBER => name,
            equation => format!("{name} ({equation})"),
        }
    }
}

const fn family(
    number: usize,
    equation: u32,
    name: &'static str,
    axes: &'static [Axis],
    equality: bool,
) -> Family {
    Family {
        number,
        equation,
        name,
        axes,
        equality,
    }
}

pub const FAMILY_COUNT: usize = 28;

/// Requests append families at the end.
pub const FAMILIES: [Family; FAMILY_COUNT] = [
    family(1, 14, "demand balance", YZS, true),
    family(2, 15, "transfer limit", YZZS, false),
    family(3, 19, "spinning reserve", YZS, false),
    family(4, 21, "planning reserve", YZ, false),
    family(5, 22, "output and reserve", YGS, false),
    family(6, 23, "reserve offer", YGS, false),
    family(7, 24, "ramp down", YGS, false),
    family(8, 25, "ramp up", YGS, false),
    family(9, 26, "minimum load", YGS, false),
    family(10, 27, "availability", YGQ, false),
    family(11, 28, "VRE profile", YGS, false),
    family(12, 34, "capacity balance", YG, true),
    family(13, 37, "capacity outside its years", YG, false),
    family(14, 61, "build and retirement by kind", YG, false),
    family(15, 55, "new capacity", G, false),
    family(16, 58, "yearly build", YG, false),
    family(17, 62, "fuel", YZF, false),
    family(18, 64, "capital", ONE, false),
    family(19, 66, "zone emissions", YZ, false),
    family(20, 68, "system emissions", Y, false),
    family(21, 43, "battery level", YGS, true),
    family(22, 45, "charge limit", YGS, false),
    family(23, 47, "charge rise", YGS, false),
    family(24, 48, "charge fall", YGS, false),
    family(25, 46, "level limit", YGS, false),
    family(26, NO_NUMBER, "line balance", YZZ, true),
    family(27, NO_NUMBER, "new lines", ZZ, false),
    family(28, NO_NUMBER, "lines both ways", YZZ, true),
];

/// Where each family's rows start.
#[derive(Clone, Debug)]
pub struct RowLayout {
    pub shape: Shape,
    starts: [usize; FAMILY_COUNT],
    count: usize,
}

impl RowLayout {
    pub fn new(shape: Shape) -> RowLayout {
        let mut starts = [0; FAMILY_COUNT];
        let mut next = 0;
        for (start, family) in starts.iter_mut().zip(&FAMILIES) {
            *start = next;
            next += shape.size(family.axes);
        }
        RowLayout {
            shape,
            starts,
            count: next,
        }
    }

    /// The number of rows.
    pub fn count(&self) -> usize {
        self.count
    }

    /// The number of a row. Families count from 1.
    pub fn index(&self, family: usize, indices: &[usize]) -> usize {
        let axes = FAMILIES[family - 1].axes;
        self.starts[family - 1] + self.shape.place(axes, indices)
    }

    /// The numbers of a family's rows.
    pub fn of_family(&self, family: usize) -> std::ops::Range<usize> {
        let start = self.starts[family - 1];
        start..start + self.shape.size(FAMILIES[family - 1].axes)
    }

    /// The family of a row number, from 1.
    pub fn family(&self, number: usize) -> Option<usize> {
        if number >= self.count {
            return None;
        }
        let last = self.starts.iter().rposition(|&start| start <= number)?;
        Some(last + 1)
    }

    /// The family and indices of a row number.
    pub fn locate(&self, number: usize) -> Option<(usize, Vec<usize>)> {
        let family = self.family(number)?;
        let axes = FAMILIES[family - 1].axes;
        let indices = self.shape.indices(axes, number - self.starts[family - 1]);
        Some((family, indices))
    }

    /// A row number in words, such as `7 ramp down (24)[y 0, g 1, s 5]`.
    pub fn name(&self, number: usize) -> String {
        match self.locate(number) {
            Some((family, indices)) => {
                let entry = &FAMILIES[family - 1];
                describe(&entry.title(), entry.axes, &indices)
            }
            None => format!("no row {number}"),
        }
    }
}
