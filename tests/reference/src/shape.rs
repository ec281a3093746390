//! The seven counts of document 01, and the index sets they give.

/// Name and largest value of each count, in the order of the data list. The
/// smallest value is 1 throughout.
pub const COUNTS: [(&str, u32); 7] = [
    ("zones", 8),
    ("plants", 32),
    ("fuels", 8),
    ("seasons", 4),
    ("days", 4),
    ("hours", 24),
    ("years", 10),
];

/// The seven counts, all within the ranges of `COUNTS`.
#[derive(Clone, Copy, Debug, PartialEq, Eq)]
pub struct Shape {
    pub zones: usize,
    pub plants: usize,
    pub fuels: usize,
    pub seasons: usize,
    pub days: usize,
    pub hours: usize,
    pub years: usize,
}

/// What one index of a table, column or row runs over.
#[derive(Clone, Copy, Debug, PartialEq, Eq)]
pub enum Axis {
    Year,
    Zone,
    /// The second zone of a pair: z2 in document 01.
    OtherZone,
    Plant,
    Fuel,
    Season,
    Day,
    Slice,
}

impl Axis {
    /// The letter document 01 uses.
    pub fn letter(self) -> &'static str {
        match self {
            Axis::Year => "y",
            Axis::Zone => "z",
            Axis::OtherZone => "z2",
            Axis::Plant => "g",
            Axis::Fuel => "f",
            Axis::Season => "q",
            Axis::Day => "d",
            Axis::Slice => "s",
        }
    }
}

impl Shape {
    pub fn new(counts: [usize; 7]) -> Shape {
        let [zones, plants, fuels, seasons, days, hours, years] = counts;
        Shape {
            zones,
            plants,
            fuels,
            seasons,
            days,
            hours,
            years,
        }
    }

    pub fn counts(&self) -> [usize; 7] {
        [
            self.zones,
            self.plants,
            self.fuels,
            self.seasons,
            self.days,
            self.hours,
            self.years,
        ]
    }

    /// S = Q·D·T.
    pub fn slices(&self) -> usize {
        self.seasons * self.days * self.hours
    }

    /// The q of slice s = (q·D + d)·T + t.
    pub fn season_of(&self, slice: usize) -> usize {
        slice / (self.days * self.hours)
    }

    /// The d of slice s = (q·D + d)·T + t.
    pub fn day_of(&self, slice: usize) -> usize {
        slice / self.hours % self.days
    }

    /// The t of slice s = (q·D + d)·T + t.
    pub fn hour_of(&self, slice: usize) -> usize {
        slice % self.hours
    }

    pub fn slices_of_season(&self, season: usize) -> std::ops::Range<usize> {
        let length = self.days * self.hours;
        season * length..(season + 1) * length
    }

    pub fn count(&self, axis: Axis) -> usize {
        match axis {
            Axis::Year => self.years,
            Axis::Zone | Axis::OtherZone => self.zones,
            Axis::Plant => self.plants,
            Axis::Fuel => self.fuels,
            Axis::Season => self.seasons,
            Axis::Day => self.days,
            Axis::Slice => self.slices(),
        }
    }

    /// How many places an index set has. No index at all is one place.
    pub fn size(&self, axes: &[Axis]) -> usize {
        axes.iter().map(|&axis| self.count(axis)).product()
    }

    /// The place of the indices within their set, the last running fastest.
    pub fn place(&self, axes: &[Axis], indices: &[usize]) -> usize {
        assert_eq!(axes.len(), indices.len(), "one index for each axis");
        let mut place = 0;
        for (&axis, &index) in axes.iter().zip(indices) {
            assert!(index < self.count(axis), "index {index} of {axis:?}");
            place = place * self.count(axis) + index;
        }
        place
    }

    /// The indices at a place: the inverse of `place`.
    pub fn indices(&self, axes: &[Axis], place: usize) -> Vec<usize> {
        let mut indices = vec![0; axes.len()];
        let mut rest = place;
        for (index, &axis) in indices.iter_mut().zip(axes).rev() {
            *index = rest % self.count(axis);
            rest /= self.count(axis);
        }
        indices
    }
}

/// Whether the indices name a pair of zones that is one zone: z = z2.
pub fn is_within_zone(axes: &[Axis], indices: &[usize]) -> bool {
    let index_of = |wanted: Axis| {
        let place = axes.iter().position(|&axis| axis == wanted)?;
        Some(indices[place])
    };
    match (index_of(Axis::Zone), index_of(Axis::OtherZone)) {
        (Some(zone), Some(other)) => zone == other,
        _ => false,
    }
}

/// A table's, column's or row's place in words, such as `gen[y 0, g 1, s 5]`.
pub fn describe(name: &str, axes: &[Axis], indices: &[usize]) -> String {
    let parts: Vec<String> = axes
        .iter()
        .zip(indices)
        .map(|(axis, index)| format!("{} {}", axis.letter(), index))
        .collect();
    if parts.is_empty() {
        name.to_string()
    } else {
        format!("{}[{}]", name, parts.join(", "))
    }
}
