//! The numbers of a road file, how its versions lay them out, and how a text has them.

use std::ops::RangeInclusive;

use crate::decimal::{self, quoted};

/// How a version of the road file lays out its numbers. The versions differ in the bytes of a station and in nothing else.
#[derive(Clone, Copy)]
pub struct Layout {
    pub version: i64,
    station_bytes: usize,
}

/// The version of a text that names none.
pub const FIRST_VERSION: i64 = 1;

pub const LAYOUTS: [Layout; 2] =
    [Layout { version: FIRST_VERSION, station_bytes: 2 }, Layout { version: 2, station_bytes: 4 }];

impl Layout {
    /// The one with the most room.
    pub const ROOMIEST: Layout = LAYOUTS[LAYOUTS.len() - 1];

    /// That of a version. Any other version has the one with the most room: the proved reader refuses its file by the version,
    /// whatever stands behind it.
    pub fn of(version: i64) -> Layout {
        LAYOUTS.into_iter().find(|layout| layout.version == version).unwrap_or(Layout::ROOMIEST)
    }
}

/// How many bytes a number has in the file.
#[derive(Clone, Copy)]
enum Width {
    /// So many in each version.
    Bytes(usize),
    /// Those of a station.
    Station,
}

/// A number of the road file: its name and unit in a text, with how many decimals at most, and its bytes in the file, where
/// it is counted in units of the last decimal.
#[derive(Clone, Copy)]
pub struct Field {
    pub name: &'static str,
    unit: &'static str,
    decimals: usize,
    width: Width,
    signed: bool,
}

/// The version, which stands behind the letters of every road file.
pub const VERSION: Field = Field { name: "version", unit: "", decimals: 0, width: Width::Bytes(2), signed: false };

/// The numbers before the curves, in the file's order.
pub const HEAD: [Field; 6] = [
    VERSION,
    Field { name: "speed", unit: "km/h", decimals: 0, width: Width::Bytes(1), signed: false },
    Field { name: "purpose", unit: "", decimals: 0, width: Width::Bytes(1), signed: false },
    Field { name: "length", unit: "m", decimals: 0, width: Width::Station, signed: false },
    Field { name: "start height", unit: "m", decimals: 4, width: Width::Bytes(4), signed: true },
    Field { name: "first grade", unit: "%", decimals: 2, width: Width::Bytes(2), signed: true },
];

/// The numbers of a curve, in the file's order.
pub const CURVE: [Field; 3] = [
    Field { name: "PVI", unit: "m", decimals: 0, width: Width::Station, signed: false },
    Field { name: "curve length", unit: "m", decimals: 0, width: Width::Bytes(2), signed: false },
    Field { name: "grade out", unit: "%", decimals: 2, width: Width::Bytes(2), signed: true },
];

impl Field {
    /// How many bytes it has in a file.
    pub fn bytes(&self, layout: Layout) -> usize {
        match self.width {
            Width::Bytes(bytes) => bytes,
            Width::Station => layout.station_bytes,
        }
    }

    /// How many different numbers its bytes can hold.
    fn many(&self, layout: Layout) -> i64 {
        1 << (8 * self.bytes(layout))
    }

    /// The numbers that its bytes can hold.
    fn range(&self, layout: Layout) -> RangeInclusive<i64> {
        let many = self.many(layout);
        let least = if self.signed { -many / 2 } else { 0 };
        least..=least + many - 1
    }

    /// Its bytes in the file, for a number in its range.
    pub fn file_bytes(&self, number: i64, layout: Layout) -> impl Iterator<Item = u8> {
        number.to_le_bytes().into_iter().take(self.bytes(layout))
    }

    /// The number that its bytes in the file hold.
    pub fn number(&self, bytes: &[u8], layout: Layout) -> i64 {
        let unsigned = bytes.iter().rev().fold(0, |number, &byte| number << 8 | i64::from(byte));
        if self.range(layout).contains(&unsigned) {
            unsigned
        } else {
            unsigned - self.many(layout)
        }
    }

    /// A number as a text has it, with its unit. One that may have decimals has at least two.
    pub fn text(&self, number: i64) -> String {
        format!("{} {}", self.decimal(number), self.unit).trim_end().to_string()
    }

    fn decimal(&self, number: i64) -> String {
        decimal::write(number, self.decimals, 2)
    }

    /// Reads a number with its unit, for a file of this layout; answers what is wrong with it.
    pub fn read(&self, text: &str, layout: Layout) -> Result<i64, String> {
        let (number, unit) = text.split_once(' ').unwrap_or((text, ""));
        let named = |reason: String| format!("{}: {reason}", self.name);
        let number = self.read_decimal(number, layout).map_err(named)?;
        self.check_unit(unit).map_err(named)?;
        Ok(number)
    }

    /// Reads a number exactly, in units of the last decimal.
    fn read_decimal(&self, text: &str, layout: Layout) -> Result<i64, String> {
        let number = decimal::read(text, self.decimals)?;
        if self.range(layout).contains(&number) {
            return Ok(number);
        }
        let (file, room) = (self.file_name(layout), self.range(layout));
        let [least, greatest] = [room.start(), room.end()].map(|&number| self.decimal(number));
        let roomier = LAYOUTS.into_iter().find(|&other| self.range(other).contains(&number));
        let hint = roomier.map_or(String::new(), |other| format!("; one of version {} has more", other.version));
        Err(format!("{} does not fit {file}, which has room for {least} to {greatest}{hint}", quoted(text)))
    }

    /// The file whose room is spoken of: where the versions differ in it, with its version.
    fn file_name(&self, layout: Layout) -> String {
        match self.width {
            Width::Bytes(_) => "the road file".to_string(),
            Width::Station => format!("a road file of version {}", layout.version),
        }
    }

    fn check_unit(&self, unit: &str) -> Result<(), String> {
        match (unit, self.unit) {
            (unit, own) if unit == own => Ok(()),
            ("", own) => Err(format!("the unit {own} is missing")),
            (unit, "") => Err(format!("{} follows a number that has no unit", quoted(unit))),
            (unit, own) => Err(format!("the unit is {own}, not {}", quoted(unit))),
        }
    }
}
