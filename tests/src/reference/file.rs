//! docs/RULES.md, "Road file".

use super::distances::required_distance;
use super::road::{heights, marking_grade, verdict, verdict_up_to, Curve, Road};
use super::road::{GREATEST_LONG_ROAD, GREATEST_SHORT_ROAD};
use super::Answer;

/// The layout of a version's file. Version 2 has N and each PVI in four bytes, version 1 in two.
#[derive(Clone, Copy)]
pub struct Layout {
    station: usize,
}

impl Layout {
    /// That of a version, if there is such a version.
    pub fn of(version: u16) -> Option<Layout> {
        match version {
            1 => Some(Layout { station: 2 }),
            2 => Some(Layout { station: 4 }),
            _ => None,
        }
    }

    /// The bytes before the curves: letters 3, version 2, speed 1, purpose 1, N, start height 4, first grade 2 and the number of
    /// curves 1.
    pub fn header(self) -> usize {
        14 + self.station
    }

    /// The bytes of a file with so many curves, each of which has its PVI, length 2 and grade out 2.
    pub fn total(self, curves: usize) -> usize {
        self.header() + (4 + self.station) * curves
    }
}

/// The numbers of a file, one behind the other.
struct Numbers<'a> {
    rest: &'a [u8],
}

impl Numbers<'_> {
    /// The next number, little-endian, of so many bytes.
    fn next(&mut self, bytes: usize) -> u32 {
        let (own, rest) = self.rest.split_at(bytes);
        self.rest = rest;
        own.iter().rev().fold(0, |number, &byte| number << 8 | u32::from(byte))
    }

    /// The next two bytes as a signed number.
    fn next_grade(&mut self) -> i16 {
        self.next(2) as u16 as i16
    }
}

/// The road of a file whose total is right.
fn road_of(file: &[u8], version: u16, layout: Layout) -> Road {
    let mut numbers = Numbers { rest: &file[5..] };
    let mut road = Road {
        version,
        speed: numbers.next(1) as u8,
        purpose: numbers.next(1) as u8,
        length: numbers.next(layout.station),
        start_height: numbers.next(4) as i32,
        first_grade: numbers.next_grade(),
        curves: vec![],
    };
    for _ in 0..numbers.next(1) {
        let (pvi, length) = (numbers.next(layout.station), numbers.next(2) as u16);
        road.curves.push(Curve { pvi, length, grade_out: numbers.next_grade() });
    }
    road
}

/// Reads a file for an operation that takes no road over so many metres.
pub fn read_up_to(most: u32, file: &[u8]) -> Result<Road, u32> {
    if file.len() < 16 {
        return Err(1);
    }
    if file[0..3] != *b"VCP" {
        return Err(2);
    }
    let version = u16::from_le_bytes([file[3], file[4]]);
    let layout = Layout::of(version).ok_or(3_u32)?;
    if file.len() < layout.header() {
        return Err(1);
    }
    let curves = usize::from(file[layout.header() - 1]);
    if curves > 32 {
        return Err(4);
    }
    if file.len() != layout.total(curves) {
        return Err(5);
    }
    let road = road_of(file, version, layout);
    verdict_up_to(most, &road)?;
    Ok(road)
}

pub fn read(file: &[u8]) -> Result<Road, u32> {
    read_up_to(GREATEST_LONG_ROAD, file)
}

/// Reads a file as the lister, the preview and the van's marking do.
pub fn read_short(file: &[u8]) -> Result<Road, u32> {
    read_up_to(GREATEST_SHORT_ROAD, file)
}

/// The bytes of a road of either version, of a faulty one too as long as its numbers fit the file's.
pub fn bytes(road: &Road) -> Vec<u8> {
    let layout = Layout::of(road.version).expect("a file has version 1 or 2");
    let station = |metres: u32| {
        let mut own = metres.to_le_bytes().to_vec();
        let beyond = own.split_off(layout.station);
        assert!(beyond.iter().all(|&byte| byte == 0), "{metres} does not fit the file");
        own
    };
    let mut file = b"VCP".to_vec();
    file.extend(road.version.to_le_bytes());
    file.push(road.speed);
    file.push(road.purpose);
    file.extend(station(road.length));
    file.extend(road.start_height.to_le_bytes());
    file.extend(road.first_grade.to_le_bytes());
    file.push(u8::try_from(road.curves.len()).expect("the number of curves fits a byte"));
    for curve in &road.curves {
        file.extend(station(curve.pvi));
        file.extend(curve.length.to_le_bytes());
        file.extend(curve.grade_out.to_le_bytes());
    }
    file
}

pub fn write(road: &Road, buffer: &mut [u8]) -> Answer {
    verdict(road)?;
    let file = bytes(road);
    if buffer.len() < file.len() {
        return Err(14);
    }
    buffer[..file.len()].copy_from_slice(&file);
    Ok(file.len() as u32)
}

/// Reads a file and writes its road again.
pub fn rewrite(file: &[u8], buffer: &mut [u8]) -> Answer {
    write(&read(file)?, buffer)
}

/// Reads a file and fills the heights of its road.
pub fn file_heights(file: &[u8], list: &mut [i32]) -> Answer {
    heights(&read(file)?, list)
}

/// Reads a file and answers the grade that its road is marked with.
pub fn file_grade(file: &[u8]) -> Result<i32, u32> {
    Ok(marking_grade(&read(file)?))
}

/// Reads a file and answers the distance that its road requires for a purpose.
pub fn file_distance(file: &[u8], purpose: u32) -> Answer {
    let road = read(file)?;
    required_distance(road.speed.into(), purpose, marking_grade(&road))
}

/// Reads a file as the lister does and answers how many stations its road has.
pub fn short_stations(file: &[u8]) -> Answer {
    Ok(read_short(file)?.length + 1)
}
