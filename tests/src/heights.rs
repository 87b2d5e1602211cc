//! Lists of heights: those of roads, as the program fills them, and such as no road has.

use crate::random::Random;
use crate::reference::file::bytes;
use crate::reference::road::Road;

/// The heights of an accepted road file.
pub fn of_file(file: &[u8]) -> Vec<i32> {
    let mut heights = vec![0; exports::LONG_STATIONS];
    let stations = exports::file_heights(file, &mut heights).expect("the road is accepted");
    heights.truncate(stations as usize);
    heights
}

/// The heights of an accepted road.
pub fn of_road(road: &Road) -> Vec<i32> {
    of_file(&bytes(road))
}

/// A straight with steps up and down and with short humps close behind each other, which no road's heights have.
pub fn uneven(random: &mut Random, stations: usize) -> Vec<i32> {
    let grade = random.signed_within(-1_500..=1_500);
    let mut ground = random.signed_within(-1_000_000..=1_000_000);
    let mut heights = Vec::new();
    while heights.len() < stations {
        if random.once_in(8) {
            ground += random.signed_within(-15_000..=15_000);
        }
        let hump = if random.once_in(4) { random.of_any_size(30_000) as i32 } else { 0 };
        for _ in 0..random.within(1..=6) {
            ground += grade;
            heights.push(ground + hump);
        }
    }
    heights.truncate(stations);
    heights
}

/// Heights of any value; one of them is the least or the greatest.
pub fn of_any_value(random: &mut Random, stations: usize) -> Vec<i32> {
    let mut heights = random.list(stations, |bits| bits as i32);
    heights[random.within(0..=stations as u32 - 1) as usize] = random.one_of(&[i32::MIN, i32::MAX]);
    heights
}
