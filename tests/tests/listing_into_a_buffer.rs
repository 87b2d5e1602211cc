//! The listing in a lent buffer: just long enough, longer, a byte too short and empty.

use sight_tests::bare;
use sight_tests::lent;
use sight_tests::random::Random;
use sight_tests::reference::file::{bytes, read_short};
use sight_tests::reference::listing::listing;
use sight_tests::roads::{self, REFUSALS};

/// Compares the listing in a buffer of so many bytes with the text of the second calculation. It is refused 14 where that does
/// not fit.
fn compare(random: &mut Random, file: &[u8], text: &str, places: usize) {
    let second = |buffer: &mut [u8]| {
        let place = buffer.get_mut(..text.len()).ok_or(14_u32)?;
        place.copy_from_slice(text.as_bytes());
        Ok(text.len() as u32)
    };
    let proved = |buffer: &mut [u8]| bare(exports::list_road_file(file, buffer));
    let _ = lent::compare(&random.list(places, |bits| bits as u8), proved, second, format_args!("{file:02X?}"));
}

/// Compares in buffers that are just long enough, longer, a byte too short and empty. Answers the text.
fn compare_all(random: &mut Random, file: &[u8]) -> String {
    let text = listing(file);
    let more = random.within(1..=40) as usize;
    for places in [text.len(), text.len() + more, text.len() - 1, 0] {
        compare(random, file, &text, places);
    }
    text
}

#[test]
fn random_files() {
    let mut random = Random::new(45);
    let mut accepted = 0;
    for round in 0..500 {
        let room = random.within(2..=100);
        let file = match round % 4 {
            0 => {
                let refusal = random.one_of(&REFUSALS);
                roads::faulty_file(&mut random, &[refusal])
            }
            1 => bytes(&roads::breaks(&mut random, room)),
            _ => {
                let mut road = roads::run_of_crests(&mut random, room);
                road.speed = random.one_of(&[20, 25, 30]);
                bytes(&road)
            }
        };
        accepted += u32::from(read_short(&file).is_ok());
        compare_all(&mut random, &file);
    }
    assert!((300..400).contains(&accepted), "{accepted} of 500 accepted");
}

/// Roads over 8,000 m, good ones and with faults.
#[test]
fn roads_that_are_too_long() {
    let mut random = Random::new(48);
    for roads::LongFile { file, short, .. } in roads::long_files(&mut random) {
        assert_eq!(compare_all(&mut random, &file), format!("refused {short}\n"), "{file:02X?}");
    }
}
