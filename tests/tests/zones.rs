//! docs/RULES.md, "Marks and zones": the zones of lent marks.

use sight_tests::bare;
use sight_tests::lent;
use sight_tests::random::Random;
use sight_tests::reference::marks::{runs, zones};
use sight_tests::reference::Answer;

/// The last bit that zones are asked for.
const LAST_BIT: u32 = 6;

/// The program writes zones into `places` numbers just as the second calculation does, and the rest stays.
fn compare(random: &mut Random, marks: &[u8], bit: u32, places: usize) -> (Answer, Vec<u32>) {
    let proved = |list: &mut [u32]| bare(exports::zones(marks, bit, list));
    let second = |list: &mut [u32]| zones(marks, bit, list);
    lent::compare(&random.list(places, |bits| bits as u32), proved, second, format_args!("bit {bit}, {marks:02X?}"))
}

/// Compares in lists that are longer, just long enough, a number too short and empty. Answers the zones.
fn compare_all(random: &mut Random, marks: &[u8], bit: u32) -> Vec<[u32; 2]> {
    let many = runs(marks, bit).len();
    let more = random.within(1..=3) as usize;
    assert_eq!(compare(random, marks, bit, 2 * many + more).0, Ok(many as u32));
    if many > 0 {
        assert_eq!(compare(random, marks, bit, 2 * many - 1).0, Err(23));
        assert_eq!(compare(random, marks, bit, 0).0, Err(23));
    }
    let (answer, ends) = compare(random, marks, bit, 2 * many);
    assert_eq!(answer, Ok(many as u32));
    ends.chunks_exact(2).map(|zone| [zone[0], zone[1]]).collect()
}

/// The stations of the zones are just those with the bit, and between two zones there is one without it.
#[test]
fn random_marks() {
    let mut random = Random::new(25);
    let (mut found, mut long) = (0, 0);
    for round in 0..2_000 {
        let many = random.within(1..=60) as usize;
        let (marks, others) = (random.list(many, |bits| bits as u8), random.list(many, |bits| bits as u8));
        // In every second list a bit is seldom set, and in the others it is seldom missing.
        let joined = |(mark, other): (&u8, &u8)| if round % 2 == 0 { mark & other } else { mark | other };
        let marks: Vec<u8> = marks.iter().zip(&others).map(joined).collect();
        for bit in 0..=LAST_BIT {
            let zones = compare_all(&mut random, &marks, bit);
            for (station, mark) in (0..).zip(&marks) {
                let within = zones.iter().filter(|[first, last]| (*first..=*last).contains(&station)).count();
                assert_eq!(within, usize::from(mark >> bit & 1), "bit {bit}, station {station}, {marks:02X?}");
            }
            assert!(zones.windows(2).all(|pair| pair[0][1] + 1 < pair[1][0]), "bit {bit}, {marks:02X?}");
            found += zones.len();
            long += zones.iter().filter(|[first, last]| last - first > 9).count();
        }
    }
    assert!(found > 10_000 && long > 1_000, "{found} zones, {long} of them over more than 10 stations");
}

#[test]
fn longest_list() {
    let mut random = Random::new(34);
    for bit in 0..=LAST_BIT {
        let with = 1 << bit;
        assert_eq!(compare_all(&mut random, &[with; 100_001], bit), [[0, 100_000]]);
        assert_eq!(compare_all(&mut random, &[!with; 100_001], bit), [[0; 2]; 0]);
        let every_other: Vec<u8> = (0..100_001).map(|station| if station % 2 == 0 { with } else { !with }).collect();
        assert_eq!(compare_all(&mut random, &every_other, bit).len(), 50_001);
    }
    assert_eq!(exports::MOST_ENDS, 2 * 50_001);
}

/// Zones about stations that two bytes do not hold, up to the very last: each end is the station itself.
#[test]
fn zones_far_out() {
    let mut random = Random::new(33);
    for bit in 0..=LAST_BIT {
        let zones = [[0, 0], [7_999, 8_001], [65_533, 65_534], [65_536, 65_537], [65_836, 66_000], [99_998, 100_000]];
        let mut marks = vec![0; 100_001];
        for [first, last] in zones.map(|zone| zone.map(|station: u32| station as usize)) {
            marks[first..=last].fill(1 << bit);
        }
        assert_eq!(compare_all(&mut random, &marks, bit), zones, "bit {bit}");
        // From 65,535 on, and the last station alone.
        marks[65_535] = 0xFF;
        marks[99_999] = 0;
        let joined = [[0, 0], [7_999, 8_001], [65_533, 65_537], [65_836, 66_000], [99_998, 99_998], [100_000; 2]];
        assert_eq!(compare_all(&mut random, &marks, bit), joined, "bit {bit}");
    }
}

/// Long random lists: the zones are the runs of the marks, and most of them lie behind station 8,000.
#[test]
fn random_long_lists() {
    let mut random = Random::new(32);
    let mut far = 0;
    for _ in 0..20 {
        let stations = random.within(8_002..=100_001) as usize;
        let marks = random.list(stations, |bits| bits as u8);
        let bit = random.within(0..=LAST_BIT);
        far += compare_all(&mut random, &marks, bit).iter().filter(|zone| zone[0] > 65_535).count();
    }
    assert!(far > 20_000, "{far} zones behind 65,535");
}

#[test]
fn refusals_at_each_edge() {
    let mut random = Random::new(35);
    for bit in 0..=LAST_BIT {
        assert_eq!(compare(&mut random, &[0xFF; 20], bit, 2).0, Ok(1), "bit {bit}");
    }
    for bit in [7, 8, 32, 256, 65_536, u32::MAX] {
        assert_eq!(compare(&mut random, &[0xFF; 20], bit, 2).0, Err(22), "bit {bit}");
    }
    for (stations, answer) in [(0, Err(19)), (1, Ok(1)), (8_002, Ok(1)), (100_001, Ok(1)), (100_002, Err(19))] {
        assert_eq!(compare(&mut random, &vec![0xFF; stations], 0, 2).0, answer, "{stations} stations");
    }
    for (places, answer) in [(0, Err(23)), (2, Err(23)), (3, Err(23)), (4, Ok(2)), (5, Ok(2))] {
        assert_eq!(compare(&mut random, &[1, 0, 1], 0, places).0, answer, "{places} places");
    }
    assert_eq!(compare(&mut random, &[1, 0, 1], 1, 0).0, Ok(0));
}

/// With more than one fault the first of 22, 19, 23 decides.
#[test]
fn refusals_in_order() {
    let mut random = Random::new(36);
    for (bit, stations, places, answer) in [
        (7, 100_002, 1, Err(22)),
        (7, 100_002, 2, Err(22)),
        (7, 0, 0, Err(22)),
        (7, 20, 1, Err(22)),
        (0, 100_002, 1, Err(19)),
        (0, 0, 0, Err(19)),
        (0, 20, 1, Err(23)),
    ] {
        let marks = vec![0xFF; stations];
        assert_eq!(compare(&mut random, &marks, bit, places).0, answer, "bit {bit}, {stations} stations");
    }
}
