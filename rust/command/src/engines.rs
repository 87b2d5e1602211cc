//! The two engines of sight: what each sees from the stations that are asked for, and whether they agree.

use std::iter::StepBy;
use std::ops::RangeInclusive;

use exports::{Direction, Look, Refusal};

use crate::trouble::Trouble;

/// The stations that are asked for, one or more.
pub type Stations = StepBy<RangeInclusive<usize>>;

/// The quick engine's sights from these stations in a direction, out of those from all.
pub fn quick(heights: &[i32], direction: Direction, look: Look, stations: Stations) -> Result<Vec<u32>, Refusal> {
    let mut sights = vec![0; heights.len()];
    exports::sight_profile(heights, direction, look, &mut sights)?;
    Ok(stations.map(|station| sights[station].into()).collect())
}

/// The slow engine's. It is asked for no other station: those of a whole road may take it minutes.
pub fn slow(heights: &[i32], direction: Direction, look: Look, stations: Stations) -> Result<Vec<u32>, Refusal> {
    stations.map(|station| exports::slow_sight(heights, direction, station as u32, look)).collect()
}

/// What the quick and the slow engine see from a station.
pub struct Seen {
    pub station: usize,
    pub quick: u32,
    pub slow: u32,
}

/// The same from each of these stations. The first refusal of either engine is that of both.
pub fn both(heights: &[i32], direction: Direction, look: Look, stations: Stations) -> Result<Vec<Seen>, Refusal> {
    let quick = quick(heights, direction, look, stations.clone())?;
    let slow = slow(heights, direction, look, stations.clone())?;
    let sights = quick.into_iter().zip(slow);
    Ok(stations.zip(sights).map(|(station, (quick, slow))| Seen { station, quick, slow }).collect())
}

/// That both engines agree on a file, in words. Where they do not it fails: that is ruled out by their proofs, and looked at all
/// the same.
pub fn agreement(name: &str, seen: &[Seen]) -> Result<String, Trouble> {
    let differing: Vec<&Seen> = seen.iter().filter(|seen| seen.quick != seen.slow).collect();
    if let [Seen { station, quick, slow }, ..] = differing[..] {
        return Err(Trouble::Failed(vec![
            format!("{name}: the engines differ at station {station}: quick {quick} m, slow {slow} m"),
            format!("{name}: {}", picture::differing(differing.len() as u32, seen.len() as u32)),
        ]));
    }
    let (many, first, last) = (seen.len(), seen[0].station, seen[seen.len() - 1].station);
    let stations = match many {
        1 => format!("station {first}"),
        _ => format!("all {many} stations from {first} to {last}"),
    };
    Ok(format!("{name}: both engines agree at {stations}"))
}

#[cfg(test)]
mod tests {
    use super::*;

    /// What is seen from station 190 on, of the quick and of the slow engine.
    fn seen(quick: &[u32], slow: &[u32]) -> Vec<Seen> {
        let sights = quick.iter().zip(slow);
        (190..).zip(sights).map(|(station, (&quick, &slow))| Seen { station, quick, slow }).collect()
    }

    #[test]
    fn engines_that_agree() {
        let agreed = |sights: &[u32]| agreement("a.vcp", &seen(sights, sights)).expect("they agree");
        assert_eq!(agreed(&[7, 0, 7]), "a.vcp: both engines agree at all 3 stations from 190 to 192");
        assert_eq!(agreed(&[7, 7]), "a.vcp: both engines agree at all 2 stations from 190 to 191");
        assert_eq!(agreed(&[0]), "a.vcp: both engines agree at station 190");
    }

    /// One more or one less, at the first station, at the last or between: it is a failure, and the first of them is named.
    #[test]
    fn engines_that_differ() {
        for (quick, slow, first, many) in [
            (&[7, 6, 5, 4], &[8, 6, 5, 4], "190: quick 7 m, slow 8 m", "1 of 4 stations differs"),
            (&[7, 6, 5, 4], &[7, 6, 5, 3], "193: quick 4 m, slow 3 m", "1 of 4 stations differs"),
            (&[7, 6, 5, 4], &[7, 0, 9, 4], "191: quick 6 m, slow 0 m", "2 of 4 stations differ"),
            (&[7, 6, 5, 4], &[4, 5, 6, 7], "190: quick 7 m, slow 4 m", "4 of 4 stations differ"),
        ] {
            let trouble = agreement("a.vcp", &seen(quick, slow)).expect_err("they differ");
            let first = format!("a.vcp: the engines differ at station {first}");
            assert_eq!((trouble.status(), trouble.lines()), (2, &[first, format!("a.vcp: {many}")][..]));
        }
        let trouble = agreement("a.vcp", &seen(&[7], &[8])).expect_err("they differ");
        assert_eq!(trouble.lines()[1], "a.vcp: 1 of 1 stations differs");
    }
}
