//! Where the units of each validator stand in the journal: by this two nodes compare what they have.

use crate::request::Latest;
use highway::Digest;
use std::collections::BTreeMap;

/// The units of one validator by their numbers. Of two with one number the first that came is here.
#[derive(Debug, Default)]
struct Lane {
    units: BTreeMap<u64, (u64, Digest)>,
    /// So many units follow each other from number 0.
    count: u64,
}

#[derive(Debug)]
pub struct Lanes(Vec<Lane>);

impl Lanes {
    pub fn new(validators: usize) -> Lanes {
        Lanes((0..validators).map(|_| Lane::default()).collect())
    }

    /// Notes the unit at this place of the journal.
    pub fn note(&mut self, creator: u32, number: u64, place: u64, unit: Digest) {
        let Some(lane) = self.0.get_mut(creator as usize) else { return };
        lane.units.entry(number).or_insert((place, unit));
        while lane.units.contains_key(&lane.count) {
            lane.count += 1;
        }
    }

    /// The latest unit of the validator.
    pub fn latest(&self, validator: usize) -> Latest {
        let lane = &self.0[validator];
        let last = lane.count.checked_sub(1).and_then(|number| lane.units.get(&number));
        Latest::Units(lane.count, last.map_or(Digest([0; 32]), |(_, unit)| *unit))
    }

    /// The places of units that a node with those latest units lacks, in the order of the journal: at most so many, and
    /// whether there are more.
    pub fn lacking(&self, asked: &[Latest], most: usize) -> (Vec<u64>, bool) {
        let mut places: Vec<u64> = self.0.iter().zip(asked).flat_map(|(lane, latest)| lane.behind(*latest)).collect();
        places.sort_unstable();
        let has_more = places.len() > most;
        places.truncate(most);
        (places, has_more)
    }
}

impl Lane {
    /// The places behind a latest unit; also that of its number, where another unit has it here.
    fn behind(&self, latest: Latest) -> Vec<u64> {
        let Latest::Units(count, unit) = latest else { return Vec::new() };
        let twin = count.checked_sub(1).and_then(|number| self.units.get(&number)).filter(|(_, here)| *here != unit);
        let behind = self.units.range(count..).map(|(_, (place, _))| *place);
        twin.map(|(place, _)| *place).into_iter().chain(behind).collect()
    }
}

#[cfg(test)]
mod tests {
    use super::*;

    fn unit(byte: u8) -> Digest {
        Digest([byte; 32])
    }

    #[test]
    fn what_is_lacking_comes_in_the_journals_order() {
        let mut lanes = Lanes::new(2);
        for (creator, number, place) in [(0, 0, 0), (1, 0, 1), (0, 1, 2), (1, 1, 3), (1, 3, 4)] {
            lanes.note(creator, number, place, unit(place as u8));
        }
        assert_eq!(lanes.latest(1), Latest::Units(2, unit(3)));
        let asked = [Latest::Units(1, unit(0)), Latest::Units(0, unit(0))];
        assert_eq!(lanes.lacking(&asked, 9), (vec![1, 2, 3, 4], false));
        assert_eq!(lanes.lacking(&asked, 2), (vec![1, 2], true));
    }

    #[test]
    fn a_twin_is_lacking_and_nothing_of_the_faulty() {
        let mut lanes = Lanes::new(2);
        lanes.note(0, 0, 0, unit(1));
        lanes.note(1, 0, 1, unit(2));
        assert_eq!(lanes.lacking(&[Latest::Units(1, unit(9)), Latest::Faulty], 9), (vec![0], false));
    }
}
