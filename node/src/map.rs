//! A map of validators by rounds: what each made of each of the last rounds.

use highway::{Digest, Unit};
use serde::Serialize;
use std::collections::BTreeMap;

/// So many rounds are on it.
const MOST_ROUNDS: usize = 48;

#[derive(Clone, Debug, Default)]
struct Cell {
    units: u32,
    is_late: bool,
    has_twin: bool,
}

/// One round: a letter for each validator.
#[derive(Clone, Debug, PartialEq, Eq, Serialize)]
pub struct Row {
    round: u64,
    cells: String,
}

#[derive(Debug, Default)]
pub struct Map {
    rounds: BTreeMap<u64, BTreeMap<u32, Cell>>,
    /// The round and the name of each unit on the map, by its creator and its number.
    units: BTreeMap<(u32, u64), (u64, Digest)>,
}

impl Map {
    /// Notes a unit that came at this moment.
    pub fn note(&mut self, unit: &Unit, now: u64) {
        let end = unit.round.saturating_add(1 << unit.exponent.min(62));
        let first = *self.units.entry((unit.creator, unit.seq)).or_insert((unit.round, unit.digest));
        let cell = self.rounds.entry(unit.round).or_default().entry(unit.creator).or_default();
        cell.units += 1;
        cell.is_late |= now > end;
        if first.1 != unit.digest {
            cell.has_twin = true;
            if let Some(other) = self.rounds.get_mut(&first.0).and_then(|cells| cells.get_mut(&unit.creator)) {
                other.has_twin = true;
            }
        }
        while self.rounds.len() > MOST_ROUNDS {
            self.rounds.pop_first();
        }
        let oldest = self.rounds.keys().next().copied().unwrap_or(0);
        self.units.retain(|_, (round, _)| *round >= oldest);
    }

    /// A letter for each validator: `b` made both units, `o` one, `.` none; `l` was late, and `e` equivocated.
    pub fn rows(&self, validators: usize) -> Vec<Row> {
        let letter = |cell: Option<&Cell>| match cell {
            None => '.',
            Some(cell) if cell.has_twin => 'e',
            Some(cell) if cell.is_late => 'l',
            Some(cell) if cell.units > 1 => 'b',
            Some(_) => 'o',
        };
        let row = |(round, cells): (&u64, &BTreeMap<u32, Cell>)| Row {
            round: *round,
            cells: (0..validators as u32).map(|validator| letter(cells.get(&validator))).collect(),
        };
        self.rounds.iter().map(row).collect()
    }
}

#[cfg(test)]
mod tests {
    use super::*;
    use highway::UnitState;

    fn unit(creator: u32, seq: u64, round: u64, name: u8) -> Unit {
        Unit {
            digest: Digest([name; 32]),
            creator,
            seq,
            time: round,
            exponent: 4,
            round,
            leader: 0,
            value: None,
            panorama: Vec::new(),
            endorsed: 0,
            state: UnitState::Unknown,
        }
    }

    #[test]
    fn each_kind_has_its_letter() {
        let mut map = Map::default();
        for (creator, seq, name, now) in [(0, 0, 1, 16), (0, 1, 2, 20), (1, 0, 3, 17), (2, 0, 4, 33), (4, 0, 5, 17)] {
            map.note(&unit(creator, seq, 16, name), now);
        }
        assert_eq!(map.rows(5), [Row { round: 16, cells: "bol.o".to_owned() }]);
        map.note(&unit(4, 0, 32, 6), 33);
        let cells: Vec<String> = map.rows(5).into_iter().map(|row| row.cells).collect();
        assert_eq!(cells, ["bol.e", "....e"]);
    }

    #[test]
    fn old_rounds_leave_it() {
        let mut map = Map::default();
        for seq in 0..100 {
            map.note(&unit(0, seq, 16 * seq, 1), 0);
        }
        assert_eq!((map.rows(1).len(), map.units.len()), (MOST_ROUNDS, MOST_ROUNDS));
        assert_eq!(map.rows(1)[0].round, 16 * 52);
    }
}
