//! How many units of one validator a node takes that don't settle, so that one key can't fill the journal.
//!
//! Honest validators make no unit that breaks a rule of the units below it, and few that wait. So of a validator that made
//! one of the first kind, or has its share of the second, nothing more is taken but what a unit that waits needs.

use highway::{Digest, Place};

/// What is known of one validator.
#[derive(Clone, Debug, Default)]
struct Share {
    waiting: Vec<Digest>,
    has_broken: bool,
}

#[derive(Debug)]
pub struct Quota {
    shares: Vec<Share>,
    /// So many units of each validator may wait.
    most: usize,
}

impl Quota {
    /// Of so many validators, for whom there is room for so many units that wait.
    pub fn new(validators: usize, room: u32) -> Quota {
        Quota { shares: vec![Share::default(); validators], most: (room as usize / validators.max(1)).max(1) }
    }

    /// Notes where a unit of this validator stands.
    pub fn note(&mut self, creator: u32, unit: Digest, place: Place) {
        let Some(share) = self.shares.get_mut(creator as usize) else { return };
        match place {
            Place::Parked(_) => share.waiting.push(unit),
            Place::Dropped(_) => share.has_broken = true,
            Place::Unknown | Place::Settled(_) => (),
        }
    }

    /// Whether another unit of this validator is taken, by where its units stand now.
    pub fn has_room<E>(&mut self, creator: u32, place: impl Fn(Digest) -> Result<Place, E>) -> Result<bool, E> {
        let Some(share) = self.shares.get_mut(creator as usize) else { return Ok(true) };
        if share.waiting.len() >= self.most {
            let mut waiting = Vec::new();
            for unit in share.waiting.drain(..) {
                match place(unit)? {
                    Place::Parked(_) => waiting.push(unit),
                    Place::Dropped(_) => share.has_broken = true,
                    Place::Unknown | Place::Settled(_) => (),
                }
            }
            share.waiting = waiting;
        }
        Ok(!share.has_broken && share.waiting.len() < self.most)
    }
}

#[cfg(test)]
mod tests {
    use super::*;
    use highway::Rule;

    fn unit(byte: u8) -> Digest {
        Digest([byte; 32])
    }

    #[test]
    fn a_share_is_free_again_once_its_units_settled() {
        let mut quota = Quota::new(2, 4);
        quota.note(0, unit(1), Place::Parked(1));
        assert_eq!(quota.has_room(0, |_| Err(())), Ok(true));
        quota.note(0, unit(2), Place::Parked(1));
        assert_eq!(quota.has_room(0, |_| Ok::<_, ()>(Place::Parked(1))), Ok(false));
        assert_eq!(quota.has_room(1, |_| Err(())), Ok(true));
        assert_eq!(quota.has_room(0, |_| Ok::<_, ()>(Place::Settled(0))), Ok(true));
    }

    #[test]
    fn who_broke_a_rule_has_no_room() {
        let mut quota = Quota::new(1, 4);
        quota.note(0, unit(1), Place::Dropped(Rule::NotLeader));
        assert_eq!(quota.has_room(0, |_| Err(())), Ok(false));
    }
}
