//! Whom to ask for what: one question at a time to each peer, and no need of two peers at once. Who sends junk is let go
//! for a while.

use crate::request::{MOST_NEEDS, Question};
use highway::Need;
use std::collections::{BTreeMap, HashMap, HashSet};
use std::time::{Duration, Instant};

/// An answer is waited for so long.
const PATIENCE: Duration = Duration::from_secs(2);

/// Between two comparisons with one peer, and between two tries at one that isn't connected. Of more peers than so many
/// each is compared with less often, so that comparisons cost a node no more.
const OFTEN: usize = 8;
const COMPARE: Duration = Duration::from_secs(2);
const RETRY: Duration = Duration::from_millis(250);

/// So much junk, and a peer is let go for so long.
const MOST_JUNK: u32 = 16;
const AWAY: Duration = Duration::from_secs(60);

/// So many bytes of answers a peer has in a second.
const ANSWERED: u64 = 8 << 20;

/// A question that a peer hasn't answered.
#[derive(Debug)]
struct Open {
    number: u64,
    until: Instant,
    needs: Vec<Need>,
}

#[derive(Debug)]
struct Peer {
    open: Option<Open>,
    compare_at: Instant,
    is_compared: bool,
    is_answering: bool,
    junk: u32,
    away_until: Option<Instant>,
    served_until: Instant,
}

/// A need that is asked for.
#[derive(Debug)]
struct Wanted {
    tries: usize,
    asked_of: Option<u32>,
    not_before: Instant,
}

/// How a peer is, for whoever looks.
#[derive(Clone, Copy, Debug, serde::Serialize)]
pub struct PeerState {
    pub validator: u32,
    pub is_answering: bool,
    pub is_away: bool,
    pub junk: u32,
}

#[derive(Debug)]
pub struct Peers {
    peers: BTreeMap<u32, Peer>,
    wanted: HashMap<Need, Wanted>,
    /// Who last sent something that waits: he has what it needs.
    source: Option<u32>,
    /// Whether the last difference had more. Then peers are compared with one after the other, part by part, so that no
    /// part comes from two, and none of them can hold the others up.
    is_behind: bool,
    /// Between two comparisons with one peer.
    compare: Duration,
    number: u64,
}

impl Peers {
    pub fn new(validators: impl Iterator<Item = u32>, now: Instant) -> Peers {
        let peer = || Peer {
            open: None,
            compare_at: now,
            is_compared: false,
            is_answering: false,
            junk: 0,
            away_until: None,
            served_until: now,
        };
        let peers: BTreeMap<u32, Peer> = validators.map(|validator| (validator, peer())).collect();
        let compare = COMPARE * peers.len().div_ceil(OFTEN).max(1) as u32;
        Peers { peers, wanted: HashMap::new(), source: None, is_behind: false, compare, number: 0 }
    }

    /// The needs that are asked for.
    pub fn wanted(&self) -> HashSet<Need> {
        self.wanted.keys().copied().collect()
    }

    pub fn states(&self) -> Vec<PeerState> {
        let state = |(validator, peer): (&u32, &Peer)| PeerState {
            validator: *validator,
            is_answering: peer.is_answering,
            is_away: peer.away_until.is_some(),
            junk: peer.junk,
        };
        self.peers.iter().map(state).collect()
    }

    /// The peers that this node hasn't compared its units with since its start.
    pub fn not_compared(&self) -> Vec<u32> {
        self.peers.iter().filter(|(_, peer)| !peer.is_compared).map(|(validator, _)| *validator).collect()
    }

    pub fn is_away(&self, validator: u32) -> bool {
        self.peers.get(&validator).is_some_and(|peer| peer.away_until.is_some())
    }

    pub fn has_sent_what_waits(&mut self, validator: u32) {
        self.source = Some(validator);
    }

    /// Counts junk. Whether the peer is to be let go now.
    pub fn has_sent_junk(&mut self, validator: u32, now: Instant) -> bool {
        let Some(peer) = self.peers.get_mut(&validator) else { return false };
        peer.junk += 1;
        let is_enough = peer.junk.is_multiple_of(MOST_JUNK) && peer.away_until.is_none();
        if is_enough {
            peer.away_until = Some(now + AWAY);
        }
        is_enough
    }

    /// The peers that were away long enough.
    pub fn returned(&mut self, now: Instant) -> Vec<u32> {
        let mut back = Vec::new();
        for (validator, peer) in &mut self.peers {
            if peer.away_until.is_some_and(|until| until <= now) {
                peer.away_until = None;
                back.push(*validator);
            }
        }
        back
    }

    /// Whether the peer has had less of this node's answers than it may, at this moment.
    pub fn may_be_served(&self, validator: u32, now: Instant) -> bool {
        self.peers.get(&validator).is_some_and(|peer| peer.away_until.is_none() && peer.served_until <= now)
    }

    pub fn was_served(&mut self, validator: u32, bytes: usize, now: Instant) {
        if let Some(peer) = self.peers.get_mut(&validator) {
            let cost = Duration::from_micros(bytes as u64 * 1_000_000 / ANSWERED) + Duration::from_millis(1);
            peer.served_until = now + cost;
        }
    }

    /// What parked units miss now. What is no longer among it is met.
    pub fn want(&mut self, unmet: &[Need], now: Instant) {
        let unmet: HashSet<Need> = unmet.iter().copied().collect();
        self.wanted.retain(|need, _| unmet.contains(need));
        for need in unmet {
            self.wanted.entry(need).or_insert(Wanted { tries: 0, asked_of: None, not_before: now });
        }
    }

    /// An answer of that number came, which has more of a difference, or hasn't. Whether it was asked for.
    pub fn answered(&mut self, validator: u32, number: u64, has_more: bool, now: Instant) -> bool {
        let Some(peer) = self.peers.get_mut(&validator) else { return false };
        let Some(open) = peer.open.take_if(|open| open.number == number) else { return false };
        peer.is_answering = true;
        if open.needs.is_empty() {
            peer.is_compared |= !has_more;
            peer.compare_at = if has_more { now } else { now + self.compare };
            self.is_behind = has_more;
        }
        self.release(&open.needs, now);
        true
    }

    /// Needs that were asked for in vain may be asked of another peer. After a whole turn around it waits a little.
    fn release(&mut self, needs: &[Need], now: Instant) {
        let peers = self.peers.len().max(1);
        for need in needs {
            if let Some(wanted) = self.wanted.get_mut(need) {
                wanted.asked_of = None;
                wanted.tries += 1;
                let rounds = (wanted.tries / peers).min(10) as u32;
                wanted.not_before = now + Duration::from_millis(100) * rounds;
            }
        }
    }

    /// Gives up on questions that weren't answered in time.
    fn expire(&mut self, now: Instant) {
        let mut needs = Vec::new();
        for peer in self.peers.values_mut() {
            if let Some(open) = peer.open.take_if(|open| open.until <= now) {
                peer.is_answering = false;
                peer.compare_at = peer.compare_at.max(now);
                needs.extend(open.needs);
            }
        }
        self.release(&needs, now);
    }

    /// Whom a need is asked of: first who sent what waits for it, then one after the other.
    fn candidate(&self, wanted: &Wanted, order: &[u32]) -> Option<u32> {
        let first = self.source.and_then(|source| order.iter().position(|one| *one == source)).unwrap_or(0);
        order.get((first + wanted.tries) % order.len().max(1)).copied()
    }

    /// The peers to compare with now: all that are due, or while this node is far behind, the one that is due longest.
    fn to_compare(&self, order: &[u32], now: Instant) -> Vec<u32> {
        let at = |validator: &u32| self.peers.get(validator).map(|peer| peer.compare_at);
        let mut due: Vec<u32> = order.iter().copied().filter(|one| at(one).is_some_and(|at| at <= now)).collect();
        due.sort_by_key(at);
        if self.is_behind {
            let is_comparing = |peer: &Peer| peer.open.as_ref().is_some_and(|open| open.needs.is_empty());
            due.truncate(if self.peers.values().any(is_comparing) { 0 } else { 1 });
        }
        due
    }

    /// What to ask of whom at this moment: to each at most one question, and needs before
    /// comparisons unless this node is far behind.
    pub fn questions(&mut self, now: Instant, compare: impl Fn() -> Question) -> Vec<(u32, u64, Question)> {
        self.expire(now);
        let free = |peer: &Peer| peer.open.is_none() && peer.away_until.is_none();
        let order: Vec<u32> = self.peers.iter().filter(|(_, peer)| free(peer)).map(|(one, _)| *one).collect();
        let mut needs: BTreeMap<u32, Vec<Need>> = BTreeMap::new();
        for (need, wanted) in &self.wanted {
            let is_free = wanted.asked_of.is_none() && wanted.not_before <= now;
            if let Some(validator) = self.candidate(wanted, &order).filter(|_| is_free) {
                needs.entry(validator).or_default().push(*need);
            }
        }
        let compared = self.to_compare(&order, now);
        let mut questions = Vec::new();
        for validator in order {
            let due = compared.contains(&validator);
            let question = match needs.remove(&validator) {
                _ if due && self.is_behind => compare(),
                Some(mut needs) => {
                    needs.truncate(MOST_NEEDS);
                    Question::Needs(needs)
                }
                None if due => compare(),
                None => continue,
            };
            self.number += 1;
            questions.push((validator, self.number, question));
        }
        questions
    }

    /// A question went out, or the peer isn't connected.
    pub fn asked(&mut self, validator: u32, number: u64, question: Question, is_sent: bool, now: Instant) {
        let needs = if let Question::Needs(needs) = question { needs } else { Vec::new() };
        if !is_sent {
            self.release(&needs, now);
        }
        let Some(peer) = self.peers.get_mut(&validator) else { return };
        if !is_sent {
            peer.is_answering = false;
            peer.compare_at = now + RETRY;
            return;
        }
        for need in &needs {
            if let Some(wanted) = self.wanted.get_mut(need) {
                wanted.asked_of = Some(validator);
            }
        }
        peer.open = Some(Open { number, until: now + PATIENCE, needs });
    }
}

#[cfg(test)]
mod tests {
    use super::*;
    use highway::Digest;

    fn need(byte: u8) -> Need {
        Need::Unit(Digest([byte; 32]))
    }

    fn compare() -> Question {
        Question::Difference(Vec::new())
    }

    /// Asks what is due, and answers whom what was asked of.
    fn turn(peers: &mut Peers, now: Instant) -> Vec<(u32, u64, Question)> {
        let questions = peers.questions(now, compare);
        for (validator, number, question) in questions.clone() {
            peers.asked(validator, number, question, true, now);
        }
        questions
    }

    #[test]
    fn nobody_is_asked_twice_and_another_after_silence() {
        let now = Instant::now();
        let mut peers = Peers::new([1, 2].into_iter(), now);
        peers.has_sent_what_waits(2);
        peers.want(&[need(7)], now);
        let asked = turn(&mut peers, now);
        assert_eq!(asked.iter().find(|one| one.0 == 2).map(|one| &one.2), Some(&Question::Needs(vec![need(7)])));
        assert!(asked.iter().any(|one| one.0 == 1 && one.2 == compare()));
        assert!(turn(&mut peers, now).is_empty());
        let later = turn(&mut peers, now + PATIENCE);
        assert!(later.iter().any(|one| one.0 == 1 && one.2 == Question::Needs(vec![need(7)])));
    }

    #[test]
    fn a_peer_is_compared_when_its_answer_is_the_last() {
        let now = Instant::now();
        let mut peers = Peers::new([1].into_iter(), now);
        let number = turn(&mut peers, now)[0].1;
        assert!(!peers.answered(1, number + 1, false, now));
        assert!(peers.answered(1, number, true, now));
        assert_eq!(peers.not_compared(), [1]);
        let number = turn(&mut peers, now)[0].1;
        assert!(peers.answered(1, number, false, now));
        assert!(peers.not_compared().is_empty());
    }

    #[test]
    fn a_long_difference_comes_part_by_part() {
        let now = Instant::now();
        let later = now + Duration::from_millis(1);
        let mut peers = Peers::new([1, 2].into_iter(), now);
        for (validator, number, _) in turn(&mut peers, now) {
            assert!(peers.answered(validator, number, true, if validator == 1 { later } else { now }));
        }
        let asked = turn(&mut peers, later);
        assert_eq!(asked.iter().map(|one| one.0).collect::<Vec<_>>(), [2]);
        assert!(turn(&mut peers, later).is_empty());
        assert!(peers.answered(2, asked[0].1, true, later + PATIENCE / 2));
        assert_eq!(turn(&mut peers, later + PATIENCE / 2).iter().map(|one| one.0).collect::<Vec<_>>(), [1]);
    }

    #[test]
    fn junk_is_counted_and_its_sender_returns() {
        let now = Instant::now();
        let mut peers = Peers::new([1].into_iter(), now);
        assert_eq!((0..MOST_JUNK).filter(|_| peers.has_sent_junk(1, now)).count(), 1);
        assert!(peers.is_away(1) && turn(&mut peers, now).is_empty() && !peers.may_be_served(1, now));
        assert_eq!(peers.returned(now + AWAY), [1]);
        assert!(!peers.is_away(1));
    }
}
