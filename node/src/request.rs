//! What nodes ask each other, and how it is spelled. All numbers are big-endian.

use crate::parcel::Parcel;
use highway::{Digest, Need};

/// No request asks for more needs.
pub const MOST_NEEDS: usize = 64;

/// The latest unit that a node has of a validator.
#[derive(Clone, Copy, Debug, PartialEq, Eq)]
pub enum Latest {
    /// So many units up to this one. With 0 there is none.
    Units(u64, Digest),
    /// The validator is known as faulty.
    Faulty,
}

/// What is asked.
#[derive(Clone, Debug, PartialEq, Eq)]
pub enum Question {
    /// What the asker lacks, by the latest unit of each that it has.
    Difference(Vec<Latest>),
    /// Vertices that meet these needs.
    Needs(Vec<Need>),
}

/// A question with its number, which its answer bears.
#[derive(Clone, Debug, PartialEq, Eq)]
pub struct Request {
    pub number: u64,
    pub question: Question,
}

/// An answer: vertices, and whether there is more of the difference.
#[derive(Clone, Debug, PartialEq, Eq)]
pub struct Answer {
    pub number: u64,
    pub has_more: bool,
    pub parcels: Vec<Parcel>,
}

fn put_latest(bytes: &mut Vec<u8>, latest: Latest) {
    match latest {
        Latest::Units(count, unit) => {
            bytes.push(1);
            bytes.extend(count.to_be_bytes());
            bytes.extend(unit.0);
        }
        Latest::Faulty => bytes.push(2),
    }
}

fn put_need(bytes: &mut Vec<u8>, need: Need) {
    let (kind, body) = match need {
        Need::Unit(unit) => (1, unit.0.to_vec()),
        Need::Evidence(validator) => (2, validator.to_be_bytes().to_vec()),
        Need::Endorsed(unit) => (3, unit.0.to_vec()),
    };
    bytes.push(kind);
    bytes.extend(body);
}

/// Takes that many bytes from the front.
fn take<const N: usize>(bytes: &mut &[u8]) -> Option<[u8; N]> {
    let (first, rest) = bytes.split_first_chunk::<N>()?;
    *bytes = rest;
    Some(*first)
}

fn take_latest(bytes: &mut &[u8]) -> Option<Latest> {
    match take(bytes)? {
        [1] => Some(Latest::Units(u64::from_be_bytes(take(bytes)?), Digest(take(bytes)?))),
        [2] => Some(Latest::Faulty),
        _ => None,
    }
}

fn take_need(bytes: &mut &[u8]) -> Option<Need> {
    match take(bytes)? {
        [1] => Some(Need::Unit(Digest(take(bytes)?))),
        [2] => Some(Need::Evidence(u32::from_be_bytes(take(bytes)?))),
        [3] => Some(Need::Endorsed(Digest(take(bytes)?))),
        _ => None,
    }
}

/// Takes parts up to the end.
fn take_all<T>(mut bytes: &[u8], part: impl Fn(&mut &[u8]) -> Option<T>) -> Option<Vec<T>> {
    let mut parts = Vec::new();
    while !bytes.is_empty() {
        parts.push(part(&mut bytes)?);
    }
    Some(parts)
}

impl Request {
    pub fn to_bytes(&self) -> Vec<u8> {
        let mut bytes = self.number.to_be_bytes().to_vec();
        match &self.question {
            Question::Difference(latest) => {
                bytes.push(1);
                latest.iter().for_each(|one| put_latest(&mut bytes, *one));
            }
            Question::Needs(needs) => {
                bytes.push(2);
                needs.iter().for_each(|need| put_need(&mut bytes, *need));
            }
        }
        bytes
    }

    /// The request of these bytes, in a network of so many validators.
    pub fn read(mut bytes: &[u8], validators: usize) -> Option<Request> {
        let number = u64::from_be_bytes(take(&mut bytes)?);
        let question = match take(&mut bytes)? {
            [1] => Question::Difference(take_all(bytes, take_latest).filter(|all| all.len() == validators)?),
            [2] => Question::Needs(take_all(bytes, take_need).filter(|all| all.len() <= MOST_NEEDS)?),
            _ => return None,
        };
        Some(Request { number, question })
    }
}

impl Answer {
    /// A head, and then a part for each vertex.
    pub fn to_parts(&self) -> Vec<Vec<u8>> {
        let mut head = self.number.to_be_bytes().to_vec();
        head.push(u8::from(self.has_more));
        std::iter::once(head).chain(self.parcels.iter().map(Parcel::to_bytes)).collect()
    }

    pub fn read(parts: &[Vec<u8>]) -> Option<Answer> {
        let (head, rest) = parts.split_first()?;
        let mut head = head.as_slice();
        let (number, [more]) = (u64::from_be_bytes(take(&mut head)?), take(&mut head)?);
        let parcels = rest.iter().map(|part| Parcel::read(part)).collect::<Option<_>>()?;
        (head.is_empty() && more < 2).then_some(Answer { number, has_more: more == 1, parcels })
    }
}

#[cfg(test)]
mod tests {
    use super::*;

    #[test]
    fn requests_are_read_again() {
        let latest = vec![Latest::Units(0, Digest([0; 32])), Latest::Faulty, Latest::Units(7, Digest([3; 32]))];
        let needs = vec![Need::Unit(Digest([1; 32])), Need::Evidence(2), Need::Endorsed(Digest([4; 32]))];
        for question in [Question::Difference(latest), Question::Needs(needs)] {
            let request = Request { number: 5, question };
            assert_eq!(Request::read(&request.to_bytes(), 3), Some(request.clone()));
            assert_eq!(Request::read(&request.to_bytes()[..20], 3), None);
        }
    }

    #[test]
    fn answers_are_read_again() {
        let parcel = Parcel { vertex: vec![1, 2], signatures: vec![vec![3; 64]] };
        let answer = Answer { number: 9, has_more: true, parcels: vec![parcel] };
        assert_eq!(Answer::read(&answer.to_parts()), Some(answer));
        assert_eq!(Answer::read(&[]), None);
    }
}
