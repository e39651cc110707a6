//! A vertex with its signatures: what is sent, and what is stored.

use highway::{Detached, Signatures, Verify, message};

/// A vertex as bytes, and the signatures that stand beside it, in the order in which the vertex has their slots.
#[derive(Clone, Debug, PartialEq, Eq)]
pub struct Parcel {
    pub vertex: Vec<u8>,
    pub signatures: Vec<Vec<u8>>,
}

/// A vertex may not be longer: a format's limit.
const MOST_VERTEX: usize = 1 << 20;

impl Parcel {
    /// The vertex's length, the vertex, and each signature with its length.
    pub fn to_bytes(&self) -> Vec<u8> {
        let mut bytes = (self.vertex.len() as u32).to_be_bytes().to_vec();
        bytes.extend(&self.vertex);
        bytes.extend(self.beside());
        bytes
    }

    /// The signatures alone, as a side file has them.
    pub fn beside(&self) -> Vec<u8> {
        self.signatures.iter().flat_map(|signature| Detached::entry(signature)).collect()
    }

    /// The parcel of these bytes: None where they are none.
    pub fn read(bytes: &[u8]) -> Option<Parcel> {
        let (length, rest) = bytes.split_at_checked(4)?;
        let length = u32::from_be_bytes(length.try_into().ok()?) as usize;
        if length > MOST_VERTEX {
            return None;
        }
        let (vertex, rest) = rest.split_at_checked(length)?;
        Parcel::of_parts(vertex.to_vec(), rest)
    }

    /// The parcel of a vertex and the signatures beside it.
    pub fn of_parts(vertex: Vec<u8>, mut beside: &[u8]) -> Option<Parcel> {
        let mut signatures = Vec::new();
        while !beside.is_empty() && signatures.len() < 2 {
            let (length, rest) = beside.split_at_checked(2)?;
            let length = usize::from(u16::from_be_bytes(length.try_into().ok()?));
            let (signature, rest) = rest.split_at_checked(length)?;
            if signature.is_empty() || length > 4096 {
                return None;
            }
            signatures.push(signature.to_vec());
            beside = rest;
        }
        beside.is_empty().then_some(Parcel { vertex, signatures })
    }

    /// The verdict: whether each slot is that of the signature beside it, and each signature is right.
    pub fn is_right(&self, scheme: &impl Verify, signed: &Signatures) -> bool {
        let mut beside = self.signatures.iter();
        let all = signed.all(|is_endorsement, one| {
            beside.next().is_some_and(|signature| {
                one.signature == Detached::slot_of(signature)
                    && scheme.is_right(one.validator, &message(is_endorsement, one.unit), signature)
            })
        });
        all && beside.next().is_none()
    }
}

#[cfg(test)]
mod tests {
    use super::*;

    #[test]
    fn bytes_are_read_again() {
        let parcel = Parcel { vertex: vec![1, 2, 3], signatures: vec![vec![4; 64], vec![5; 64]] };
        assert_eq!(Parcel::read(&parcel.to_bytes()), Some(parcel));
    }

    #[test]
    fn junk_is_no_parcel() {
        let whole = Parcel { vertex: vec![1; 9], signatures: vec![vec![4; 64]] }.to_bytes();
        assert!((0..whole.len()).filter(|end| *end != 13).all(|end| Parcel::read(&whole[..end]).is_none()));
        assert_eq!(Parcel::read(&[255; 40]), None);
    }
}
