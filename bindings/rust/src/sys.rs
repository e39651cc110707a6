//! The exports of hw_c, each by its declaration in crates/hw_c/src/lib.rt, and all calls of them.
//!
//! There a `Global` takes no bytes, a slice is a pointer and a length, and a `&mut` is a pointer. Nothing compares the
//! two texts but a test of the numbers and the tests that call each.

use crate::error::Error;
use crate::status::OK;
use std::cell::UnsafeCell;
use std::ptr::null_mut;

/// A place for a node: null while there is none.
#[repr(C)]
pub struct RawHandle {
    at: *mut u8,
}

macro_rules! record {
    ($(#[$doc:meta])* $name:ident { $($field:ident : $type:ty),* $(,)? }) => {
        $(#[$doc])*
        #[repr(C)]
        #[derive(Clone, Copy, Debug, Default)]
        pub struct $name { $(pub $field: $type),* }
    };
}

record!(Answer { kind: u32, count: u32, at: u64, digest: [u8; 32] });
record!(Sent { start: u64, length: u64, verdict: u32 });
record!(Delivered { status: u32, answer: Answer });
record!(Settings {
    ftt: u64, end: u64, max_records: u32, max_parked: u32, levels: u8, min_exponent: u8, max_exponent: u8,
    is_drawn: u8, has_end: u8, key: [u8; 32],
});
record!(Signer { validator: u32, unit: [u8; 32], signature: [u8; 32] });
record!(Signed { kind: u32, first: Signer, second: Signer });
record!(Summary {
    journal: u64, decided: u64, faulty_weight: u64, settled: u32, parked: u32, dropped: u32, exceeded: u32,
    has_fork: u32, fork: [u8; 32],
});
record!(Observed { kind: u32, unit: [u8; 32] });
record!(Placed { kind: u32, number: u32 });
record!(Decided { block: [u8; 32], height: u64, quorum: u64, at: u64, level: u32 });
record!(Missing { kind: u32, validator: u32, digest: [u8; 32] });
record!(Planned { kind: u32, length: u64, digest: [u8; 32] });
record!(Audited { kind: u32, length: u64, height: u64, culprits: u64, weight: u64, left: [u8; 32], right: [u8; 32] });
record!(Judged {
    kind: u32, status: u32, number: u32, weight: u64, height: u64, length: u64, total: u64, block: [u8; 32],
    instance: [u8; 32],
});
record!(Due {
    kind: u32, why: u32, leader: u32, has_parent: u32, round: u64, next: u64, parent: [u8; 32],
});
record!(UnitFacts {
    creator: u32, exponent: u32, leader: u32, place: u32, is_block: u32, has_parent: u32, has_vote: u32, endorsed: u32,
    seq: u64, time: u64, round: u64, height: u64, length: u64, digest: [u8; 32], parent: [u8; 32], vote: [u8; 32],
});

#[allow(clippy::too_many_arguments)]
mod exports {
    use super::{Answer, Audited, Decided, Delivered, Due, Judged, Missing, Observed, Placed, Planned};
    use super::{RawHandle, Sent, Settings, Signed, Summary, UnitFacts};

    unsafe extern "C" {
        pub fn hw_version() -> u32;
        pub fn hw_sha256(bytes: *const u8, len: usize, digest: *mut [u8; 32]) -> u32;
        pub fn hw_config(
            settings: *const Settings, weights: *const u64, validators: usize, table: *const u32, entries: usize,
            buf: *mut u8, room: usize, len: *mut usize, answer: *mut Answer,
        ) -> u32;
        pub fn hw_core_new(config: *const u8, len: usize, answer: *mut Answer, core: *mut RawHandle) -> u32;
        pub fn hw_core_free(core: *mut RawHandle) -> u32;
        pub fn hw_signed(vertex: *const u8, len: usize, signed: *mut Signed, answer: *mut Answer) -> u32;
        pub fn hw_deliver(
            core: *mut RawHandle, bytes: *const u8, len: usize, vertices: *const Sent, count: usize,
            delivered: *mut Delivered, room: usize,
        ) -> u32;
        pub fn hw_journal(core: *mut RawHandle, place: u64, buf: *mut u8, room: usize, len: *mut usize) -> u32;
        pub fn hw_summary(core: *mut RawHandle, summary: *mut Summary) -> u32;
        pub fn hw_observation(core: *mut RawHandle, validator: u32, observed: *mut Observed) -> u32;
        pub fn hw_place(core: *mut RawHandle, unit: *const [u8; 32], placed: *mut Placed) -> u32;
        pub fn hw_unit(
            core: *mut RawHandle, unit: *const [u8; 32], facts: *mut UnitFacts, list: *mut Observed, places: usize,
            buf: *mut u8, room: usize,
        ) -> u32;
        pub fn hw_spelled_unit(
            core: *mut RawHandle, vertex: *const u8, len: usize, facts: *mut UnitFacts, list: *mut Observed,
            places: usize, buf: *mut u8, room: usize,
        ) -> u32;
        pub fn hw_decision(core: *mut RawHandle, index: u64, decided: *mut Decided) -> u32;
        pub fn hw_faulty(core: *mut RawHandle, list: *mut u32, room: usize, count: *mut usize) -> u32;
        pub fn hw_unmet(core: *mut RawHandle, list: *mut Missing, room: usize, count: *mut usize) -> u32;
        pub fn hw_for_need(
            core: *mut RawHandle, need: *const Missing, place: usize, buf: *mut u8, room: usize, len: *mut usize,
        ) -> u32;
        pub fn hw_due(core: *mut RawHandle, validator: u32, now: u64, due: *mut Due) -> u32;
        pub fn hw_next_unit(
            core: *mut RawHandle, validator: u32, now: u64, value: *const u8, value_len: usize, planned: *mut Planned,
            buf: *mut u8, room: usize,
        ) -> u32;
        pub fn hw_with_signature(
            unit: *const u8, unit_len: usize, signature: *const [u8; 32], buf: *mut u8, room: usize, len: *mut usize,
            answer: *mut Answer,
        ) -> u32;
        pub fn hw_endorsement(
            endorser: u32, unit: *const [u8; 32], signature: *const [u8; 32], buf: *mut u8, room: usize,
            len: *mut usize,
        ) -> u32;
        pub fn hw_audit(
            left: *mut RawHandle, right: *mut RawHandle, audited: *mut Audited, buf: *mut u8, room: usize,
        ) -> u32;
        pub fn hw_certificate(core: *mut RawHandle, index: u64, buf: *mut u8, room: usize, len: *mut usize) -> u32;
        pub fn hw_certified(
            certificate: *const u8, len: usize, list: *mut Signed, room: usize, count: *mut usize, answer: *mut Answer,
        ) -> u32;
        pub fn hw_check(
            certificate: *const u8, len: usize, verdicts: *const u32, count: usize, judged: *mut Judged, buf: *mut u8,
            room: usize, answer: *mut Answer,
        ) -> u32;
    }
}

/// A handle that holds a node, from `new` to its drop.
///
/// A call writes to the handle also where it only reads the node, so the handle stands in a cell. That makes it not
/// `Sync`, so no two calls of one node overlap; and no call runs code of the caller's.
pub struct Handle {
    place: UnsafeCell<RawHandle>,
    /// How many bytes the configuration has.
    config: usize,
    /// How many bytes the vertices have that were taken, with the place for a length before each.
    taken: usize,
}

// SAFETY: `Send` is proved of the handle's type, in crates/hw_c/proofs/handle/Handle/TheSendSync.
unsafe impl Send for Handle {}

/// What most calls write.
const SHORT: usize = 1024;

/// The bytes that a call writes, which says how many there are in all.
fn bytes_of(call: impl FnMut(&mut [u8], &mut usize) -> Result<(), Error>) -> Result<Vec<u8>, Error> {
    bytes_within(SHORT, call)
}

/// The same, where they are at most so many, or the call is made twice: it works them out each time.
fn bytes_within(
    most: usize,
    mut call: impl FnMut(&mut [u8], &mut usize) -> Result<(), Error>,
) -> Result<Vec<u8>, Error> {
    let mut bytes = Vec::new();
    bytes.try_reserve_exact(most).map_err(|_| Error::OutOfMemory)?;
    bytes.resize(most, 0);
    loop {
        let mut len = 0;
        call(&mut bytes, &mut len)?;
        if len <= bytes.len() {
            bytes.truncate(len);
            return Ok(bytes);
        }
        bytes.resize(len, 0);
    }
}

/// What the library says of a unit, what it observes, and its value.
pub struct Facts {
    pub facts: UnitFacts,
    pub list: Vec<Observed>,
    pub value: Vec<u8>,
}

/// A place for an observation that the library left as it was.
const NO_SLOT: u32 = u32::MAX;

/// What a status says, with nothing behind it.
fn said(status: u32) -> Result<(), Error> {
    Error::check(status, &Answer::default())
}

impl Handle {
    pub fn new(config: &[u8]) -> Result<Handle, Error> {
        let (mut place, mut answer) = (RawHandle { at: null_mut() }, Answer::default());
        // SAFETY: all pointers are of borrows that last for the call.
        let status = unsafe { exports::hw_core_new(config.as_ptr(), config.len(), &mut answer, &mut place) };
        Error::check(status, &answer)?;
        Ok(Handle { place: UnsafeCell::new(place), config: config.len(), taken: 0 })
    }

    /// Writes what each of the vertices is answered; the two lists are equally long.
    pub fn deliver(&mut self, bytes: &[u8], vertices: &[Sent], delivered: &mut [Delivered]) {
        // SAFETY: all pointers are of borrows that last for the call.
        let status = unsafe {
            exports::hw_deliver(
                self.place.get_mut(), bytes.as_ptr(), bytes.len(), vertices.as_ptr(), vertices.len(),
                delivered.as_mut_ptr(), delivered.len(),
            )
        };
        assert_eq!(status, OK, "a core holds a node, and each vertex has its answer");
        let taken = vertices.iter().zip(delivered).filter(|(_, it)| it.status == OK);
        self.taken += taken.map(|(vertex, _)| vertex.length as usize + 16).sum::<usize>();
    }

    pub fn journal(&self, place: u64) -> Result<Vec<u8>, Error> {
        bytes_of(|buf, len| {
            // SAFETY: no other call of this node is running, since a handle isn't `Sync`; the rest are borrows.
            said(unsafe { exports::hw_journal(self.place.get(), place, buf.as_mut_ptr(), buf.len(), len) })
        })
    }

    pub fn summary(&self) -> Result<Summary, Error> {
        let mut summary = Summary::default();
        // SAFETY: as in `journal`.
        said(unsafe { exports::hw_summary(self.place.get(), &mut summary) })?;
        Ok(summary)
    }

    pub fn observation(&self, validator: u32) -> Result<Observed, Error> {
        let mut observed = Observed::default();
        // SAFETY: as in `journal`.
        said(unsafe { exports::hw_observation(self.place.get(), validator, &mut observed) })?;
        Ok(observed)
    }

    pub fn place(&self, unit: &[u8; 32]) -> Result<Placed, Error> {
        let mut placed = Placed::default();
        // SAFETY: as in `journal`.
        said(unsafe { exports::hw_place(self.place.get(), unit, &mut placed) })?;
        Ok(placed)
    }

    pub fn unit(&self, unit: &[u8; 32]) -> Result<Facts, Error> {
        self.facts(|facts, list, buf| {
            // SAFETY: as in `journal`.
            said(unsafe {
                exports::hw_unit(
                    self.place.get(), unit, facts, list.as_mut_ptr(), list.len(), buf.as_mut_ptr(), buf.len(),
                )
            })
        })
    }

    pub fn spelled_unit(&self, vertex: &[u8]) -> Result<Facts, Error> {
        self.facts(|facts, list, buf| {
            // SAFETY: as in `journal`.
            said(unsafe {
                exports::hw_spelled_unit(
                    self.place.get(), vertex.as_ptr(), vertex.len(), facts, list.as_mut_ptr(), list.len(),
                    buf.as_mut_ptr(), buf.len(),
                )
            })
        })
    }

    /// What a call says of a unit, with its panorama and its value.
    fn facts(
        &self,
        call: impl FnOnce(&mut UnitFacts, &mut [Observed], &mut [u8]) -> Result<(), Error>,
    ) -> Result<Facts, Error> {
        // A validator has eight bytes in the configuration, and a value at most 4,096.
        let (mut facts, mut list, mut value) =
            (UnitFacts::default(), vec![Observed { kind: NO_SLOT, unit: [0; 32] }; self.config / 8], vec![0; 4096]);
        call(&mut facts, &mut list, &mut value)?;
        list.retain(|slot| slot.kind != NO_SLOT);
        value.truncate(facts.length as usize);
        Ok(Facts { facts, list, value })
    }

    pub fn faulty(&self) -> Result<Vec<u32>, Error> {
        let (mut list, mut count) = (vec![0; self.config / 8], 0);
        // SAFETY: as in `journal`.
        said(unsafe { exports::hw_faulty(self.place.get(), list.as_mut_ptr(), list.len(), &mut count) })?;
        list.truncate(count);
        Ok(list)
    }

    pub fn decision(&self, index: u64) -> Result<Decided, Error> {
        let mut decided = Decided::default();
        // SAFETY: as in `journal`.
        said(unsafe { exports::hw_decision(self.place.get(), index, &mut decided) })?;
        Ok(decided)
    }

    pub fn unmet(&self, most: usize) -> Result<Vec<Missing>, Error> {
        let (mut list, mut count) = (Vec::new(), 0);
        list.try_reserve_exact(most).map_err(|_| Error::OutOfMemory)?;
        list.resize(most, Missing::default());
        // SAFETY: as in `journal`.
        said(unsafe { exports::hw_unmet(self.place.get(), list.as_mut_ptr(), list.len(), &mut count) })?;
        list.truncate(count);
        Ok(list)
    }

    pub fn for_need(&self, need: &Missing, place: usize) -> Result<Vec<u8>, Error> {
        bytes_of(|buf, len| {
            // SAFETY: as in `journal`.
            said(unsafe { exports::hw_for_need(self.place.get(), need, place, buf.as_mut_ptr(), buf.len(), len) })
        })
    }

    pub fn due(&self, validator: u32, now: u64) -> Result<Due, Error> {
        let mut due = Due::default();
        // SAFETY: as in `journal`.
        said(unsafe { exports::hw_due(self.place.get(), validator, now, &mut due) })?;
        Ok(due)
    }

    pub fn next_unit(&self, validator: u32, now: u64, value: &[u8]) -> Result<(Planned, Vec<u8>), Error> {
        let mut planned = Planned::default();
        let unit = bytes_of(|buf, len| {
            // SAFETY: as in `journal`.
            said(unsafe {
                exports::hw_next_unit(
                    self.place.get(), validator, now, value.as_ptr(), value.len(), &mut planned, buf.as_mut_ptr(),
                    buf.len(),
                )
            })?;
            *len = planned.length as usize;
            Ok(())
        })?;
        Ok((planned, unit))
    }

    pub fn audit(&self, other: &Handle) -> Result<(Audited, Vec<u8>), Error> {
        let mut audited = Audited::default();
        // A line for each culprit, and a weight in the configuration has eight bytes.
        let text = bytes_within(SHORT + 20 * self.config, |buf, len| {
            // SAFETY: as in `journal`; the caller has seen to it that the two are two.
            said(unsafe {
                exports::hw_audit(self.place.get(), other.place.get(), &mut audited, buf.as_mut_ptr(), buf.len())
            })?;
            *len = audited.length as usize;
            Ok(())
        })?;
        Ok((audited, text))
    }

    pub fn certificate(&self, index: u64) -> Result<Vec<u8>, Error> {
        // The configuration and vertices of the journal, some of them once more in evidence.
        bytes_within(SHORT + self.config + 2 * self.taken, |buf, len| {
            // SAFETY: as in `journal`.
            said(unsafe { exports::hw_certificate(self.place.get(), index, buf.as_mut_ptr(), buf.len(), len) })
        })
    }
}

impl Drop for Handle {
    fn drop(&mut self) {
        // SAFETY: the handle isn't used again.
        unsafe { exports::hw_core_free(self.place.get_mut()) };
    }
}

/// The version that the library was built with.
pub fn version() -> u32 {
    // SAFETY: the call takes nothing.
    unsafe { exports::hw_version() }
}

pub fn sha256(bytes: &[u8]) -> [u8; 32] {
    let mut digest = [0; 32];
    // SAFETY: all pointers are of borrows that last for the call.
    let status = unsafe { exports::hw_sha256(bytes.as_ptr(), bytes.len(), &mut digest) };
    assert_eq!(status, OK, "a digest takes no memory");
    digest
}

pub fn config(settings: &Settings, weights: &[u64], table: &[u32]) -> Result<Vec<u8>, Error> {
    bytes_of(|buf, len| {
        let mut answer = Answer::default();
        // SAFETY: all pointers are of borrows that last for the call.
        let status = unsafe {
            exports::hw_config(
                settings, weights.as_ptr(), weights.len(), table.as_ptr(), table.len(), buf.as_mut_ptr(), buf.len(),
                len, &mut answer,
            )
        };
        Error::check(status, &answer)
    })
}

pub fn signed(vertex: &[u8]) -> Result<Signed, Error> {
    let (mut signed, mut answer) = (Signed::default(), Answer::default());
    // SAFETY: all pointers are of borrows that last for the call.
    let status = unsafe { exports::hw_signed(vertex.as_ptr(), vertex.len(), &mut signed, &mut answer) };
    Error::check(status, &answer)?;
    Ok(signed)
}

pub fn with_signature(unit: &[u8], signature: &[u8; 32]) -> Result<Vec<u8>, Error> {
    bytes_of(|buf, len| {
        let mut answer = Answer::default();
        // SAFETY: all pointers are of borrows that last for the call.
        let status = unsafe {
            exports::hw_with_signature(
                unit.as_ptr(), unit.len(), signature, buf.as_mut_ptr(), buf.len(), len, &mut answer,
            )
        };
        Error::check(status, &answer)
    })
}

pub fn endorsement(endorser: u32, unit: &[u8; 32], signature: &[u8; 32]) -> Result<Vec<u8>, Error> {
    bytes_of(|buf, len| {
        // SAFETY: all pointers are of borrows that last for the call.
        said(unsafe { exports::hw_endorsement(endorser, unit, signature, buf.as_mut_ptr(), buf.len(), len) })
    })
}

pub fn certified(certificate: &[u8]) -> Result<Vec<Signed>, Error> {
    // The shortest vertex, an endorsement, has 69 bytes.
    let mut list = vec![Signed::default(); certificate.len() / 69 + 1];
    let (mut count, mut answer) = (0, Answer::default());
    // SAFETY: all pointers are of borrows that last for the call.
    let status = unsafe {
        exports::hw_certified(
            certificate.as_ptr(), certificate.len(), list.as_mut_ptr(), list.len(), &mut count, &mut answer,
        )
    };
    Error::check(status, &answer)?;
    list.truncate(count);
    Ok(list)
}

pub fn check(certificate: &[u8], verdicts: &[bool]) -> Result<(Judged, Vec<u8>), Error> {
    let verdicts: Vec<u32> = verdicts.iter().copied().map(u32::from).collect();
    let (mut judged, mut answer, mut value) = (Judged::default(), Answer::default(), vec![0; 4096]);
    // SAFETY: all pointers are of borrows that last for the call.
    let status = unsafe {
        exports::hw_check(
            certificate.as_ptr(), certificate.len(), verdicts.as_ptr(), verdicts.len(), &mut judged,
            value.as_mut_ptr(), value.len(), &mut answer,
        )
    };
    Error::check(status, &answer)?;
    value.truncate(judged.length as usize);
    Ok((judged, value))
}
