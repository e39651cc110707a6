//! The core of one validator of the Highway protocol, proved in Rattle, in safe Rust.
//!
//! A [`Core`] takes vertices as bytes, each with the caller's verdict on its signatures, and answers what became of
//! them. What it says of its units, its fork choice and its final blocks is what the protocol's definitions give for
//! its configuration and its journal. That is proved of the core, and that each call hands it on is proved of the
//! library that is linked, `hw_c`. This crate is not proved: it says by hand how the calls are made.
//!
//! Vertices come in any order. One that misses something is parked until it has all that it needs. Where many are at
//! hand, as those of a log, [`Core::deliver_all`] takes them in one call, which costs less.
//!
//! ```
//! use highway::{Core, Leaders, Receipt, Settings};
//!
//! # fn main() -> Result<(), highway::Error> {
//! let config = Settings { leaders: Leaders::Table(vec![0]), ..Settings::of_weights(vec![1]) }.to_bytes()?;
//! let mut core = Core::new(&config)?;
//!
//! // The one validator proposes at the beginning of a round, signs with a scheme of the host's own, and delivers.
//! let plan = core.next_unit(0, 0, b"the first block")?.expect("validator 0 leads");
//! let signature = [7; 32];
//! let vertex = plan.signed(&signature)?;
//! assert_eq!(core.deliver(&vertex, true)?, Receipt::Admitted { settled: 1 });
//! assert_eq!(core.fork()?, Some(plan.digest()));
//! # Ok(())
//! # }
//! ```
#![deny(missing_docs, missing_debug_implementations, unsafe_code)]

mod config;
mod core;
mod detached;
mod error;
mod light;
mod need;
mod rule;
mod signatures;
mod status;
mod step;
#[allow(unsafe_code)]
mod sys;
mod unit;

pub use config::{Leaders, Settings};
pub use core::{Core, Decision, Decisions, Journal, Observation, Place, Receipt, Refusal, Sent, Summary};
pub use detached::{Detached, DetachedError, Verify, message};
pub use error::{BytesFault, CertificateFault, Error, Limit, PairFault};
pub use light::{Certificate, Judgement, Verdict};
pub use need::Need;
pub use rule::Rule;
pub use signatures::{Signature, Signatures};
pub use step::{Due, Plan, PlanKind, Task, Wait};
pub use unit::{Unit, UnitState, endorsement};

use std::fmt;

/// The version of this crate and of the library that it was linked with, as `0.2.0`. They are the same where both come
/// from one checkout.
///
/// ```
/// let (here, library) = highway::versions();
/// assert_eq!(here, library);
/// ```
pub fn versions() -> (String, String) {
    let number = sys::version();
    let library = format!("{}.{}.{}", number >> 16, number >> 8 & 255, number & 255);
    (env!("CARGO_PKG_VERSION").to_owned(), library)
}

/// The name of a unit, or of an instance: its SHA-256 digest. It is printed as 64 hexadecimal digits.
///
/// ```
/// use highway::Digest;
///
/// let digest = Digest([0xab; 32]);
/// assert_eq!(digest.to_string(), "ab".repeat(32));
/// ```
#[derive(Clone, Copy, PartialEq, Eq, PartialOrd, Ord, Hash)]
pub struct Digest(pub [u8; 32]);

impl fmt::Display for Digest {
    fn fmt(&self, f: &mut fmt::Formatter<'_>) -> fmt::Result {
        self.0.iter().try_for_each(|byte| write!(f, "{byte:02x}"))
    }
}

impl fmt::Debug for Digest {
    fn fmt(&self, f: &mut fmt::Formatter<'_>) -> fmt::Result {
        write!(f, "Digest({self})")
    }
}
