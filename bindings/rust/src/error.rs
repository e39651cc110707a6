//! Why a call gives no answer.

use crate::status::*;
use crate::sys;
use crate::{Digest, Rule};
use std::fmt;

/// Why a call gives no answer. After an error nothing has changed.
///
/// ```
/// use highway::{Core, Error};
///
/// let error = Core::new(b"").unwrap_err();
/// assert!(matches!(error, Error::Bytes { at: 0, .. }));
/// assert_eq!(error.to_string(), "bad bytes: truncated at 0");
/// ```
#[derive(Clone, Copy, Debug, PartialEq, Eq)]
#[non_exhaustive]
pub enum Error {
    /// There was no memory.
    OutOfMemory,
    /// There is none.
    Nothing,
    /// A validator, a place, a moment or a length is outside its range.
    OutOfRange,
    /// What was asked for is longer than its format or its journal allows.
    TooLong,
    /// The two nodes are of different configurations.
    OtherInstance,
    /// The bytes are no spelling.
    Bytes {
        /// What is wrong with them.
        fault: BytesFault,
        /// Where the field begins that is refused, counted from 0.
        at: u64,
    },
    /// The configuration breaks a limit.
    Config(Limit),
    /// The verdict was no.
    BadSignature,
    /// The evidence is no pair of one creator's units with one number.
    Pair(PairFault),
    /// Another unit has this digest.
    Clash(Digest),
    /// The journal is as long as it may be.
    RecordsFull,
    /// As many units are parked as may be.
    ParkFull,
    /// The unit breaks this rule of its own, or the endorser is no validator.
    Local(Rule),
    /// The bytes are no certificate.
    Certificate(CertificateFault),
}

/// What is wrong with bytes.
///
/// ```
/// use highway::{BytesFault, Error, Signatures};
///
/// let error = Signatures::of(&[255]).unwrap_err();
/// assert_eq!(error, Error::Bytes { fault: BytesFault::BadTag, at: 0 });
/// ```
#[derive(Clone, Copy, Debug, PartialEq, Eq)]
pub enum BytesFault {
    /// The field doesn't fit in the bytes that are left.
    Truncated,
    /// The value ended, and there are more bytes.
    Trailing,
    /// A tag, flag, kind or version that has no meaning.
    BadTag,
    /// A count above the limit of its list.
    TooLong,
    /// A number outside its range.
    OutOfRange,
}

/// A limit of configurations.
///
/// ```
/// use highway::{Error, Limit, Settings};
///
/// let heavy = Settings { fault_tolerance: 3, ..Settings::of_weights(vec![1, 1, 1]) };
/// assert_eq!(heavy.to_bytes(), Err(Error::Config(Limit::Threshold)));
/// ```
#[derive(Clone, Copy, Debug, PartialEq, Eq)]
pub enum Limit {
    /// There are 1 to 1,024 validators.
    Validators,
    /// Each validator weighs at least 1. The first that doesn't is named.
    ZeroWeight(u64),
    /// The total weight is below 2^62.
    Total,
    /// The threshold is below the total weight.
    Threshold,
    /// There are 1 to 30 levels.
    Levels,
    /// The least exponent is at least 2 and no more than the greatest, which is at most 40.
    Exponents,
    /// A table has 1 to 4,096 entries, each a validator.
    LeaderTable,
    /// A journal has 1 to 131,072 entries, and at most 32,768 with more than 256 validators.
    Records,
    /// 1 to 16,384 units may be parked.
    Parked,
}

/// Why two units show no equivocation.
///
/// ```
/// use highway::{Error, PairFault};
///
/// assert_eq!(Error::Pair(PairFault::Same).to_string(), "no pair: equal units");
/// ```
#[derive(Clone, Copy, Debug, PartialEq, Eq)]
pub enum PairFault {
    /// The creators differ, or are no validators.
    Creator,
    /// The sequence numbers differ.
    Sequence,
    /// One of the two isn't of the configuration's instance.
    Instance,
    /// The two units are equal.
    Same,
}

/// Why bytes are no certificate.
///
/// ```
/// use highway::{Certificate, CertificateFault, Error};
///
/// let none = Certificate::from_bytes(b"no certificate".to_vec());
/// assert_eq!(none.check(&[]), Err(Error::Certificate(CertificateFault::BadMagic)));
/// ```
#[derive(Clone, Copy, Debug, PartialEq, Eq)]
pub enum CertificateFault {
    /// They don't begin with `HWCT`.
    BadMagic,
    /// The version isn't 1.
    Version,
    /// They end inside the field that begins here.
    Torn(u64),
    /// A part or a count, whose length stands here, is too great.
    TooLong(u64),
    /// The certificate ended, and this is the first byte behind it.
    Trailing(u64),
    /// The configuration is no spelling. The place counts from its first byte.
    Config(BytesFault, u64),
    /// The vertex whose length stands here is no spelling.
    Vertex(BytesFault, u64),
}

const BYTES: [BytesFault; 5] = [
    BytesFault::Truncated,
    BytesFault::Trailing,
    BytesFault::BadTag,
    BytesFault::TooLong,
    BytesFault::OutOfRange,
];

const PAIRS: [PairFault; 4] = [PairFault::Creator, PairFault::Sequence, PairFault::Instance, PairFault::Same];

// The first and the last status of those to which the number of what is wrong was added.
const LAST_BYTES: u32 = BAD_BYTES + 4;
const FIRST_LIMIT: u32 = BAD_CONFIG + 1;
const LAST_LIMIT: u32 = BAD_CONFIG + 9;
const LAST_PAIR: u32 = BAD_PAIR + 3;
const FIRST_RULE: u32 = LOCAL_RULE + 1;
const LAST_RULE: u32 = LOCAL_RULE + 19;
const LAST_CERTIFICATE: u32 = BAD_CERTIFICATE + 4;
const LAST_CERTIFIED_CONFIG: u32 = BAD_CERTIFIED_CONFIG + 4;
const LAST_CERTIFIED_VERTEX: u32 = BAD_CERTIFIED_VERTEX + 4;

fn limit(number: u32, at: u64) -> Limit {
    match number {
        1 => Limit::Validators,
        2 => Limit::ZeroWeight(at),
        3 => Limit::Total,
        4 => Limit::Threshold,
        5 => Limit::Levels,
        6 => Limit::Exponents,
        7 => Limit::LeaderTable,
        8 => Limit::Records,
        _ => Limit::Parked,
    }
}

fn certificate_fault(number: u32, at: u64) -> CertificateFault {
    match number {
        0 => CertificateFault::BadMagic,
        1 => CertificateFault::Version,
        2 => CertificateFault::Torn(at),
        3 => CertificateFault::TooLong(at),
        _ => CertificateFault::Trailing(at),
    }
}

impl Error {
    /// What the status of a call says, with its details.
    pub(crate) fn check(status: u32, answer: &sys::Answer) -> Result<(), Error> {
        if status == OK { Ok(()) } else { Err(Error::of(status, answer)) }
    }

    /// The error of a status that isn't 0.
    pub(crate) fn of(status: u32, answer: &sys::Answer) -> Error {
        let at = answer.at;
        let bytes = |first: u32| BYTES[(status - first) as usize];
        match status {
            OUT_OF_MEMORY => Error::OutOfMemory,
            NONE => Error::Nothing,
            OUT_OF_RANGE => Error::OutOfRange,
            TOO_LONG => Error::TooLong,
            OTHER_INSTANCE => Error::OtherInstance,
            BAD_BYTES..=LAST_BYTES => Error::Bytes { fault: bytes(BAD_BYTES), at },
            FIRST_LIMIT..=LAST_LIMIT => Error::Config(limit(status - BAD_CONFIG, at)),
            BAD_SIGNATURE => Error::BadSignature,
            BAD_PAIR..=LAST_PAIR => Error::Pair(PAIRS[(status - BAD_PAIR) as usize]),
            CLASH => Error::Clash(Digest(answer.digest)),
            RECORDS_FULL => Error::RecordsFull,
            PARK_FULL => Error::ParkFull,
            FIRST_RULE..=LAST_RULE => Error::Local(Rule::of(status - LOCAL_RULE)),
            BAD_CERTIFICATE..=LAST_CERTIFICATE => Error::Certificate(certificate_fault(status - BAD_CERTIFICATE, at)),
            BAD_CERTIFIED_CONFIG..=LAST_CERTIFIED_CONFIG => {
                Error::Certificate(CertificateFault::Config(bytes(BAD_CERTIFIED_CONFIG), at))
            }
            BAD_CERTIFIED_VERTEX..=LAST_CERTIFIED_VERTEX => {
                Error::Certificate(CertificateFault::Vertex(bytes(BAD_CERTIFIED_VERTEX), at))
            }
            // A `Core` holds a node from its start to its drop, so no handle is empty or full where it mustn't be.
            EMPTY | FULL => unreachable!("a core always holds a node"),
            other => unreachable!("hw_c answers no status {other:#x}"),
        }
    }
}

impl fmt::Display for BytesFault {
    fn fmt(&self, f: &mut fmt::Formatter<'_>) -> fmt::Result {
        f.write_str(match self {
            BytesFault::Truncated => "truncated",
            BytesFault::Trailing => "trailing bytes",
            BytesFault::BadTag => "bad tag",
            BytesFault::TooLong => "too long",
            BytesFault::OutOfRange => "out of range",
        })
    }
}

impl fmt::Display for Limit {
    fn fmt(&self, f: &mut fmt::Formatter<'_>) -> fmt::Result {
        match self {
            Limit::Validators => f.write_str("validators"),
            Limit::ZeroWeight(validator) => write!(f, "validator {validator} has no weight"),
            Limit::Total => f.write_str("total weight"),
            Limit::Threshold => f.write_str("threshold"),
            Limit::Levels => f.write_str("levels"),
            Limit::Exponents => f.write_str("exponents"),
            Limit::LeaderTable => f.write_str("leader table"),
            Limit::Records => f.write_str("records"),
            Limit::Parked => f.write_str("parked units"),
        }
    }
}

impl fmt::Display for PairFault {
    fn fmt(&self, f: &mut fmt::Formatter<'_>) -> fmt::Result {
        f.write_str(match self {
            PairFault::Creator => "creators",
            PairFault::Sequence => "sequence numbers",
            PairFault::Instance => "instance",
            PairFault::Same => "equal units",
        })
    }
}

impl fmt::Display for CertificateFault {
    fn fmt(&self, f: &mut fmt::Formatter<'_>) -> fmt::Result {
        match self {
            CertificateFault::BadMagic => f.write_str("it doesn't begin as a certificate"),
            CertificateFault::Version => f.write_str("unknown version"),
            CertificateFault::Torn(at) => write!(f, "torn at {at}"),
            CertificateFault::TooLong(at) => write!(f, "too long at {at}"),
            CertificateFault::Trailing(at) => write!(f, "trailing at {at}"),
            CertificateFault::Config(fault, at) => write!(f, "its configuration: {fault} at {at}"),
            CertificateFault::Vertex(fault, at) => write!(f, "its vertex at {at}: {fault}"),
        }
    }
}

impl fmt::Display for Error {
    fn fmt(&self, f: &mut fmt::Formatter<'_>) -> fmt::Result {
        match self {
            Error::OutOfMemory => f.write_str("out of memory"),
            Error::Nothing => f.write_str("there is none"),
            Error::OutOfRange => f.write_str("out of range"),
            Error::TooLong => f.write_str("too long"),
            Error::OtherInstance => f.write_str("different configurations"),
            Error::Bytes { fault, at } => write!(f, "bad bytes: {fault} at {at}"),
            Error::Config(limit) => write!(f, "the configuration breaks a limit: {limit}"),
            Error::BadSignature => f.write_str("bad signature"),
            Error::Pair(fault) => write!(f, "no pair: {fault}"),
            Error::Clash(digest) => write!(f, "another unit has the digest {digest}"),
            Error::RecordsFull => f.write_str("the journal is full"),
            Error::ParkFull => f.write_str("the park is full"),
            Error::Local(rule) => write!(f, "the unit breaks a rule of its own: {rule}"),
            Error::Certificate(fault) => write!(f, "no certificate: {fault}"),
        }
    }
}

impl std::error::Error for Error {}
