//! What a node asks of the application above it: three calls.

use crate::error::Error;
use crate::hex;
use highway::Digest;
use serde::Serialize;

/// A block that is final.
#[derive(Clone, Debug, Serialize)]
pub struct FinalBlock {
    pub height: u64,
    /// Its digest, as hexadecimal digits.
    pub block: String,
    pub creator: u32,
    /// When it was made, in milliseconds.
    pub time: u64,
    /// Its value, as hexadecimal digits.
    pub value: String,
}

/// An application. A node calls it from one thread, and waits for its answer.
pub trait Application {
    /// The value of a block that this validator proposes, at most 4,096 bytes, for the round that begins at this
    /// millisecond, upon this block.
    fn propose(&mut self, round: u64, parent: Option<Digest>) -> Result<Vec<u8>, Error>;

    /// Whether a validator may propose this value. All nodes must answer alike, so the answer depends on the value
    /// alone. A block that is refused is never taken here, and nothing that cites it.
    fn is_valid(&mut self, creator: u32, value: &[u8]) -> Result<bool, Error>;

    /// A block is final. After a start the blocks come again from height 0.
    fn decided(&mut self, block: &FinalBlock) -> Result<(), Error>;
}

/// The demo: each block says how many this validator has proposed since its start.
#[derive(Debug, Default)]
pub struct Counter {
    proposed: u64,
}

impl Application for Counter {
    fn propose(&mut self, round: u64, _parent: Option<Digest>) -> Result<Vec<u8>, Error> {
        self.proposed += 1;
        Ok(format!("proposal {} in the round of {round}", self.proposed).into_bytes())
    }

    fn is_valid(&mut self, _creator: u32, value: &[u8]) -> Result<bool, Error> {
        Ok(value.starts_with(b"proposal "))
    }

    fn decided(&mut self, block: &FinalBlock) -> Result<(), Error> {
        let value = hex::bytes(&block.value).unwrap_or_default();
        tracing::debug!(height = block.height, value = %String::from_utf8_lossy(&value), "counted");
        Ok(())
    }
}
