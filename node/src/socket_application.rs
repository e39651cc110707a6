//! An application in another process, behind a Unix socket: one JSON value a line, a call and then its answer.
//!
//! | Call | Answer |
//! |---|---|
//! | `{"propose":{"round":R,"parent":"HEX" or null}}` | `{"value":"HEX"}` |
//! | `{"is_valid":{"creator":V,"value":"HEX"}}` | `{"valid":true}` or `{"valid":false}` |
//! | `{"decided":{"height":H,"block":"HEX","creator":V,"time":T,"value":"HEX"}}` | `{}` |

use crate::application::{Application, FinalBlock};
use crate::error::Error;
use crate::hex;
use highway::Digest;
use serde_json::{Value, json};
use std::io::{BufRead, BufReader, Read, Write};
use std::os::unix::net::UnixStream;
use std::path::Path;
use std::time::Duration;

/// An answer is due within this time, and no longer than this.
const PATIENCE: Duration = Duration::from_secs(2);
const MOST_ANSWER: u64 = 64 * 1024;

pub struct SocketApplication {
    stream: BufReader<UnixStream>,
}

fn failed(error: impl std::fmt::Display) -> Error {
    Error::Application(error.to_string())
}

impl SocketApplication {
    pub fn connect(path: &Path) -> Result<SocketApplication, Error> {
        let stream = UnixStream::connect(path).map_err(|error| Error::file(path, error))?;
        stream.set_read_timeout(Some(PATIENCE)).map_err(failed)?;
        stream.set_write_timeout(Some(PATIENCE)).map_err(failed)?;
        Ok(SocketApplication { stream: BufReader::new(stream) })
    }

    fn call(&mut self, question: &Value) -> Result<Value, Error> {
        let line = format!("{question}\n");
        self.stream.get_mut().write_all(line.as_bytes()).map_err(failed)?;
        let mut answer = String::new();
        self.stream.by_ref().take(MOST_ANSWER).read_line(&mut answer).map_err(failed)?;
        if !answer.ends_with('\n') {
            return Err(failed("it ended, or its answer is too long"));
        }
        serde_json::from_str(&answer).map_err(failed)
    }
}

impl Application for SocketApplication {
    fn propose(&mut self, round: u64, parent: Option<Digest>) -> Result<Vec<u8>, Error> {
        let parent = parent.map(|parent| parent.to_string());
        let answer = self.call(&json!({"propose": {"round": round, "parent": parent}}))?;
        let value = answer["value"].as_str().and_then(hex::bytes);
        value.filter(|value| value.len() <= 4096).ok_or_else(|| failed("propose: no value of at most 4096 bytes"))
    }

    fn is_valid(&mut self, creator: u32, value: &[u8]) -> Result<bool, Error> {
        let answer = self.call(&json!({"is_valid": {"creator": creator, "value": hex::digits(value)}}))?;
        answer["valid"].as_bool().ok_or_else(|| failed("is_valid: no answer"))
    }

    fn decided(&mut self, block: &FinalBlock) -> Result<(), Error> {
        self.call(&json!({ "decided": block })).map(|_| ())
    }
}
