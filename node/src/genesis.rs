//! The genesis file: what the validators of a network agree on before they begin.
//!
//! The configuration of the core follows from it, and the instance from the configuration. Addresses aren't part of
//! the configuration, so they may change.

use crate::error::Error;
use crate::hex;
use highway::{Detached, Leaders, Settings};
use highway_ed25519::PublicKeys;
use serde::{Deserialize, Serialize};
use std::collections::HashSet;
use std::path::Path;

/// A validator, as the genesis file names it.
#[derive(Clone, Debug, Serialize, Deserialize)]
#[serde(deny_unknown_fields)]
pub struct Validator {
    pub weight: u64,
    /// The Ed25519 key by which its signatures are judged.
    pub key: String,
    /// The Curve25519 key by which its links are known.
    pub link: String,
    /// Where it sends its vertices, as `tcp://192.0.2.1:7100`.
    pub vertices: String,
    /// Where it is asked for what others lack.
    pub requests: String,
}

/// The genesis file.
#[derive(Clone, Debug, Serialize, Deserialize)]
#[serde(deny_unknown_fields)]
pub struct Genesis {
    /// A name that no other network of the same validators has.
    pub name: String,
    /// The weight that may be faulty.
    pub threshold: u64,
    /// The greatest level of a summit that is looked for.
    pub levels: u8,
    /// The least and the greatest exponent of a round, which lasts 2^exponent milliseconds.
    pub exponents: [u8; 2],
    /// The millisecond since 1970 from which on units are made. A node refuses older ones, so that nobody can make one for
    /// each round since then.
    pub start: u64,
    /// How many vertices a journal may have.
    pub records: u32,
    /// How many units may wait.
    pub parked: u32,
    /// The height of the last block, where there is one.
    #[serde(default, skip_serializing_if = "Option::is_none")]
    pub end: Option<u64>,
    pub validator: Vec<Validator>,
}

/// What follows from a genesis file.
pub struct Network {
    pub genesis: Genesis,
    /// The configuration of the core, as bytes.
    pub config: Vec<u8>,
    pub instance: [u8; 32],
    pub keys: PublicKeys,
    pub links: Vec<[u8; 32]>,
}

impl Genesis {
    pub fn read(path: &Path) -> Result<Genesis, Error> {
        let text = std::fs::read_to_string(path).map_err(|error| Error::file(path, error))?;
        toml::from_str(&text).map_err(|error| Error::text(path, error))
    }

    /// What follows from it, or what is wrong with it.
    pub fn network(self) -> Result<Network, String> {
        let keys = self.keys_of("key", |validator| &validator.key)?;
        let links = self.keys_of("link", |validator| &validator.link)?;
        let settings = Settings {
            weights: self.validator.iter().map(|validator| validator.weight).collect(),
            fault_tolerance: self.threshold,
            levels: self.levels,
            min_exponent: self.exponents[0],
            max_exponent: self.exponents[1],
            leaders: Leaders::Drawn(self.leaders_key(&keys)),
            max_records: self.records,
            max_parked: self.parked,
            end: self.end,
        };
        let config = settings.to_bytes().map_err(|error| error.to_string())?;
        let instance = Detached::slot_of(&config);
        Ok(Network { genesis: self, config, instance, keys: PublicKeys(keys), links })
    }

    /// The beginning of the longest round in which the start lies: no honest unit is older.
    pub fn begin(&self) -> u64 {
        let greatest = u32::from(self.exponents[1]).min(63);
        self.start >> greatest << greatest
    }

    /// The key by which leaders are drawn. It is made of the name, the start and the validators' keys, so with another one
    /// of them it is another instance.
    fn leaders_key(&self, keys: &[[u8; 32]]) -> [u8; 32] {
        let mut told = b"highway leaders\0".to_vec();
        told.extend((self.name.len() as u64).to_be_bytes());
        told.extend(self.name.as_bytes());
        told.extend(self.start.to_be_bytes());
        told.extend(keys.concat());
        Detached::slot_of(&told)
    }

    /// One key of each validator. No two have the same.
    fn keys_of(&self, what: &str, of: impl Fn(&Validator) -> &String) -> Result<Vec<[u8; 32]>, String> {
        let mut seen = HashSet::new();
        let mut keys = Vec::new();
        for (number, validator) in self.validator.iter().enumerate() {
            let key = hex::key(of(validator));
            let key = key.ok_or_else(|| format!("validator {number}: {what} isn't 64 hexadecimal digits"))?;
            if !seen.insert(key) {
                return Err(format!("validator {number}: another validator has the same {what}"));
            }
            keys.push(key);
        }
        Ok(keys)
    }
}

/// The network of the file at this path.
pub fn read(path: &Path) -> Result<Network, Error> {
    Genesis::read(path)?.network().map_err(|what| Error::text(path, what))
}
