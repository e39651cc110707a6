//! A network on this machine: keys, a genesis file, and the settings of each node.

use crate::error::Error;
use crate::genesis::{Genesis, Validator};
use crate::keys;
use std::path::{Path, PathBuf};

/// What a network begins with, unless told otherwise.
pub struct Wishes {
    pub name: String,
    pub threshold: Option<u64>,
    pub levels: u8,
    pub exponents: [u8; 2],
    pub records: u32,
}

impl Default for Wishes {
    fn default() -> Wishes {
        Wishes { name: "a network".to_owned(), threshold: None, levels: 3, exponents: [10, 20], records: 131_072 }
    }
}

impl Wishes {
    /// The genesis of these validators. The threshold is a third of the weight, less one, unless told otherwise.
    pub fn genesis(self, validator: Vec<Validator>) -> Genesis {
        let total: u64 = validator.iter().map(|one| one.weight).fold(0, u64::saturating_add);
        let records = if validator.len() > 256 { self.records.min(32_768) } else { self.records };
        Genesis {
            name: self.name,
            threshold: self.threshold.unwrap_or(total.saturating_sub(1) / 3),
            levels: self.levels,
            exponents: self.exponents,
            start: crate::service::now(),
            records,
            parked: 4096,
            end: None,
            validator,
        }
    }
}

/// Where the settings of a node of a local network are.
pub fn settings_path(folder: &Path, validator: usize) -> PathBuf {
    folder.join(format!("{validator}.toml"))
}

/// Sets a local network up in a new folder, at ports from the first on: three for each validator.
pub fn set_up(folder: &Path, validators: u16, first_port: u16, wishes: Wishes) -> Result<(), Error> {
    std::fs::create_dir(folder).map_err(|error| Error::file(folder, error))?;
    let mut all = Vec::new();
    for number in 0..validators {
        let public = keys::make(&folder.join(format!("{number}.key")))?;
        let port = first_port + 3 * number;
        all.push(Validator {
            weight: 1,
            key: public.key,
            link: public.link,
            vertices: format!("tcp://127.0.0.1:{port}"),
            requests: format!("tcp://127.0.0.1:{}", port + 1),
        });
        let text = format!(
            "genesis = \"genesis.toml\"\nkeys = \"{number}.key\"\nstore = \"{number}.sqlite\"\npage = \"127.0.0.1:{}\"\n",
            port + 2
        );
        let path = settings_path(folder, number.into());
        std::fs::write(&path, text).map_err(|error| Error::file(&path, error))?;
    }
    write_genesis(&folder.join("genesis.toml"), wishes.genesis(all))
}

/// Writes a genesis file, if it is right. A file that is there stays.
pub fn write_genesis(path: &Path, genesis: Genesis) -> Result<(), Error> {
    let text = toml::to_string(&genesis).map_err(|error| Error::text(path, error))?;
    genesis.network().map_err(|what| Error::text(path, what))?;
    let mut file = std::fs::File::create_new(path).map_err(|error| Error::file(path, error))?;
    std::io::Write::write_all(&mut file, text.as_bytes()).map_err(|error| Error::file(path, error))
}
