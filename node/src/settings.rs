//! The settings of one node, which are its own affair.

use crate::error::Error;
use serde::{Deserialize, Serialize};
use std::net::SocketAddr;
use std::path::{Path, PathBuf};

/// Another way to a peer than the genesis file says.
#[derive(Clone, Debug, Serialize, Deserialize)]
#[serde(deny_unknown_fields)]
pub struct Route {
    pub validator: u32,
    pub vertices: String,
    pub requests: String,
}

/// Which application makes and judges blocks.
#[derive(Clone, Debug, Default, Serialize, Deserialize)]
#[serde(rename_all = "snake_case", deny_unknown_fields)]
pub enum Chosen {
    /// The demo that counts.
    #[default]
    Counter,
    /// A process behind a Unix socket.
    Socket(PathBuf),
}

/// The settings file. Paths that aren't absolute begin at its folder.
#[derive(Clone, Debug, Serialize, Deserialize)]
#[serde(deny_unknown_fields)]
pub struct Settings {
    pub genesis: PathBuf,
    pub keys: PathBuf,
    pub store: PathBuf,
    /// Where the page is served: the own machine alone, unless told otherwise.
    #[serde(default = "page_address")]
    pub page: SocketAddr,
    /// Where this node listens, if not at the addresses of the genesis file.
    #[serde(default)]
    pub listen: Option<[String; 2]>,
    /// Whether the log has one JSON value a line.
    #[serde(default)]
    pub json_log: bool,
    #[serde(default)]
    pub application: Chosen,
    #[serde(default)]
    pub route: Vec<Route>,
}

fn page_address() -> SocketAddr {
    SocketAddr::from(([127, 0, 0, 1], 7180))
}

impl Settings {
    pub fn read(path: &Path) -> Result<Settings, Error> {
        let text = std::fs::read_to_string(path).map_err(|error| Error::file(path, error))?;
        let mut settings: Settings = toml::from_str(&text).map_err(|error| Error::text(path, error))?;
        let folder = path.parent().unwrap_or(Path::new(""));
        for part in [&mut settings.genesis, &mut settings.keys, &mut settings.store] {
            *part = folder.join(&*part);
        }
        if let Chosen::Socket(socket) = &mut settings.application {
            *socket = folder.join(&*socket);
        }
        Ok(settings)
    }
}
