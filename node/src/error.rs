//! Why the node stops.

use std::fmt;
use std::path::{Path, PathBuf};

/// Why a command ends without its answer. Each names the place.
#[derive(Debug)]
pub enum Error {
    /// The words of the command line.
    Words(String),
    /// A file that can't be read or written.
    File(PathBuf, std::io::Error),
    /// A file whose text isn't what it should be: what, and where.
    Text(PathBuf, String),
    /// The store.
    Store(rusqlite::Error),
    /// Another process has the store.
    InUse(PathBuf),
    /// The transport.
    Link(String, zmq::Error),
    /// The core gave an error that no peer caused.
    Core(highway::Error),
    /// The application.
    Application(String),
    /// A process or a thread of this node.
    Process(String),
}

impl Error {
    pub fn file(path: &Path, error: std::io::Error) -> Error {
        Error::File(path.to_owned(), error)
    }

    pub fn text(path: &Path, what: impl fmt::Display) -> Error {
        Error::Text(path.to_owned(), what.to_string())
    }

    pub fn link(address: &str, error: zmq::Error) -> Error {
        Error::Link(address.to_owned(), error)
    }
}

impl fmt::Display for Error {
    fn fmt(&self, f: &mut fmt::Formatter<'_>) -> fmt::Result {
        match self {
            Error::Words(text) => f.write_str(text),
            Error::File(path, error) => write!(f, "{}: {error}", path.display()),
            Error::Text(path, text) => write!(f, "{}: {text}", path.display()),
            Error::Store(error) => write!(f, "the store: {error}"),
            Error::InUse(path) => write!(f, "{}: another process has this store", path.display()),
            Error::Link(address, error) => write!(f, "{address}: {error}"),
            Error::Core(error) => write!(f, "the core: {error}"),
            Error::Application(text) => write!(f, "the application: {text}"),
            Error::Process(text) => f.write_str(text),
        }
    }
}

impl std::error::Error for Error {}

impl From<rusqlite::Error> for Error {
    fn from(error: rusqlite::Error) -> Error {
        Error::Store(error)
    }
}

impl From<highway::Error> for Error {
    fn from(error: highway::Error) -> Error {
        Error::Core(error)
    }
}
