//! The keys of a validator: Ed25519 for what it signs, Curve25519 for its links.

use crate::error::Error;
use crate::hex;
use highway_ed25519::SecretKey;
use serde::{Deserialize, Serialize};
use std::fs::OpenOptions;
use std::io::Write;
use std::os::unix::fs::{OpenOptionsExt, PermissionsExt};
use std::path::{Path, PathBuf};

/// What a key file says. Nobody but its owner can read it.
#[derive(Serialize, Deserialize)]
#[serde(deny_unknown_fields)]
struct SecretText {
    signing: String,
    link: String,
    link_public: String,
}

/// What others need to know of a validator: a part of the genesis file.
#[derive(Clone, Debug, Serialize, Deserialize)]
#[serde(deny_unknown_fields)]
pub struct PublicText {
    /// The Ed25519 key by which its signatures are judged.
    pub key: String,
    /// The Curve25519 key by which its links are known.
    pub link: String,
}

/// The keys of the own validator.
pub struct Keys {
    pub signing: SecretKey,
    pub link_secret: [u8; 32],
    pub link_public: [u8; 32],
}

/// Writes a file that nobody but its owner can read. A file that is there stays.
fn write_new(path: &Path, mode: u32, text: &str) -> Result<(), Error> {
    let mut file = OpenOptions::new().write(true).create_new(true).mode(mode).open(path);
    file.as_mut()
        .map_err(|error| std::io::Error::new(error.kind(), error.to_string()))
        .and_then(|file| file.write_all(text.as_bytes()).and_then(|()| file.sync_all()))
        .map_err(|error| Error::file(path, error))
}

/// Where the public half of a key file stands.
pub fn public_path(secret: &Path) -> PathBuf {
    secret.with_extension("pub")
}

/// Makes keys: the secret file, and the public one beside it.
pub fn make(secret: &Path) -> Result<PublicText, Error> {
    let failed = |error: &dyn std::fmt::Display| Error::Process(format!("keys can't be made: {error}"));
    let signing = SecretKey::make().map_err(|error| failed(&error))?;
    let link = zmq::CurveKeyPair::new().map_err(|error| failed(&error))?;
    let public = SecretKey::read(&signing).map_err(|error| failed(&error))?.public();
    let text = SecretText {
        signing: hex::digits(&signing),
        link: hex::digits(&link.secret_key),
        link_public: hex::digits(&link.public_key),
    };
    let told = PublicText { key: hex::digits(&public), link: hex::digits(&link.public_key) };
    write_new(secret, 0o600, &toml::to_string(&text).map_err(|error| failed(&error))?)?;
    write_new(&public_path(secret), 0o644, &toml::to_string(&told).map_err(|error| failed(&error))?)?;
    Ok(told)
}

/// The keys of a file. One that others can read is refused.
pub fn read(path: &Path) -> Result<Keys, Error> {
    let mode = path.metadata().map_err(|error| Error::file(path, error))?.permissions().mode();
    if mode & 0o077 != 0 {
        return Err(Error::text(path, format!("others can read it (mode {:o}); run chmod 600", mode & 0o777)));
    }
    let text = std::fs::read_to_string(path).map_err(|error| Error::file(path, error))?;
    let text: SecretText = toml::from_str(&text).map_err(|error| Error::text(path, error))?;
    let signing = hex::bytes(&text.signing).and_then(|bytes| SecretKey::read(&bytes).ok());
    let signing = signing.ok_or_else(|| Error::text(path, "signing: no Ed25519 key"))?;
    let link_secret = hex::key(&text.link).ok_or_else(|| Error::text(path, "link: not 64 hexadecimal digits"))?;
    let link_public = hex::key(&text.link_public).ok_or_else(|| Error::text(path, "link_public: not 64 digits"))?;
    Ok(Keys { signing, link_secret, link_public })
}
