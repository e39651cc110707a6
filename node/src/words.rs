//! The words of the command line.

use crate::error::Error;
use crate::local::Wishes;
use std::collections::HashSet;
use std::path::PathBuf;
use std::str::FromStr;

pub const USAGE: &str = "\
A node for networks of Highway validators. It is outside of what is proved: its transport, its store, its keys and its
clock are ordinary code. The proved core decides everything that the protocol decides.

  node keygen FILE.key                    make keys; FILE.pub has what others need to know
  node init GENESIS PUB@HOST:PORT[*WEIGHT].. [WISH..]
                                          a genesis file of these validators; each has PORT and the next one
  node run SETTINGS [--without V,V]       run a validator; --without: not to hear these peers before its first unit
  node status SETTINGS                    what a node that runs says of itself
  node export SETTINGS FOLDER             a log, its signatures and the public keys, to be audited; also while it runs
  node local FOLDER N [--port P] [WISH..] set a network of N up on this machine, if FOLDER isn't there, and run it

A WISH is --name TEXT, --threshold W, --levels K, --exponents LEAST,GREATEST or --records R.
";

/// A validator of a new genesis file.
#[derive(Debug, PartialEq, Eq)]
pub struct Named {
    pub public: PathBuf,
    pub host: String,
    pub port: u16,
    pub weight: u64,
}

pub enum Command {
    Keygen(PathBuf),
    Init { genesis: PathBuf, validators: Vec<Named>, wishes: Wishes },
    Run { settings: PathBuf, without: HashSet<u32> },
    Status(PathBuf),
    Export { settings: PathBuf, folder: PathBuf },
    Local { folder: PathBuf, validators: u16, port: u16, wishes: Wishes },
    Help,
}

fn refused(text: impl Into<String>) -> Error {
    Error::Words(text.into())
}

fn number<T: FromStr>(what: &str, word: &str) -> Result<T, Error> {
    word.parse().map_err(|_| refused(format!("{what}: {word} is no number, or too great")))
}

/// `PUB@HOST:PORT` or `PUB@HOST:PORT*WEIGHT`.
fn named(word: &str) -> Result<Named, Error> {
    let wrong = || refused(format!("{word}: not PUB@HOST:PORT or PUB@HOST:PORT*WEIGHT"));
    let (public, rest) = word.rsplit_once('@').ok_or_else(wrong)?;
    let (address, weight) = rest.split_once('*').unwrap_or((rest, "1"));
    let (host, port) = address.rsplit_once(':').ok_or_else(wrong)?;
    let (port, weight) = (number("port", port)?, number("weight", weight)?);
    if port == u16::MAX {
        return Err(refused(format!("{word}: the port and the next one are needed")));
    }
    Ok(Named { public: public.into(), host: host.to_owned(), port, weight })
}

/// Words in order, and options with a value each.
struct Words {
    plain: Vec<String>,
    options: Vec<(String, String)>,
}

impl Words {
    fn split(words: impl Iterator<Item = String>) -> Result<Words, Error> {
        let (mut plain, mut options, mut words) = (Vec::new(), Vec::new(), words);
        while let Some(word) = words.next() {
            match word.strip_prefix("--") {
                Some("help") => plain.insert(0, "help".to_owned()),
                Some(name) => {
                    let value = words.next().ok_or_else(|| refused(format!("--{name}: its value is missing")))?;
                    options.push((name.to_owned(), value));
                }
                None => plain.push(word),
            }
        }
        Ok(Words { plain, options })
    }

    fn take(&mut self, name: &str) -> Option<String> {
        let at = self.options.iter().position(|(one, _)| one == name)?;
        Some(self.options.remove(at).1)
    }

    fn wishes(&mut self) -> Result<Wishes, Error> {
        let mut wishes = Wishes::default();
        if let Some(name) = self.take("name") {
            wishes.name = name;
        }
        wishes.threshold = self.take("threshold").map(|word| number("--threshold", &word)).transpose()?;
        if let Some(word) = self.take("levels") {
            wishes.levels = number("--levels", &word)?;
        }
        if let Some(word) = self.take("records") {
            wishes.records = number("--records", &word)?;
        }
        if let Some(word) = self.take("exponents") {
            let (least, greatest) = word.split_once(',').ok_or_else(|| refused("--exponents: not LEAST,GREATEST"))?;
            wishes.exponents = [number("--exponents", least)?, number("--exponents", greatest)?];
        }
        Ok(wishes)
    }

    fn without(&mut self) -> Result<HashSet<u32>, Error> {
        let word = self.take("without").unwrap_or_default();
        word.split(',').filter(|one| !one.is_empty()).map(|one| number("--without", one)).collect()
    }
}

/// The command that these words are.
pub fn read(words: impl Iterator<Item = String>) -> Result<Command, Error> {
    let mut words = Words::split(words)?;
    let plain: Vec<String> = std::mem::take(&mut words.plain);
    let plain: Vec<&str> = plain.iter().map(String::as_str).collect();
    let command = match plain.as_slice() {
        ["keygen", file] => Command::Keygen(file.into()),
        ["init", genesis, validators @ ..] if !validators.is_empty() => Command::Init {
            genesis: genesis.into(),
            validators: validators.iter().map(|word| named(word)).collect::<Result<_, _>>()?,
            wishes: words.wishes()?,
        },
        ["run", settings] => Command::Run { settings: settings.into(), without: words.without()? },
        ["status", settings] => Command::Status(settings.into()),
        ["export", settings, folder] => Command::Export { settings: settings.into(), folder: folder.into() },
        ["local", folder, validators] => {
            let port = words.take("port").map_or(Ok(7100), |word| number("--port", &word))?;
            let validators = number("N", validators)?;
            if validators == 0 || u32::from(port) + 3 * u32::from(validators) > 65_536 {
                return Err(refused("N is at least 1, and there are three ports a validator"));
            }
            Command::Local { folder: folder.into(), validators, port, wishes: words.wishes()? }
        }
        [] | ["help", ..] => Command::Help,
        other => return Err(refused(format!("no such command: {}\n\n{USAGE}", other.join(" ")))),
    };
    match words.options.first() {
        Some((name, _)) => Err(refused(format!("--{name}: this command has no such option"))),
        None => Ok(command),
    }
}

#[cfg(test)]
mod tests {
    use super::*;

    fn words(text: &str) -> Result<Command, Error> {
        read(text.split(' ').map(str::to_owned))
    }

    #[test]
    fn a_validator_has_a_place_and_a_weight() {
        let told = named("a.pub@192.0.2.1:7100*3").expect("a validator");
        assert_eq!((told.host.as_str(), told.port, told.weight), ("192.0.2.1", 7100, 3));
        assert!(named("a.pub").is_err() && named("a.pub@host:65535").is_err() && named("a@b:x").is_err());
    }

    #[test]
    fn options_are_known_or_refused() {
        assert!(matches!(words("run a.toml --without 1,2"), Ok(Command::Run { without, .. }) if without.len() == 2));
        assert!(words("run a.toml --wihtout 1").is_err());
        assert!(words("local folder 0").is_err() && words("local folder 4 --port 65530").is_err());
        assert!(matches!(words("--help x"), Ok(Command::Help)));
    }
}
