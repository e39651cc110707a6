//! Three validators with Ed25519 keys make blocks final. Then a light client, which has the public keys alone, is given a
//! certificate with its side file: it says yes, and no to a flipped byte. With a folder as its word, this writes there
//! the log, the side file and the public keys, for `tools/lens.py verify`.
//!
//! `cargo run --example light`

use highway::{Certificate, Core, Detached, Judgement, Leaders, Settings, Task};
use highway_ed25519::{PublicKeys, SecretKey};
use std::error::Error;
use std::path::Path;
use std::{env, fs};

/// A network whose validators hear each other at once.
struct Network {
    config: Vec<u8>,
    secrets: Vec<SecretKey>,
    cores: Vec<Core>,
    signatures: Detached,
}

impl Network {
    fn start() -> Result<Network, Box<dyn Error>> {
        let settings = Settings {
            leaders: Leaders::Table(vec![0, 1, 2]),
            min_exponent: 4,
            max_exponent: 10,
            ..Settings::of_weights(vec![1, 1, 1])
        };
        let config = settings.to_bytes()?;
        let secrets: Vec<SecretKey> =
            (0..3).map(|_| SecretKey::read(&SecretKey::make()?)).collect::<Result<_, _>>()?;
        let cores = (0..3).map(|_| Core::new(&config)).collect::<Result<_, _>>()?;
        Ok(Network { config, secrets, cores, signatures: Detached::new() })
    }

    fn keys(&self) -> PublicKeys {
        PublicKeys(self.secrets.iter().map(SecretKey::public).collect())
    }

    /// The validator's unit, if one is due: signed, and delivered with the verdict that its signature has.
    fn step(&mut self, me: usize, now: u64) -> Result<(), Box<dyn Error>> {
        let Task::Make(_) = self.cores[me].due(me as u32, now)?.task else { return Ok(()) };
        let Some(plan) = self.cores[me].next_unit(me as u32, now, b"a block")? else { return Ok(()) };
        let slot = self.secrets[me].sign(false, plan.digest(), &mut self.signatures);
        let vertex = plan.signed(&slot)?;
        let verdict = self.signatures.verdict(&self.keys(), &vertex)?;
        for core in &mut self.cores {
            core.deliver(&vertex, verdict)?;
        }
        Ok(())
    }
}

/// What a light client says of a certificate, by public keys and a side file.
fn checked(certificate: &Certificate, side: &[u8], keys: &PublicKeys) -> Result<Judgement, Box<dyn Error>> {
    let signatures = Detached::from_bytes(side)?;
    let verdicts: Vec<bool> = certificate.signatures()?.iter().map(|signed| signatures.judge(keys, signed)).collect();
    Ok(certificate.check(&verdicts)?)
}

/// A log of version 1: the configuration, and each vertex with its verdict.
fn log_of(config: &[u8], core: &Core) -> Result<Vec<u8>, highway::Error> {
    let mut log = b"HWLG\x01".to_vec();
    log.extend((config.len() as u32).to_be_bytes());
    log.extend(config);
    for vertex in core.journal_from(0) {
        let vertex = vertex?;
        log.extend([1, 1]);
        log.extend((vertex.len() as u32).to_be_bytes());
        log.extend(vertex);
    }
    Ok(log)
}

/// Writes what an auditor needs.
fn export(folder: &Path, network: &Network) -> Result<(), Box<dyn Error>> {
    fs::create_dir_all(folder)?;
    fs::write(folder.join("network.hwlg"), log_of(&network.config, &network.cores[0])?)?;
    fs::write(folder.join("network.hwsg"), network.signatures.to_bytes())?;
    let line = |key: &[u8; 32]| key.iter().map(|byte| format!("{byte:02x}")).collect::<String>() + "\n";
    Ok(fs::write(folder.join("public.keys"), network.keys().0.iter().map(line).collect::<String>())?)
}

fn main() -> Result<(), Box<dyn Error>> {
    let mut network = Network::start()?;
    for now in 0..160 {
        for me in 0..3 {
            network.step(me, now)?;
        }
    }
    let last = network.cores[0].summary()?.decided.checked_sub(1).ok_or("no block is final")?;
    let certificate = network.cores[0].certificate(last)?.ok_or("the block doesn't stand")?;
    let side = network.signatures.to_bytes();
    match checked(&certificate, &side, &network.keys())? {
        Judgement::Yes { height, total, .. } => println!("yes: height {height}, in a network of weight {total}"),
        other => return Err(format!("the certificate is refused: {other:?}").into()),
    }
    let mut flipped = side.clone();
    *flipped.last_mut().ok_or("there are signatures")? ^= 1;
    match checked(&certificate, &flipped, &network.keys())? {
        Judgement::Refused(number, error) => println!("a flipped byte: vertex {number} is refused, {error}"),
        other => return Err(format!("a flipped byte is taken: {other:?}").into()),
    }
    if let Some(folder) = env::args_os().nth(1) {
        export(Path::new(&folder), &network)?;
    }
    Ok(())
}
