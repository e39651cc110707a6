//! A node for networks of Highway validators, over the proved core.
//!
//! It is outside of what is proved. The core in `highway` decides everything that the protocol decides; this program
//! judges signatures, stores, sends, keeps the time, and shows.

mod admission;
mod application;
mod engine;
mod error;
mod export;
mod genesis;
mod hex;
mod keys;
mod lanes;
mod links;
mod local;
mod map;
mod pace;
mod page;
mod parcel;
mod peers;
mod quota;
mod request;
mod service;
mod settings;
mod socket_application;
mod store;
mod view;
mod words;

use application::{Application, Counter};
use engine::Engine;
use error::Error;
use genesis::{Network, Validator};
use keys::{Keys, PublicText};
use links::Links;
use service::Service;
use settings::{Chosen, Settings};
use socket_application::SocketApplication;
use std::collections::HashSet;
use std::io::{Read, Write};
use std::net::TcpStream;
use std::path::Path;
use std::process::{Child, ExitCode};
use std::sync::Arc;
use std::sync::atomic::AtomicBool;
use std::time::Duration;
use store::Store;
use view::Shared;
use words::{Command, Named, USAGE};

fn main() -> ExitCode {
    match words::read(std::env::args().skip(1)).and_then(obey) {
        Ok(()) => ExitCode::SUCCESS,
        Err(error) => {
            eprintln!("node: {error}");
            ExitCode::FAILURE
        }
    }
}

fn obey(command: Command) -> Result<(), Error> {
    match command {
        Command::Help => say(USAGE),
        Command::Keygen(file) => {
            let public = keys::make(&file)?;
            say(&format!("key = \"{}\"\nlink = \"{}\"\n", public.key, public.link))
        }
        Command::Init { genesis, validators, wishes } => {
            let validators = validators.into_iter().map(validator).collect::<Result<_, _>>()?;
            local::write_genesis(&genesis, wishes.genesis(validators))
        }
        Command::Run { settings, without } => run(&settings, without),
        Command::Status(settings) => status(&settings),
        Command::Export { settings, folder } => export(&settings, &folder),
        Command::Local { folder, validators, port, wishes } => {
            if !folder.exists() {
                local::set_up(&folder, validators, port, wishes)?;
            }
            run_all(&folder, validators)
        }
    }
}

fn say(text: &str) -> Result<(), Error> {
    std::io::stdout().write_all(text.as_bytes()).map_err(|error| Error::Process(format!("output: {error}")))
}

/// A validator of a new genesis file.
fn validator(named: Named) -> Result<Validator, Error> {
    let text = std::fs::read_to_string(&named.public).map_err(|error| Error::file(&named.public, error))?;
    let public: PublicText = toml::from_str(&text).map_err(|error| Error::text(&named.public, error))?;
    let at = |port: u16| format!("tcp://{}:{port}", named.host);
    Ok(Validator {
        weight: named.weight,
        key: public.key,
        link: public.link,
        vertices: at(named.port),
        requests: at(named.port + 1),
    })
}

/// What the settings name: the network, the keys, and which validator has these keys.
fn parts(path: &Path) -> Result<(Settings, Network, Keys, u32), Error> {
    let settings = Settings::read(path)?;
    let network = genesis::read(&settings.genesis)?;
    let keys = keys::read(&settings.keys)?;
    let me = network.keys.0.iter().position(|key| *key == keys.signing.public());
    let me = me.ok_or_else(|| Error::text(&settings.keys, "no validator of the genesis file has this key"))?;
    if network.links[me] != keys.link_public {
        return Err(Error::text(&settings.keys, format!("validator {me} has another link key in the genesis file")));
    }
    Ok((settings, network, keys, me as u32))
}

fn run(path: &Path, without: HashSet<u32>) -> Result<(), Error> {
    let (settings, network, keys, me) = parts(path)?;
    start_log(settings.json_log);
    tracing::info!("this node is outside of what is proved; the core that decides what the protocol decides is proved");
    let store = Store::open(&settings.store, &network.instance, me)?;
    let (shared, is_ending) = (Shared::default(), Arc::new(AtomicBool::new(false)));
    page::start(settings.page, shared.clone(), is_ending.clone())?;
    tracing::info!(validator = me, page = %settings.page, "the node starts");
    let links = Links::open(me, &keys, &network, &settings)?;
    let application: Box<dyn Application> = match &settings.application {
        Chosen::Counter => Box::new(Counter::default()),
        Chosen::Socket(socket) => Box::new(SocketApplication::connect(socket)?),
    };
    let engine = Engine::start(me, keys, network, store)?;
    Service::new(engine, links, application, shared, without).run(&is_ending)
}

fn start_log(is_json: bool) {
    let log = tracing_subscriber::fmt().with_writer(std::io::stderr);
    if is_json { log.json().init() } else { log.init() }
}

/// Asks the page of a node that runs.
fn status(path: &Path) -> Result<(), Error> {
    let page = Settings::read(path)?.page;
    let failed = |error: std::io::Error| Error::Process(format!("no node answers at {page}: {error}"));
    let mut stream = TcpStream::connect_timeout(&page, Duration::from_secs(2)).map_err(failed)?;
    stream.set_read_timeout(Some(Duration::from_secs(2))).map_err(failed)?;
    stream.write_all(b"GET /status HTTP/1.0\r\n\r\n").map_err(failed)?;
    let mut text = String::new();
    stream.read_to_string(&mut text).map_err(failed)?;
    let body = text.split_once("\r\n\r\n").map_or("", |(_, body)| body);
    let value: serde_json::Value =
        serde_json::from_str(body).map_err(|error| Error::Process(format!("page {page}: {error}")))?;
    say(&format!("{value:#}\n"))
}

fn export(path: &Path, folder: &Path) -> Result<(), Error> {
    let (settings, network, _, me) = parts(path)?;
    let store = Store::look(&settings.store, &network.instance, me)?;
    let entries = export::write(folder, &network, &store)?;
    say(&format!("{entries} entries in {}\n", folder.join("network.hwlg").display()))
}

/// Runs all nodes of a local network, until they end: a signal from the keyboard reaches each.
fn run_all(folder: &Path, validators: u16) -> Result<(), Error> {
    let failed = |error: std::io::Error| Error::Process(error.to_string());
    let program = std::env::current_exe().map_err(failed)?;
    let mut children: Vec<Child> = Vec::new();
    for number in 0..validators {
        let settings = local::settings_path(folder, number.into());
        let page = Settings::read(&settings)?.page;
        say(&format!("validator {number}: page http://{page}/, log {number}.log\n"))?;
        let log = folder.join(format!("{number}.log"));
        let log = std::fs::File::create(&log).map_err(|error| Error::file(&log, error))?;
        let child = std::process::Command::new(&program).arg("run").arg(&settings).stderr(log).spawn();
        children.push(child.map_err(failed)?);
    }
    for (number, child) in children.iter_mut().enumerate() {
        let ended = child.wait().map_err(failed)?;
        if !ended.success() {
            say(&format!("validator {number} ended: {ended}; its log says why\n"))?;
        }
    }
    Ok(())
}
