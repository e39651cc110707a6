//! Four validators in one process: each a thread with a core, a file, and a lossy link to the others. They sign with a
//! scheme of the host's own, make blocks final, survive junk and loss, and one of them starts again from its file.
//!
//! `cargo run --example node`

use highway::{Core, Digest, Leaders, Need, PlanKind, Receipt, Settings, Signature, Signatures, Task};
use std::error::Error;
use std::fs::{File, OpenOptions};
use std::io::Write;
use std::path::{Path, PathBuf};
use std::sync::mpsc::{Receiver, Sender, channel};
use std::{env, fs, process, thread};

/// How many validators there are.
const VALIDATORS: u32 = 4;

/// How many needs a node asks for at a time.
const ASKED: usize = 64;

/// A stand-in for a scheme of signatures: 32 bytes that mix a secret with what is signed. `Detached` shows how a real one
/// is used.
fn sign(secret: u32, is_endorsement: bool, digest: Digest) -> [u8; 32] {
    let mut word = u64::from(secret) ^ 0x9e37_79b9_7f4a_7c15 ^ u64::from(is_endorsement);
    let mut signature = digest.0;
    for byte in &mut signature {
        word = (word ^ u64::from(*byte)).wrapping_mul(0x0100_0000_01b3).rotate_left(23);
        *byte = word as u8;
    }
    signature
}

fn is_right(is_endorsement: bool, signed: &Signature) -> bool {
    signed.validator < VALIDATORS && signed.signature == sign(signed.validator, is_endorsement, signed.unit)
}

/// What goes over a link: a vertex, or what its sender lacks.
#[derive(Clone)]
enum Message {
    Vertex(Vec<u8>),
    Want { from: u32, need: Need },
}

/// The file of a node: the vertices that were taken, each with its verdict and its length before it.
struct Store(File);

impl Store {
    /// The file with its whole entries. A last one that was cut off while it was written goes: nothing was done by it.
    fn open(path: &Path) -> std::io::Result<(Store, Vec<(Vec<u8>, bool)>)> {
        let file = OpenOptions::new().create(true).append(true).open(path)?;
        let bytes = fs::read(path)?;
        let (entries, rest) = entries_of(&bytes);
        file.set_len((bytes.len() - rest) as u64)?;
        file.sync_all()?;
        Ok((Store(file), entries))
    }

    /// Keeps a vertex: it is on the disk when this returns.
    fn put(&mut self, vertex: &[u8], verdict: bool) -> std::io::Result<()> {
        let mut entry = vec![u8::from(verdict)];
        entry.extend((vertex.len() as u32).to_be_bytes());
        entry.extend(vertex);
        self.0.write_all(&entry)?;
        self.0.sync_data()
    }
}

/// The whole entries of a file, and how many bytes are left behind them.
fn entries_of(bytes: &[u8]) -> (Vec<(Vec<u8>, bool)>, usize) {
    let (mut rest, mut entries) = (bytes, Vec::new());
    while let Some((head, behind)) = rest.split_at_checked(5) {
        let length = u32::from_be_bytes([head[1], head[2], head[3], head[4]]) as usize;
        let Some((vertex, behind)) = behind.split_at_checked(length) else { break };
        entries.push((vertex.to_vec(), head[0] == 1));
        rest = behind;
    }
    (entries, rest.len())
}

/// A host: the core, and what a host has of its own.
struct Host {
    me: u32,
    core: Core,
    store: Store,
    told: u64,
}

impl Host {
    /// A node that has again what its file holds.
    fn start(me: u32, config: &[u8], path: &Path) -> Result<Host, Box<dyn Error>> {
        let mut core = Core::new(config)?;
        let (store, entries) = Store::open(path)?;
        for (vertex, verdict) in entries {
            core.deliver(&vertex, verdict)?;
        }
        Ok(Host { me, core, store, told: 0 })
    }

    /// A vertex that came: judged, delivered, and kept if it was taken. Junk and what is refused change nothing.
    fn hear(&mut self, vertex: &[u8]) -> Result<(), Box<dyn Error>> {
        let Ok(signed) = Signatures::of(vertex) else { return Ok(()) };
        match self.core.deliver(vertex, signed.all(is_right)) {
            Ok(Receipt::Repeat) => Ok(()),
            Ok(_) => Ok(self.store.put(vertex, true)?),
            Err(refusal) if refusal.is_fault_of_sender() => Ok(()),
            Err(refusal) => Err(refusal.into()),
        }
    }

    /// The own unit, where one is due: signed, on the disk, delivered, and only then handed out to be sent. A crash
    /// between any two of these leaves a node that has its unit or never sent it. A value is made for a proposal alone.
    fn step(&mut self, now: u64) -> Result<Option<Vec<u8>>, Box<dyn Error>> {
        let due = self.core.due(self.me, now)?;
        let value = match due.task {
            Task::Make(PlanKind::Propose) => format!("block of {now}"),
            Task::Make(_) => String::new(),
            Task::Nothing(_) => return Ok(None),
        };
        let Some(plan) = self.core.next_unit(self.me, now, value.as_bytes())? else { return Ok(None) };
        let vertex = plan.signed(&sign(self.me, false, plan.digest()))?;
        self.store.put(&vertex, true)?;
        self.core.deliver(&vertex, true)?;
        Ok(Some(vertex))
    }

    /// What this node has for a peer's need.
    fn answer(&self, need: Need) -> Result<Vec<Message>, Box<dyn Error>> {
        Ok(self.core.for_need(need)?.into_iter().map(Message::Vertex).collect())
    }

    /// What it lacks.
    fn wants(&self) -> Result<Vec<Message>, Box<dyn Error>> {
        Ok(self.core.unmet(ASKED)?.into_iter().map(|need| Message::Want { from: self.me, need }).collect())
    }

    /// The blocks that became final since the last call, with their values.
    fn newly_final(&mut self) -> Result<Vec<(u64, String)>, Box<dyn Error>> {
        let mut blocks = Vec::new();
        for decision in self.core.decisions_from(self.told) {
            let value = self.core.unit(decision.block)?.and_then(|unit| unit.value).unwrap_or_default();
            blocks.push((decision.height, String::from_utf8_lossy(&value).into_owned()));
        }
        self.told += blocks.len() as u64;
        Ok(blocks)
    }
}

/// Links to all nodes that lose each fifth message, and now and then add junk.
struct Links {
    peers: Vec<Sender<Message>>,
    sent: u64,
}

impl Links {
    fn send(&mut self, to: u32, message: Message) {
        self.sent += 1;
        // A peer that has ended is no error of this node.
        if !self.sent.is_multiple_of(5) {
            let _ = self.peers[to as usize].send(message);
        }
        if self.sent.is_multiple_of(50) {
            let _ = self.peers[to as usize].send(Message::Vertex(b"junk".to_vec()));
        }
    }

    fn send_all(&mut self, from: u32, message: &Message) {
        (0..VALIDATORS).filter(|to| *to != from).for_each(|to| self.send(to, message.clone()));
    }
}

/// What a host does at one moment: it hears what came, answers, makes its unit, and asks for what it lacks.
fn turn(host: &mut Host, now: u64, inbox: &Receiver<Message>, links: &mut Links) -> Result<(), Box<dyn Error>> {
    for message in inbox.try_iter() {
        match message {
            Message::Vertex(vertex) => host.hear(&vertex)?,
            Message::Want { from, need } => host.answer(need)?.into_iter().for_each(|it| links.send(from, it)),
        }
    }
    if let Some(vertex) = host.step(now)? {
        links.send_all(host.me, &Message::Vertex(vertex));
    }
    for want in host.wants()? {
        links.send_all(host.me, &want);
    }
    Ok(())
}

/// A host's life, up to its end or its first error: its final blocks.
fn live(
    mut host: Host,
    inbox: &Receiver<Message>,
    mut links: Links,
    clock: Receiver<u64>,
    done: &Sender<()>,
) -> Result<Vec<(u64, String)>, String> {
    let mut chain = Vec::new();
    for now in clock {
        turn(&mut host, now, inbox, &mut links).map_err(|error| format!("node {}: {error}", host.me))?;
        chain.extend(host.newly_final().map_err(|error| format!("node {}: {error}", host.me))?);
        let _ = done.send(());
    }
    Ok(chain)
}

/// A threshold of 1: one of the four may be faulty.
fn config() -> Result<Vec<u8>, highway::Error> {
    Settings {
        fault_tolerance: 1,
        levels: 3,
        leaders: Leaders::Table(vec![0, 1, 2, 3]),
        min_exponent: 4,
        max_exponent: 10,
        ..Settings::of_weights(vec![1; VALIDATORS as usize])
    }
    .to_bytes()
}

/// Runs all hosts over 480 moments, thirty rounds of 16 milliseconds, and returns the chain of each.
fn run(folder: &Path, config: &[u8]) -> Result<Vec<Vec<(u64, String)>>, Box<dyn Error>> {
    let (senders, inboxes): (Vec<_>, Vec<_>) = (0..VALIDATORS).map(|_| channel()).unzip();
    let (done, all_done) = channel();
    let (mut clocks, mut hosts) = (Vec::new(), Vec::new());
    for (me, inbox) in (0..VALIDATORS).zip(inboxes) {
        let (tick, clock) = channel();
        clocks.push(tick);
        let host = Host::start(me, config, &folder.join(me.to_string()))?;
        let links = Links { peers: senders.clone(), sent: u64::from(me) };
        let done = done.clone();
        hosts.push(thread::spawn(move || live(host, &inbox, links, clock, &done)));
    }
    for now in 0..480 {
        for clock in &clocks {
            clock.send(now)?;
            all_done.recv()?;
        }
    }
    drop(clocks);
    let chains = hosts.into_iter().map(|host| host.join().map_err(|_| "a node panicked".to_owned())?);
    Ok(chains.collect::<Result<_, String>>()?)
}

fn main() -> Result<(), Box<dyn Error>> {
    let folder: PathBuf = env::temp_dir().join(format!("highway-nodes-{}", process::id()));
    fs::create_dir_all(&folder)?;
    let config = config()?;
    let chains = run(&folder, &config)?;
    for (me, chain) in chains.iter().enumerate() {
        println!("node {me}: {} final blocks, the last {:?}", chain.len(), chain.last());
    }
    if chains.iter().any(|chain| chain.len() < 10) {
        return Err("too few blocks are final".into());
    }

    // Node 1 starts again from its file, whose last entry is cut off, and has the same blocks but perhaps the last.
    let path = folder.join("1");
    let length = fs::metadata(&path)?.len();
    OpenOptions::new().write(true).open(&path)?.set_len(length - 1)?;
    let again = Host::start(1, &config, &path)?.newly_final()?;
    if !chains[1].starts_with(&again) || again.len() + 1 < chains[1].len() {
        return Err("node 1 hasn't its blocks again".into());
    }
    println!("node 1 started again with {} final blocks", again.len());
    Ok(fs::remove_dir_all(&folder)?)
}
