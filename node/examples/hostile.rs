//! A validator's key in bad hands, for the tests: `hostile KEY GENESIS LOG VALIDATOR HOW`, with a log that a node exported.
//!
//! `deaf` connects to everybody and never reads. `greedy` asks everybody for everything again and again. The others flood:
//! they send units of this key, at the validator's own address, thousands a second. `forks` are all the first one;
//! `breaks` break a rule of the units below them; `waits` cite what isn't there; `old` are a lawful chain from 1970 on.

use highway::{Core, Detached, Digest, Plan, PlanKind};
use highway_ed25519::SecretKey;
use std::error::Error;
use std::time::Duration;
use zmq::{Context, Socket, SocketType};

type Done<T> = Result<T, Box<dyn Error>>;

/// The bytes of these hexadecimal digits.
fn bytes(digits: &str) -> Done<Vec<u8>> {
    let pairs = (0..digits.len()).step_by(2).map(|at| Ok(u8::from_str_radix(&digits[at..at + 2], 16)?));
    pairs.collect()
}

/// The text under this name.
fn text<'a>(table: &'a toml::Value, name: &str) -> Done<&'a str> {
    table.get(name).and_then(toml::Value::as_str).ok_or_else(|| format!("no {name}").into())
}

struct Hostile {
    context: Context,
    link_secret: Vec<u8>,
    link_public: Vec<u8>,
    signing: SecretKey,
    validators: Vec<toml::Value>,
    start: u64,
    /// The configuration of the core: a log begins with it.
    config: Vec<u8>,
    me: u32,
}

impl Hostile {
    fn read(words: &[String]) -> Done<Hostile> {
        let keys: toml::Value = std::fs::read_to_string(&words[0])?.parse()?;
        let genesis: toml::Value = std::fs::read_to_string(&words[1])?.parse()?;
        let validators = genesis.get("validator").and_then(toml::Value::as_array).ok_or("no validators")?.clone();
        let start = genesis.get("start").and_then(toml::Value::as_integer).ok_or("no start")?;
        let log = std::fs::read(&words[2])?;
        let length = u32::from_be_bytes(log[5..9].try_into()?) as usize;
        Ok(Hostile {
            context: Context::new(),
            link_secret: bytes(text(&keys, "link")?)?,
            link_public: bytes(text(&keys, "link_public")?)?,
            signing: SecretKey::read(&bytes(text(&keys, "signing")?)?)?,
            validators,
            start: u64::try_from(start)?,
            config: log[9..9 + length].to_vec(),
            me: words[3].parse()?,
        })
    }

    fn socket(&self, kind: SocketType) -> Done<Socket> {
        let socket = self.context.socket(kind)?;
        socket.set_curve_publickey(&self.link_public)?;
        socket.set_curve_secretkey(&self.link_secret)?;
        Ok(socket)
    }

    /// A socket to each other validator, at the address of this name.
    fn dial(&self, kind: SocketType, name: &str) -> Done<Vec<Socket>> {
        let mut sockets = Vec::new();
        for (_, one) in (0..).zip(&self.validators).filter(|(number, _)| *number != self.me) {
            let socket = self.socket(kind)?;
            socket.set_curve_serverkey(&bytes(text(one, "link")?)?)?;
            if kind == zmq::SUB {
                socket.set_rcvhwm(1)?;
                socket.set_subscribe(b"")?;
            }
            socket.connect(text(one, name)?)?;
            sockets.push(socket);
        }
        Ok(sockets)
    }

    /// A request for all that there is.
    fn request(&self) -> Vec<u8> {
        let none_of_each = self.validators.iter().flat_map(|_| [vec![1], vec![0; 40]].concat());
        [0; 8].into_iter().chain([1]).chain(none_of_each).collect()
    }

    /// Sends requests without end, and reads the answers or doesn't.
    fn ask(&self, is_deaf: bool) -> Done<()> {
        let (asking, hearing) = (self.dial(zmq::DEALER, "requests")?, self.dial(zmq::SUB, "vertices")?);
        loop {
            for socket in &asking {
                let _ = socket.send(self.request(), zmq::DONTWAIT);
                while !is_deaf && socket.recv_multipart(zmq::DONTWAIT).is_ok() {}
            }
            std::thread::sleep(Duration::from_millis(if is_deaf { 100 } else { 1 }));
            debug_assert!(!hearing.is_empty());
        }
    }

    /// The message that a node sends of a unit, and the vertex in it.
    fn message(&self, unit: &[u8]) -> (Vec<u8>, Vec<u8>) {
        let mut signatures = Detached::new();
        let slot = self.signing.sign(false, Digest(Detached::slot_of(unit)), &mut signatures);
        let vertex = [[1].as_slice(), unit, &slot].concat();
        let beside = Detached::entry(signatures.get(&slot).unwrap_or_default());
        ([&(vertex.len() as u32).to_be_bytes(), vertex.as_slice(), &beside].concat(), vertex)
    }

    /// The next unit of this validator that is due at a moment from this one on, the moment, and its value's number.
    fn next(&self, core: &mut Core, from: u64, count: u64, is_block: bool) -> Done<(Plan, u64)> {
        for now in from.. {
            let plan = core.next_unit(self.me, now, format!("proposal {count}").as_bytes())?;
            if let Some(plan) = plan.filter(|plan| !is_block || plan.kind() == PlanKind::Propose) {
                return Ok((plan, now));
            }
        }
        Err("no unit".into())
    }

    fn flood(&self, how: &str) -> Done<()> {
        let socket = self.socket(zmq::PUB)?;
        socket.set_curve_server(true)?;
        socket.set_sndhwm(100_000)?;
        socket.bind(text(&self.validators[self.me as usize], "vertices")?)?;
        std::thread::sleep(Duration::from_secs(4));
        let mut core = Core::new(&self.config)?;
        let begin = if how == "old" { 0 } else { self.start };
        let (first, mut now) = self.next(&mut core, begin, 0, true)?;
        let (message, vertex) = self.message(first.unit());
        socket.send(message, 0)?;
        core.deliver(&vertex, true)?;
        let (second, _) = self.next(&mut core, now + 1, 0, false)?;
        let number_at = 32 + 4;
        let own_at = second.unit().windows(32).position(|part| part == first.digest().0).ok_or("no citation")?;
        for count in 1u64.. {
            let mut unit = second.unit().to_vec();
            match how {
                "forks" => unit = self.next(&mut Core::new(&self.config)?, begin, count, true)?.0.unit().to_vec(),
                "breaks" => unit[number_at..number_at + 8].copy_from_slice(&(7 + count).to_be_bytes()),
                "waits" => unit[own_at..own_at + 32].copy_from_slice(&Detached::slot_of(&count.to_be_bytes())),
                "old" => {
                    let (plan, at) = self.next(&mut core, now + 1, count, false)?;
                    (unit, now) = (plan.unit().to_vec(), at);
                }
                _ => return Err(format!("{how}: no such way").into()),
            }
            let (message, vertex) = self.message(&unit);
            if how == "old" {
                core.deliver(&vertex, true)?;
            }
            socket.send(message, 0)?;
            std::thread::sleep(Duration::from_micros(100));
        }
        Ok(())
    }
}

fn main() -> Done<()> {
    let words: Vec<String> = std::env::args().skip(1).collect();
    if words.len() != 5 {
        return Err("hostile KEY GENESIS LOG VALIDATOR HOW".into());
    }
    let hostile = Hostile::read(&words)?;
    match words[4].as_str() {
        "deaf" => hostile.ask(true),
        "greedy" => hostile.ask(false),
        how => hostile.flood(how),
    }
}
