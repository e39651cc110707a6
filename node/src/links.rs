//! The sockets: own vertices go to all peers at once by PUB, those of each peer come by a SUB, what is missing is asked
//! for by a DEALER, and what others ask for comes to one ROUTER. All are encrypted, and both ends know each other's key.

use crate::error::Error;
use crate::genesis::Network;
use crate::keys::Keys;
use crate::parcel::Parcel;
use crate::settings::{Route, Settings};
use std::time::Duration;
use zmq::{Context, Socket, SocketType};

/// So many messages to one peer, or from it, wait at most; each has at most so many bytes.
const MOST_WAITING: i32 = 4096;
const MOST_MESSAGE: i64 = 2 << 20;

/// So many answers wait for one peer that doesn't read them.
const MOST_ANSWERS: i32 = 8;

/// With more validators than so many a node tries and asks less often whether links are there, so that it costs no more.
const MANY: usize = 16;

/// The sockets that belong to one peer.
struct Peer {
    validator: u32,
    vertices: Socket,
    requests: Socket,
    route: Route,
}

pub struct Links {
    vertices: Socket,
    requests: Socket,
    peers: Vec<Peer>,
    _context: Context,
}

/// A request as it came: who asks, and where the answer goes.
pub struct Asked {
    pub validator: u32,
    pub back: Vec<u8>,
    pub bytes: Vec<u8>,
}

fn socket(context: &Context, kind: SocketType, scale: i32) -> Result<Socket, zmq::Error> {
    let socket = context.socket(kind)?;
    socket.set_linger(100)?;
    socket.set_sndhwm(if kind == zmq::ROUTER { MOST_ANSWERS } else { MOST_WAITING })?;
    socket.set_rcvhwm(MOST_WAITING)?;
    socket.set_maxmsgsize(MOST_MESSAGE)?;
    // Where packets vanish a try takes ever longer to send its first one again, so it ends early and another one begins.
    socket.set_connect_timeout(500 * scale)?;
    socket.set_reconnect_ivl(100)?;
    socket.set_reconnect_ivl_max(250 * scale)?;
    socket.set_handshake_ivl(5000 * scale)?;
    socket.set_heartbeat_ivl(2000 * scale)?;
    socket.set_heartbeat_timeout(6000 * scale)?;
    Ok(socket)
}

fn listening(
    context: &Context,
    kind: SocketType,
    keys: &Keys,
    scale: i32,
    address: &str,
) -> Result<Socket, zmq::Error> {
    let socket = socket(context, kind, scale)?;
    socket.set_zap_domain("highway")?;
    socket.set_curve_server(true)?;
    socket.set_curve_publickey(&keys.link_public)?;
    socket.set_curve_secretkey(&keys.link_secret)?;
    socket.bind(address)?;
    Ok(socket)
}

fn dialling(
    context: &Context,
    kind: SocketType,
    keys: &Keys,
    scale: i32,
    server: &[u8; 32],
    address: &str,
) -> Result<Socket, zmq::Error> {
    let socket = socket(context, kind, scale)?;
    socket.set_immediate(true)?;
    socket.set_curve_serverkey(server)?;
    socket.set_curve_publickey(&keys.link_public)?;
    socket.set_curve_secretkey(&keys.link_secret)?;
    if kind == zmq::SUB {
        socket.set_subscribe(b"")?;
    }
    socket.connect(address)?;
    Ok(socket)
}

impl Peer {
    fn dial(context: &Context, keys: &Keys, network: &Network, route: Route) -> Result<Peer, Error> {
        let (server, scale) = (&network.links[route.validator as usize], scale(network));
        let dial = |kind, address: &str| {
            dialling(context, kind, keys, scale, server, address).map_err(|error| Error::link(address, error))
        };
        let (vertices, requests) = (dial(zmq::SUB, &route.vertices)?, dial(zmq::DEALER, &route.requests)?);
        Ok(Peer { validator: route.validator, vertices, requests, route })
    }
}

fn scale(network: &Network) -> i32 {
    network.links.len().div_ceil(MANY) as i32
}

/// The way to each validator: that of the genesis file, or another that the settings name.
fn routes(network: &Network, settings: &Settings) -> Vec<Route> {
    let told = network.genesis.validator.iter().zip(0..).map(|(one, validator)| Route {
        validator,
        vertices: one.vertices.clone(),
        requests: one.requests.clone(),
    });
    let other = |validator| settings.route.iter().find(|route| route.validator == validator).cloned();
    told.map(|route| other(route.validator).unwrap_or(route)).collect()
}

impl Links {
    pub fn open(me: u32, keys: &Keys, network: &Network, settings: &Settings) -> Result<Links, Error> {
        let context = Context::new();
        crate::admission::start(&context, network.links.clone())?;
        let mut routes = routes(network, settings);
        let own = routes.remove(me as usize);
        let [vertices, requests] = settings.listen.clone().unwrap_or([own.vertices, own.requests]);
        let scale = scale(network);
        let listen = |kind, address: &str| {
            listening(&context, kind, keys, scale, address).map_err(|error| Error::link(address, error))
        };
        let (vertices, requests) = (listen(zmq::PUB, &vertices)?, listen(zmq::ROUTER, &requests)?);
        let peers = routes.into_iter().map(|route| Peer::dial(&context, keys, network, route));
        let peers = peers.collect::<Result<_, _>>()?;
        Ok(Links { vertices, requests, peers, _context: context })
    }

    /// Waits until something came, or so long. Whether something came.
    pub fn wait(&self, longest: Duration) -> Result<bool, Error> {
        let mut items = vec![self.requests.as_poll_item(zmq::POLLIN)];
        for peer in &self.peers {
            items.push(peer.vertices.as_poll_item(zmq::POLLIN));
            items.push(peer.requests.as_poll_item(zmq::POLLIN));
        }
        match zmq::poll(&mut items, longest.as_millis() as i64) {
            Ok(came) => Ok(came > 0),
            Err(zmq::Error::EINTR) => Ok(false),
            Err(error) => Err(Error::link("poll", error)),
        }
    }

    pub fn validators(&self) -> impl Iterator<Item = u32> {
        self.peers.iter().map(|peer| peer.validator)
    }

    /// Sends a vertex to all. A peer that doesn't read loses it, and asks for it later.
    pub fn publish(&self, parcel: &Parcel) {
        if let Err(error) = self.vertices.send(parcel.to_bytes(), zmq::DONTWAIT) {
            tracing::warn!(%error, "a vertex wasn't sent");
        }
    }

    fn peer(&self, validator: u32) -> Option<&Peer> {
        self.peers.iter().find(|peer| peer.validator == validator)
    }

    /// The vertices that came from this peer, at most so many.
    pub fn vertices(&self, validator: u32, most: usize) -> Vec<Vec<u8>> {
        let Some(peer) = self.peer(validator) else { return Vec::new() };
        std::iter::from_fn(|| peer.vertices.recv_bytes(zmq::DONTWAIT).ok()).take(most).collect()
    }

    /// The answer that came from this peer, if any.
    pub fn answer(&self, validator: u32) -> Option<Vec<Vec<u8>>> {
        self.peer(validator)?.requests.recv_multipart(zmq::DONTWAIT).ok()
    }

    /// Asks a peer. Whether it is connected.
    pub fn ask(&self, validator: u32, request: &[u8]) -> bool {
        self.peer(validator).is_some_and(|peer| peer.requests.send(request, zmq::DONTWAIT).is_ok())
    }

    /// A request that came, if any. One that isn't whole is passed over.
    pub fn asked(&self) -> Option<Asked> {
        let back = self.requests.recv_bytes(zmq::DONTWAIT).ok()?;
        let mut parts = Vec::new();
        while self.requests.get_rcvmore().ok()? {
            parts.push(self.requests.recv_msg(0).ok()?);
        }
        let mut part = parts.into_iter().next()?;
        let validator = part.gets("User-Id")?.parse().ok()?;
        Some(Asked { validator, back, bytes: part.to_vec() })
    }

    pub fn reply(&self, back: &[u8], parts: Vec<Vec<u8>>) {
        let parts: Vec<Vec<u8>> = std::iter::once(back.to_vec()).chain(parts).collect();
        if let Err(error) = self.requests.send_multipart(parts, zmq::DONTWAIT) {
            tracing::debug!(%error, "an answer wasn't sent");
        }
    }

    /// Stops to hear a peer, or begins again.
    pub fn hear(&self, validator: u32, is_heard: bool) {
        let Some(peer) = self.peer(validator) else { return };
        let done = match is_heard {
            true => peer.vertices.connect(&peer.route.vertices),
            false => peer.vertices.disconnect(&peer.route.vertices),
        };
        if let Err(error) = done {
            tracing::warn!(validator, %error, "its link didn't change");
        }
    }
}
