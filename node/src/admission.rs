//! Who may connect: the validators alone, by their link keys. This answers ZeroMQ's questions (its protocol ZAP), and
//! names each connection by the number of its validator.

use crate::error::Error;
use std::thread;

const ADDRESS: &str = "inproc://zeromq.zap.01";

/// Answers, in a thread of its own, until the context ends.
pub fn start(context: &zmq::Context, links: Vec<[u8; 32]>) -> Result<(), Error> {
    let socket = context.socket(zmq::REP).map_err(|error| Error::link(ADDRESS, error))?;
    socket.bind(ADDRESS).map_err(|error| Error::link(ADDRESS, error))?;
    let serve = move || {
        while let Ok(question) = socket.recv_multipart(0) {
            if socket.send_multipart(answer(&question, &links), 0).is_err() {
                break;
            }
        }
    };
    let started = thread::Builder::new().name("admission".to_owned()).spawn(serve);
    started.map(|_| ()).map_err(|error| Error::Process(error.to_string()))
}

/// The version, the question's number, a status, its text, the connection's name, and nothing more.
fn answer(question: &[Vec<u8>], links: &[[u8; 32]]) -> Vec<Vec<u8>> {
    let number = question.get(1).cloned().unwrap_or_default();
    let is_curve = question.get(5).is_some_and(|mechanism| mechanism == b"CURVE");
    let key = question.get(6).filter(|_| is_curve);
    let validator = key.and_then(|key| links.iter().position(|link| link.as_slice() == key));
    let (status, text, name) = match validator {
        Some(validator) => ("200", "a validator", validator.to_string()),
        None => ("400", "no validator", String::new()),
    };
    let parts: [&[u8]; 6] = [b"1.0", &number, status.as_bytes(), text.as_bytes(), name.as_bytes(), b""];
    parts.map(<[u8]>::to_vec).to_vec()
}

#[cfg(test)]
mod tests {
    use super::*;

    fn asked(key: &[u8]) -> Vec<u8> {
        let question: [&[u8]; 7] = [b"1.0", b"9", b"", b"127.0.0.1", b"", b"CURVE", key];
        answer(&question.map(<[u8]>::to_vec), &[[1; 32], [2; 32]])[2].clone()
    }

    #[test]
    fn validators_alone_are_let_in() {
        assert_eq!(asked(&[2; 32]), b"200");
        assert_eq!(asked(&[3; 32]), b"400");
        assert_eq!(answer(&[], &[[1; 32]])[2], b"400");
    }
}
