//! Two logs of the program `highway`, read by this crate: what the two nodes say of each other.
//!
//! `cargo run --example audit -- LEFT.hwlg RIGHT.hwlg`; with no words it takes two logs of the repository.

use highway::{Core, Sent, Verdict};
use std::error::Error;
use std::path::{Path, PathBuf};
use std::{env, fs};

/// The four bytes at that place as a number, the greatest first.
fn number_at(log: &[u8], at: usize) -> Result<usize, Box<dyn Error>> {
    let bytes = log.get(at..at + 4).ok_or("the log is torn")?;
    Ok(u32::from_be_bytes(bytes.try_into()?) as usize)
}

/// The vertices of a log of version 1, from that byte on. Before each stand its verdict and its length.
fn vertices_from(log: &[u8], mut at: usize) -> Result<Vec<Sent>, Box<dyn Error>> {
    let mut vertices = Vec::new();
    while at < log.len() {
        let end = at + 6 + number_at(log, at + 2)?;
        let part = at + 6..end;
        log.get(part.clone()).ok_or("the log is torn")?;
        vertices.push(Sent { part, verdict: log[at + 1] == 1 });
        at = end;
    }
    Ok(vertices)
}

/// A node with the entries of a log of version 1. The verdicts stand in the log.
fn node_of(path: &Path) -> Result<Core, Box<dyn Error>> {
    let log = fs::read(path)?;
    if !log.starts_with(b"HWLG\x01") {
        return Err("no log of version 1; `highway migrate` writes one anew".into());
    }
    let begin = 9 + number_at(&log, 5)?;
    let mut core = Core::new(log.get(9..begin).ok_or("the log is torn")?)?;
    let vertices = vertices_from(&log, begin)?;
    for (sent, answer) in vertices.iter().zip(core.deliver_all(&log, &vertices)) {
        if let Err(refusal) = answer {
            eprintln!("{}: the vertex at {}: {refusal}", path.display(), sent.part.start);
        }
    }
    Ok(core)
}

fn main() -> Result<(), Box<dyn Error>> {
    let words: Vec<PathBuf> = env::args_os().skip(1).map(PathBuf::from).collect();
    let stored = Path::new(env!("CARGO_MANIFEST_DIR")).join("../../crates/highway/data");
    let (left, right) = match words.as_slice() {
        [left, right] => (left.clone(), right.clone()),
        [] => (stored.join("signed.hwlg"), stored.join("signed-other.hwlg")),
        _ => return Err("two logs are wanted".into()),
    };
    let (verdict, text) = node_of(&left)?.audit(&node_of(&right)?)?;
    match verdict {
        Verdict::Agree { common } => println!("they agree on {common} blocks"),
        Verdict::Conflict { height, culprits, weight, .. } => {
            println!("they are in conflict at height {height}: {culprits} culprits weigh {weight}");
        }
        Verdict::Clash => println!("two units clash"),
    }
    print!("{text}");
    Ok(())
}
