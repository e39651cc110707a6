//! What each call costs on the node of a log, in milliseconds: `cargo run --release --example limits -- LOG`. The log is
//! one of version 1, as `tools/measure/worst_logs.py` writes it.

use highway::{Core, Digest, Need, Sent};
use std::error::Error;
use std::hint::black_box;
use std::time::Instant;

/// The least of three runs, in milliseconds.
fn timed<T>(name: &str, mut call: impl FnMut() -> T) {
    let mut least = f64::MAX;
    for _ in 0..3 {
        let begun = Instant::now();
        black_box(call());
        least = least.min(begun.elapsed().as_secs_f64() * 1000.0);
    }
    println!("{name:<28} {least:>10.3} ms");
}

/// The configuration of a log, and where its vertices stand.
fn parts_of(log: &[u8]) -> Option<(&[u8], Vec<Sent>)> {
    let number = |at: usize| Some(u32::from_be_bytes(log.get(at..at + 4)?.try_into().ok()?) as usize);
    let begin = 9 + number(5)?;
    let (mut at, mut vertices) = (begin, Vec::new());
    while at < log.len() {
        let end = at + 6 + number(at + 2)?;
        vertices.push(Sent { part: at + 6..end, verdict: log[at + 1] == 1 });
        at = end;
    }
    Some((log.get(9..begin)?, vertices))
}

fn main() -> Result<(), Box<dyn Error>> {
    let log = std::fs::read(std::env::args_os().nth(1).ok_or("a log is wanted")?)?;
    let (config, vertices) = parts_of(&log).ok_or("no whole log of version 1")?;
    let begun = Instant::now();
    let mut core = Core::new(config)?;
    black_box(core.deliver_all(&log, &vertices));
    println!("{} vertices in {:.1} s", vertices.len(), begun.elapsed().as_secs_f64());
    let mut other = Core::new(config)?;
    black_box(other.deliver_all(&log, &vertices));
    let summary = core.summary()?;
    println!("{summary:?}");
    let fork = summary.fork.unwrap_or(Digest([0; 32]));
    timed("summary", || core.summary());
    timed("observation", || core.observation(0));
    timed("faulty", || core.faulty());
    timed("place", || core.place(fork));
    timed("unit", || core.unit(fork));
    timed("decisions_from(0)", || core.decisions_from(0).count());
    for room in [64, 256, 1_024] {
        timed(&format!("unmet({room})"), || core.unmet(room));
    }
    timed("for_need, a unit", || core.for_need(Need::Unit(fork)));
    timed("for_need, evidence", || core.for_need(Need::Evidence(0)));
    // The leader of the next round has a block to propose.
    let now = core.unit(fork)?.map_or(0, |block| block.round + (1 << block.exponent));
    let leader = core.due(0, now)?.leader;
    timed("due, for the leader", || core.due(leader, now));
    timed("next_unit, for the leader", || core.next_unit(leader, now, b""));
    timed("audit", || core.audit(&other));
    let Some(last) = summary.decided.checked_sub(1) else { return Ok(()) };
    timed("certificate", || core.certificate(last));
    let Some(certificate) = core.certificate(last)? else { return Ok(()) };
    println!("{} bytes in the certificate", certificate.as_bytes().len());
    timed("signatures", || certificate.signatures());
    let verdicts = vec![true; certificate.signatures()?.len()];
    timed("check", || certificate.check(&verdicts));
    Ok(())
}
