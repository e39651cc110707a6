//! Delivers a log of version 1 some times over, all vertices in one call, or each in a call of its own where the first
//! word is `single`: what `tools/bindings/cost.sh` measures.

use highway::{Core, Sent};

fn main() {
    let mut words: Vec<String> = std::env::args().skip(1).collect();
    let is_single = words.first().is_some_and(|word| word == "single");
    words.drain(..usize::from(is_single));
    let log = std::fs::read(words.first().expect("a log")).expect("a log that is there");
    let times: usize = words.get(1).map_or(1, |times| times.parse().expect("a number"));
    let number = |at: usize| u32::from_be_bytes(log[at..at + 4].try_into().expect("four bytes")) as usize;
    let begin = 9 + number(5);
    let (mut delivered, mut settled) = (0, 0);
    for _ in 0..times {
        let mut core = Core::new(&log[9..begin]).expect("a lawful configuration");
        let (mut at, mut vertices) = (begin, Vec::new());
        while at < log.len() {
            let end = at + 6 + number(at + 2);
            vertices.push(Sent { part: at + 6..end, verdict: log[at + 1] == 1 });
            at = end;
        }
        // A refusal is an answer as well.
        if is_single {
            for Sent { part, verdict } in vertices.iter().cloned() {
                let _ = core.deliver(&log[part], verdict);
            }
        } else {
            let _ = core.deliver_all(&log, &vertices);
        }
        delivered += vertices.len();
        settled = core.summary().expect("a summary").settled;
        // The program leaves its node to the end of the process too, so what a drop costs isn't counted.
        std::mem::forget(core);
    }
    println!("{delivered} delivered, {settled} settled");
}
