//! Random logs, delivered through this crate: each delivery and each report is answered as an independent reference of
//! the protocol answers it. `data/logs.bin` has each of 200 logs behind its length, and `data/answers.txt` the
//! reference's answers: a line for each delivery, as the program prints it for a script, and the report on the node,
//! as it prints it for a replay. `data/limits.bin` and `data/limits.txt` have 40 more, whose configurations leave too
//! little room. There a last line has the limit and the place of the first entry that it refuses, at which the program
//! ends a replay.

mod log;

use highway::{Core, Error, Observation, PairFault, Receipt, Refusal, Rule, Sent};
use log::{Log, read_log};

const LOGS: &[u8] = include_bytes!("data/logs.bin");
const ANSWERS: &str = include_str!("data/answers.txt");
const LIMITED_LOGS: &[u8] = include_bytes!("data/limits.bin");
const LIMITED_ANSWERS: &str = include_str!("data/limits.txt");

fn dashed(rule: Rule) -> String {
    // The program prints a rule by its number and name; the number alone is compared.
    (rule as u32).to_string()
}

fn told(answer: Result<Receipt, Refusal>) -> String {
    match answer {
        Ok(Receipt::Admitted { settled }) => format!("admitted {settled}"),
        Ok(Receipt::Parked { missing }) => format!("parked {missing}"),
        Ok(Receipt::Dropped(rule)) => format!("dropped {}", dashed(rule)),
        Ok(Receipt::Repeat) => "repeat".into(),
        Err(refusal) => match refusal.error {
            Error::BadSignature => "refused signature".into(),
            Error::Local(rule) => format!("refused local {}", dashed(rule)),
            Error::Pair(PairFault::Creator) => "refused pair creator".into(),
            Error::Pair(PairFault::Sequence) => "refused pair sequence".into(),
            Error::Pair(PairFault::Instance) => "refused pair instance".into(),
            Error::Pair(PairFault::Same) => "refused pair same".into(),
            Error::Clash(_) => "refused clash".into(),
            Error::RecordsFull => "refused records full".into(),
            Error::ParkFull => "refused parked full".into(),
            other => panic!("{other}"),
        },
    }
}

/// The line without the name of a rule.
fn without_rule_name(line: &str) -> String {
    let words: Vec<&str> = line.split(' ').collect();
    match words.as_slice() {
        ["dropped", number, _] => format!("dropped {number}"),
        ["refused", "local", number, _] => format!("refused local {number}"),
        _ => line.into(),
    }
}

/// The report on a node, as `highway replay` prints it.
fn report(core: &Core, validators: u32, refused: usize, repeats: usize) -> Vec<String> {
    let summary = core.summary().unwrap();
    let mut lines = vec![format!(
        "units {} parked {} dropped {} refused {refused} repeats {repeats}",
        summary.settled, summary.parked, summary.dropped
    )];
    let faulty: Vec<String> = (0..validators)
        .filter(|validator| core.observation(*validator).unwrap() == Observation::Faulty)
        .map(|validator| validator.to_string())
        .collect();
    lines.push(format!("faulty {}", if faulty.is_empty() { "-".into() } else { faulty.join(" ") }));
    lines.push(format!("fork {}", summary.fork.map_or("-".into(), |fork| fork.to_string())));
    for decision in core.decisions_from(0) {
        lines.push(format!(
            "final {} {} level {} quorum {} at {}",
            decision.height, decision.block, decision.level, decision.quorum, decision.at
        ));
    }
    if summary.is_exceeded {
        lines.push(format!("exceeded {}", summary.faulty_weight));
    }
    lines
}

/// Each log, with its lines.
fn cases(mut rest: &[u8], answers: &'static str) -> Vec<(Log, Vec<&'static str>)> {
    let mut logs = Vec::new();
    while let [a, b, c, d, behind @ ..] = rest {
        let (log, others) = behind.split_at(u32::from_be_bytes([*a, *b, *c, *d]) as usize);
        logs.push(read_log(log));
        rest = others;
    }
    let mut lines: Vec<Vec<&str>> = Vec::new();
    for line in answers.lines() {
        if line.starts_with("case ") {
            lines.push(Vec::new());
        } else {
            lines.last_mut().unwrap().push(line);
        }
    }
    assert_eq!(logs.len(), lines.len());
    logs.into_iter().zip(lines).collect()
}

/// What a limit refuses, where this is refused by one.
fn limit_of(answer: &Result<Receipt, Refusal>) -> Option<&'static str> {
    match answer {
        Err(refusal) if refusal.error == Error::RecordsFull => Some("records"),
        Err(refusal) if refusal.error == Error::ParkFull => Some("parked"),
        _ => None,
    }
}

/// The node of the log, and all lines on it.
fn replayed(log: &Log) -> (Core, Vec<String>) {
    let mut core = Core::new(&log.config).unwrap();
    let (mut lines, mut limit, mut refused, mut repeats) = (Vec::new(), None, 0, 0);
    for entry in &log.entries {
        let before = core.summary();
        let answer = core.deliver(&entry.vertex, entry.verdict);
        if let Some(what) = limit_of(&answer) {
            assert!(!answer.unwrap_err().is_fault_of_sender());
            limit.get_or_insert(format!("limit {what} at {}", entry.at));
        }
        if answer.is_err() {
            assert_eq!(core.summary(), before, "a refusal changes nothing");
        }
        refused += usize::from(answer.is_err());
        repeats += usize::from(answer == Ok(Receipt::Repeat));
        lines.push(told(answer));
    }
    let validators = u32::from_be_bytes(log.config[1..5].try_into().unwrap());
    lines.extend(report(&core, validators, refused, repeats));
    lines.extend(limit);
    (core, lines)
}

/// All vertices of the log in one call, among bytes that are none of them: the node, and what each was answered.
fn replayed_at_once(log: &Log) -> (Core, Vec<String>) {
    let (mut bytes, mut vertices) = (Vec::new(), Vec::new());
    for entry in &log.entries {
        bytes.extend(b"between");
        let start = bytes.len();
        bytes.extend(&entry.vertex);
        vertices.push(Sent { part: start..bytes.len(), verdict: entry.verdict });
    }
    let mut core = Core::new(&log.config).unwrap();
    let answers = core.deliver_all(&bytes, &vertices).into_iter().map(told).collect();
    (core, answers)
}

/// Each log is answered as the reference answers it, also in one call, and the journal alone makes the same node.
fn compare(cases: Vec<(Log, Vec<&str>)>) {
    for (number, (log, expected)) in cases.into_iter().enumerate() {
        let (core, lines) = replayed(&log);
        let expected: Vec<String> = expected.into_iter().map(without_rule_name).collect();
        assert_eq!(lines, expected, "log {number}");

        let mut again = Core::new(&log.config).unwrap();
        for entry in core.journal_from(0) {
            assert_ne!(again.deliver(&entry.unwrap(), true), Ok(Receipt::Repeat));
        }
        assert_eq!(again.summary(), core.summary(), "log {number}");

        let (at_once, answers) = replayed_at_once(&log);
        assert_eq!(answers, expected[..answers.len()], "log {number}");
        assert_eq!(answers.len(), log.entries.len());
        assert_eq!(at_once.summary(), core.summary(), "log {number}");
    }
}

#[test]
fn logs_are_answered_as_the_reference_answers() {
    let cases = cases(LOGS, ANSWERS);
    assert_eq!(cases.len(), 200);
    compare(cases);
}

#[test]
fn limits_are_answered_as_the_reference_answers() {
    let cases = cases(LIMITED_LOGS, LIMITED_ANSWERS);
    for limit in ["records", "parked"] {
        let refused = format!("refused {limit} full");
        let begin = format!("limit {limit} ");
        assert_eq!(cases.iter().filter(|(_, lines)| lines.last().unwrap().starts_with(&begin)).count(), 20);
        assert!(cases.iter().flat_map(|(_, lines)| lines).filter(|line| **line == refused).count() > 100);
    }
    compare(cases);
}
