//! Each call, once on its way and once beside it.

mod log;

use highway::{
    BytesFault, Certificate, CertificateFault, Core, Error, Judgement, Leaders, Limit, Need, Observation, Place,
    Receipt, Refusal, Sent, Settings, Signatures, UnitState, Verdict,
};
use log::{Entry, read_log};
use std::ops::Range;

const LOGS: &[u8] = include_bytes!("data/logs.bin");

/// Three validators of one weight, of whom the first leads each round of 4 milliseconds.
fn settings() -> Settings {
    Settings {
        leaders: Leaders::Table(vec![0]),
        min_exponent: 2,
        max_exponent: 10,
        ..Settings::of_weights(vec![1, 1, 1])
    }
}

fn nodes() -> Vec<Core> {
    let config = settings().to_bytes().unwrap();
    (0..3).map(|_| Core::new(&config).unwrap()).collect()
}

/// Each validator steps until this moment, and all hear all.
fn run(cores: &mut [Core], until: u64) -> Vec<Vec<u8>> {
    let mut sent = Vec::new();
    for now in 0..until {
        for me in 0..3 {
            let Some(plan) = cores[me].next_unit(me as u32, now, b"value").unwrap() else { continue };
            let vertex = plan.signed(&[me as u8; 32]).unwrap();
            for core in cores.iter_mut() {
                core.deliver(&vertex, true).unwrap();
            }
            sent.push(vertex);
        }
    }
    sent
}

#[test]
fn validators_make_blocks_final() {
    let mut cores = nodes();
    let sent = run(&mut cores, 64);
    let summary = cores[0].summary().unwrap();
    assert!(summary.decided > 0 && summary.journal == sent.len() as u64);
    assert_eq!(Ok(summary), cores[1].summary());
    let first = cores[0].decision(0).unwrap();
    assert_eq!((first.height, first.level), (0, 1));
    assert!(matches!(cores[2].place(first.block).unwrap(), Place::Settled(_)));
    assert!(matches!(cores[2].observation(1).unwrap(), Observation::Correct(_)));
    assert_eq!(cores[0].observation(3), Err(Error::OutOfRange));
    assert_eq!(cores[0].next_unit(3, 0, b""), Err(Error::OutOfRange));
    assert_eq!(cores[0].next_unit(0, 1 << 63, b""), Err(Error::OutOfRange));
    assert_eq!(cores[0].next_unit(0, 0, &[0; 4097]), Err(Error::OutOfRange));
    assert_eq!(cores[0].decision(summary.decided), None);
    assert_eq!(cores[0].entry(summary.journal), Err(Error::Nothing));
}

#[test]
fn what_is_missing_is_asked_for() {
    let mut cores = nodes();
    let sent = run(&mut cores, 32);
    let mut late = Core::new(&settings().to_bytes().unwrap()).unwrap();
    assert!(matches!(late.deliver(sent.last().unwrap(), true), Ok(Receipt::Parked { .. })));
    assert_eq!(late.fork(), Ok(None));
    for _ in 0..sent.len() {
        for need in late.unmet(256).unwrap() {
            assert!(matches!(need, Need::Unit(_)));
            for vertex in cores[0].for_need(need).unwrap() {
                late.deliver(&vertex, true).unwrap();
            }
        }
    }
    assert!(late.unmet(256).unwrap().is_empty());
    assert_eq!(late.unmet(usize::MAX), Err(Error::OutOfMemory));
    assert_eq!(late.fork(), cores[0].fork());
    assert_eq!(late.for_need(Need::Evidence(0)), Ok(vec![]));
}

#[test]
fn a_block_is_certified() {
    let mut cores = nodes();
    run(&mut cores, 32);
    let block = cores[0].decision(0).unwrap().block;
    let certificate = cores[0].certificate(0).unwrap().unwrap();
    assert_eq!(cores[0].certificate(1 << 40), Err(Error::OutOfRange));
    let signed = certificate.signatures().unwrap();
    let verdicts: Vec<bool> =
        signed.iter().map(|it| it.all(|_, one| one.signature == [one.validator as u8; 32])).collect();
    assert!(!verdicts.is_empty() && verdicts.iter().all(|verdict| *verdict));
    let unit = cores[0].unit(block).unwrap().unwrap();
    assert_eq!(unit.state, UnitState::Settled { vote: block, parent: None, height: Some(0) });
    let yes = certificate.check(&verdicts).unwrap();
    assert!(matches!(&yes, Judgement::Yes { block: shown, height: 0, .. } if *shown == block));
    assert!(matches!(yes, Judgement::Yes { value, total: 3, .. } if Some(&value) == unit.value.as_ref()));
    let mut wrong = verdicts.clone();
    wrong[0] = false;
    assert_eq!(certificate.check(&wrong), Ok(Judgement::Refused(0, Error::BadSignature)));
    assert_eq!(certificate.check(&verdicts[1..]), Err(Error::OutOfRange));
    let none = Certificate::from_bytes(b"HWCX".to_vec());
    let fault = Error::Certificate(CertificateFault::BadMagic);
    assert_eq!(none.check(&[]), Err(fault));
    assert_eq!(none.signatures(), Err(fault));
}

#[test]
fn two_nodes_are_audited() {
    let (mut left, mut right) = (nodes(), nodes());
    run(&mut left, 32);
    run(&mut right, 16);
    assert!(matches!(left[0].audit(&right[0]).unwrap().0, Verdict::Agree { common } if common > 0));
    // A node is beside itself as it is beside another that received the same.
    assert_eq!(left[0].audit(&left[0]), left[0].audit(&left[1]));
    let other = Core::new(&Settings::of_weights(vec![1]).to_bytes().unwrap()).unwrap();
    assert_eq!(left[0].audit(&other).unwrap_err(), Error::OtherInstance);
}

#[test]
fn bytes_and_configurations_are_judged() {
    assert_eq!(Core::new(&[]).unwrap_err(), Error::Bytes { fault: BytesFault::Truncated, at: 0 });
    let zero = Settings::of_weights(vec![1, 0]).to_bytes();
    assert_eq!(zero, Err(Error::Config(Limit::ZeroWeight(1))));
    assert_eq!(Settings::of_weights(vec![1; 1025]).to_bytes(), Err(Error::TooLong));
    let ended = Settings { end: Some(7), ..settings() }.to_bytes().unwrap();
    assert_eq!(ended[0], 2);
    assert!(Core::new(&ended).is_ok());
    let mut cores = nodes();
    let sent = run(&mut cores, 4);
    assert_eq!(cores[0].deliver(&sent[0], true), Ok(Receipt::Repeat));
    let torn = Signatures::of(&sent[0][..20]);
    assert!(matches!(torn, Err(Error::Bytes { fault: BytesFault::Truncated, .. })));
    assert!(matches!(Signatures::of(&sent[0]), Ok(Signatures::Unit(one)) if one.validator == 0));
}

#[test]
fn a_refused_vertex_of_a_list_does_not_stop_the_rest() {
    let mut cores = nodes();
    let sent = run(&mut cores, 4);
    let bytes = [sent[0].as_slice(), &sent[1]].concat();
    let (first, end) = (sent[0].len(), bytes.len());
    let unsigned = Sent { part: 0..first, verdict: false };
    let mut vertices = vec![unsigned];
    let outside = [0..end + 1, end + 1..end + 1, Range { start: first, end: 0 }];
    let inside = [0..first - 1, first..first, 0..first, first..end];
    vertices.extend(outside.into_iter().chain(inside).map(|part| Sent { part, verdict: true }));
    let refused = |error| Err(Refusal { error });
    let torn = |at| refused(Error::Bytes { fault: BytesFault::Truncated, at });
    let mut late = Core::new(&settings().to_bytes().unwrap()).unwrap();
    let answers = late.deliver_all(&bytes, &vertices);
    let outside = refused(Error::OutOfRange);
    assert_eq!(answers[..4], [refused(Error::BadSignature), outside, outside, outside]);
    assert!(matches!(answers[4], Err(Refusal { error: Error::Bytes { fault: BytesFault::Truncated, .. } })));
    let settled = Ok(Receipt::Admitted { settled: 1 });
    assert_eq!(answers[5..], [torn(0), settled, settled]);
    assert!(!answers[1].unwrap_err().is_fault_of_sender());
    assert_eq!(late.deliver_all(&bytes, &[]), []);
    assert_eq!(late.summary().unwrap().journal, 2);
}

/// Delivers entries of a log, some of which are refused.
fn deliver_all(core: &mut Core, entries: &[Entry]) {
    for entry in entries {
        let _ = core.deliver(&entry.vertex, entry.verdict);
    }
}

#[test]
fn a_node_goes_to_another_thread() {
    let log = read_log(&LOGS[4..4 + u32::from_be_bytes(LOGS[..4].try_into().unwrap()) as usize]);
    let mut core = Core::new(&log.config).unwrap();
    let (first, rest) = log.entries.split_at(log.entries.len() / 2);
    deliver_all(&mut core, first);
    let here: Vec<_> = rest.to_vec();
    let core = std::thread::spawn(move || {
        deliver_all(&mut core, &here);
        core
    })
    .join()
    .unwrap();
    let mut whole = Core::new(&log.config).unwrap();
    deliver_all(&mut whole, &log.entries);
    assert_eq!(core.summary(), whole.summary());
    assert!(format!("{core:?}").contains("journal"));
}
