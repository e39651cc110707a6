//! Logs of version 1, as the program writes them.

/// A vertex, the verdict on it, and where its entry begins in the log.
#[derive(Clone)]
pub struct Entry {
    // One of the two tests that read logs has no use for it.
    #[allow(dead_code)]
    pub at: usize,
    pub verdict: bool,
    pub vertex: Vec<u8>,
}

/// A configuration, and the entries behind it.
pub struct Log {
    pub config: Vec<u8>,
    pub entries: Vec<Entry>,
}

/// The log that the bytes are.
pub fn read_log(bytes: &[u8]) -> Log {
    assert_eq!(&bytes[..5], b"HWLG\x01");
    let number = |at: usize| u32::from_be_bytes(bytes[at..at + 4].try_into().unwrap()) as usize;
    let mut at = 9 + number(5);
    let mut log = Log { config: bytes[9..at].to_vec(), entries: Vec::new() };
    while at < bytes.len() {
        let end = at + 6 + number(at + 2);
        log.entries.push(Entry { at, verdict: bytes[at + 1] == 1, vertex: bytes[at + 6..end].to_vec() });
        at = end;
    }
    log
}
