//! A log of version 1 with its side file and the public keys: what the proved program and the lens audit.

use crate::error::Error;
use crate::genesis::Network;
use crate::hex;
use crate::store::Store;
use highway::Detached;
use std::fs::File;
use std::io::{BufWriter, Write};
use std::path::Path;

/// Writes `FOLDER/network.hwlg`, `FOLDER/network.hwsg` and `FOLDER/public.keys`. It answers how many entries there are.
pub fn write(folder: &Path, network: &Network, store: &Store) -> Result<u64, Error> {
    std::fs::create_dir_all(folder).map_err(|error| Error::file(folder, error))?;
    let keys: String = network.keys.0.iter().map(|key| hex::digits(key) + "\n").collect();
    write_to(&folder.join("public.keys"), |file| file.write_all(keys.as_bytes()))?;
    let (mut log, mut side) = (Vec::new(), Detached::new().to_bytes());
    log.extend(b"HWLG\x01");
    log.extend((network.config.len() as u32).to_be_bytes());
    log.extend(&network.config);
    let (mut place, mut entries) = (0, 0);
    loop {
        let stored = store.behind(place, 4096)?;
        let Some((last, _)) = stored.last() else { break };
        place = *last;
        for (_, one) in stored {
            log.extend([1, u8::from(one.verdict)]);
            log.extend((one.parcel.vertex.len() as u32).to_be_bytes());
            log.extend(&one.parcel.vertex);
            side.extend(one.parcel.beside());
            entries += 1;
        }
    }
    write_to(&folder.join("network.hwlg"), |file| file.write_all(&log))?;
    write_to(&folder.join("network.hwsg"), |file| file.write_all(&side))?;
    Ok(entries)
}

fn write_to(path: &Path, write: impl FnOnce(&mut BufWriter<File>) -> std::io::Result<()>) -> Result<(), Error> {
    let file = File::create(path).map_err(|error| Error::file(path, error))?;
    let mut file = BufWriter::new(file);
    write(&mut file).and_then(|()| file.flush()).map_err(|error| Error::file(path, error))
}
