//! `salvage`: what comes before the damage, in a new journal.

use super::lodging::print_end;
use super::verify::Sound;
use super::{log, Call, Command, Status};
use crate::journal::disk::open_to_read;
use crate::journal::{read, Disk, OnDisk, Reading};
use crate::printed::{json, object, shown};
use crate::trouble::{Doing, Trouble};
use std::fs;
use std::io::{self, Read};
use std::os::unix::ffi::OsStrExt;
use std::path::Path;

pub const SALVAGE: Command = Command {
    name: "salvage",
    arguments: "J NEW",
    short: "the records before the damage, in a new journal",
    long: "Copies the records of the journal J that come before what is damaged, byte for byte, into a new journal NEW. J is\n\
           left as it is. NEW must not be there.",
    options: &["--json"],
    example: "docket salvage monday.docket mended.docket",
    words: 2..=2,
    run: salvage,
};

fn salvage(call: &mut Call) -> Result<Status, Trouble> {
    let mut reading = read(call.journal())?;
    let sound = Sound::of(&mut reading, None);
    let records = &reading.records;
    let new = Path::new(call.word(1)).to_owned();
    make(call.journal(), records.at(), &new)?;
    let check = records.check().to_string();
    match call.options.json {
        true => {
            let journal = object(&[
                ("name", json(new.as_os_str().as_bytes())),
                ("texts", records.texts().to_string()),
                ("check", json(check.as_bytes())),
                ("torn", sound.torn.to_string()),
                ("damaged", sound.damage(records.at())),
            ]);
            call.out.line(&object(&[("journal", journal)]))?;
        }
        false => print_end(call, &new, records.texts(), &check)?,
    }
    call.out.flush()?;
    match sound.trouble {
        Some(Trouble::Damaged { at, why, .. }) => {
            let old = shown(call.word(0).as_bytes());
            call.note(&format!(
                "{old}: damaged at byte {at}: {why}; nothing from there on was copied"
            ));
        }
        Some(trouble) => call.note(&trouble.to_string()),
        None if sound.torn > 0 => return log::end(call, sound.torn),
        None => {
            let old = shown(call.word(0).as_bytes());
            call.note(&format!("{old}: nothing is damaged"));
        }
    }
    Ok(Status::Accepted)
}

/// Makes a journal of the first bytes of another. It has its name only when it is whole: until then `.part` stands behind it.
fn make(from: &Path, bytes: u64, new: &Path) -> Result<(), Trouble> {
    let trouble = |error| Trouble::file(new, Doing::Make, error);
    if fs::symlink_metadata(new).is_ok() {
        return Err(trouble(io::ErrorKind::AlreadyExists.into()));
    }
    let mut longer = new.as_os_str().to_owned();
    longer.push(".part");
    let part = Path::new(&longer);
    let mut disk = OnDisk::make(part)?;
    let copied = copy(from, bytes, &mut disk, part)
        .and_then(|()| same(&disk, part, bytes))
        .and_then(|()| name(part, new).map_err(trouble))
        .and_then(|()| disk.sync_name().map_err(trouble));
    if copied.is_err() {
        // a part of a copy is of no use
        let _ = fs::remove_file(part);
    }
    copied
}

/// Gives a file another name, which no file has.
fn name(part: &Path, new: &Path) -> io::Result<()> {
    match fs::hard_link(part, new) {
        Ok(()) => fs::remove_file(part),
        Err(error) if error.kind() == io::ErrorKind::AlreadyExists => Err(error),
        // not every file system has two names for a file
        Err(_) => fs::rename(part, new),
    }
}

/// Writes the first bytes of a journal, so many of them, to a file, on disk.
fn copy(from: &Path, bytes: u64, disk: &mut OnDisk, new: &Path) -> Result<(), Trouble> {
    let mut rest = open_to_read(from)?.take(bytes);
    let mut room = vec![0; 65_536];
    loop {
        let got = rest
            .read(&mut room)
            .map_err(|error| Trouble::file(from, Doing::Read, error))?;
        if got == 0 {
            break;
        }
        disk.append(&room[..got])
            .map_err(|error| Trouble::file(new, Doing::Copy, error))?;
    }
    disk.sync()
        .map_err(|error| Trouble::file(new, Doing::Copy, error))
}

/// Tells where a copy is not as sound as what was copied.
fn same(disk: &OnDisk, new: &Path, bytes: u64) -> Result<(), Trouble> {
    let copy = disk
        .bytes()
        .map_err(|error| Trouble::file(new, Doing::Read, error))?;
    let mut reading = Reading::of(new, copy)?;
    let sound = Sound::of(&mut reading, None);
    match sound.trouble {
        Some(trouble) => Err(trouble),
        None if reading.records.at() == bytes => Ok(()),
        None => {
            let changed = io::Error::other("the journal changed while it was copied");
            Err(Trouble::file(new, Doing::Copy, changed))
        }
    }
}
