//! `smi answer` as plain Rust without contracts, to measure the program beside it: the same tests and the same answers,
//! 64 KiB at a time, with nothing between the bytes and the keeper's record.

use std::fs::File;
use std::io::{self, ErrorKind, Read, Write};
use std::os::fd::AsFd;
use std::process::ExitCode;

const BLOCK: usize = 64 * 1024;
const LAST_EPOCH: u64 = 1 << 62;
const LAST_NUMBER: u32 = 1_000_000;
const LAST_BOOT: u32 = 4_000_000_000;
const TREE: u16 = 17;
const STATION: u16 = 1;
const DOMAIN: u16 = 1;

type Bytes = [u8; 44];

#[derive(Clone, Copy, PartialEq)]
enum Holder {
    Free,
    Operator(u16),
    Domain(u16),
}

impl Holder {
    fn is_in_range(self) -> bool {
        match self {
            Holder::Free => true,
            Holder::Operator(number) => (1..=32).contains(&number),
            Holder::Domain(number) => is_domain(number),
        }
    }
}

/// What the keeper knows of the domain. It stands alone, so no command stays at work.
struct Record {
    epoch: u64,
    holder: Holder,
    last: u32,
    outcome: u16,
}

// ---- the fields

fn u16_at(bytes: &Bytes, at: usize) -> u16 {
    u16::from_be_bytes([bytes[at], bytes[at + 1]])
}

fn u32_at(bytes: &Bytes, at: usize) -> u32 {
    u32::from_be_bytes([bytes[at], bytes[at + 1], bytes[at + 2], bytes[at + 3]])
}

fn u64_at(bytes: &Bytes, at: usize) -> u64 {
    u64::from(u32_at(bytes, at)) << 32 | u64::from(u32_at(bytes, at + 4))
}

fn holder_at(bytes: &Bytes) -> Result<Holder, u16> {
    let number = u16_at(bytes, 12);
    match bytes[10] {
        0 if number == 0 => Ok(Holder::Free),
        1 => Ok(Holder::Operator(number)),
        2 => Ok(Holder::Domain(number)),
        _ => Err(5),
    }
}

/// The holder of a datagram that takes, drops or commands.
fn party_at(bytes: &Bytes) -> Result<Holder, u16> {
    let holder = holder_at(bytes)?;
    check(holder != Holder::Free && holder.is_in_range(), 5)?;
    Ok(holder)
}

// ---- the tests

fn check(holds: bool, refusal: u16) -> Result<(), u16> {
    if holds { Ok(()) } else { Err(refusal) }
}

fn is_domain(number: u16) -> bool {
    (1..=128).contains(&number)
}

fn is_object(number: u16) -> bool {
    (1..=640).contains(&number)
}

fn is_boot(number: u32) -> bool {
    (1..=LAST_BOOT).contains(&number)
}

fn is_grant_epoch(epoch: u64) -> bool {
    epoch <= LAST_EPOCH && epoch % 2 == 1
}

fn is_grant_zero(bytes: &Bytes) -> bool {
    bytes[10] == 0 && u16_at(bytes, 12) == 0 && u64_at(bytes, 16) == 0
}

fn is_command_zero(bytes: &Bytes) -> bool {
    bytes[11] == 0 && u16_at(bytes, 14) == 0 && u32_at(bytes, 24) == 0 && u16_at(bytes, 28) == 0
}

fn is_version_zero(bytes: &Bytes) -> bool {
    u32_at(bytes, 36) == 0 && u32_at(bytes, 40) == 0
}

fn is_watch_zero(bytes: &Bytes) -> bool {
    u32_at(bytes, 32) == 0 && is_version_zero(bytes)
}

/// The last tests of a datagram that is well spelled: its tree and its station.
fn for_this_station(bytes: &Bytes) -> Result<(), u16> {
    check(u16_at(bytes, 30) == TREE, 7)?;
    check(u16_at(bytes, 6) == STATION, 8)
}

/// That it is about the domain and comes from an operator.
fn from_operator(bytes: &Bytes, holder: Holder) -> Result<(), u16> {
    let is_operator = matches!(holder, Holder::Operator(_));
    check(u16_at(bytes, 8) == DOMAIN && is_operator, 9)
}

// ---- the keeper

impl Record {
    fn fresh(epoch: u64, holder: Holder) -> Record {
        Record {
            epoch,
            holder,
            last: 0,
            outcome: 0,
        }
    }

    fn ask(&self, bytes: &Bytes) -> Result<(), u16> {
        check(is_domain(u16_at(bytes, 8)), 5)?;
        check(is_grant_zero(bytes) && is_command_zero(bytes) && is_watch_zero(bytes), 6)?;
        for_this_station(bytes)?;
        check(u16_at(bytes, 8) == DOMAIN, 9)
    }

    fn take(&mut self, bytes: &Bytes) -> Result<(), u16> {
        let (holder, seen) = (party_at(bytes)?, u64_at(bytes, 16));
        check(is_domain(u16_at(bytes, 8)) && seen <= LAST_EPOCH, 5)?;
        check(is_command_zero(bytes) && is_watch_zero(bytes), 6)?;
        for_this_station(bytes)?;
        from_operator(bytes, holder)?;
        if self.holder == Holder::Free && self.epoch == seen && seen < LAST_EPOCH {
            *self = Record::fresh(seen + 1, holder);
        }
        Ok(())
    }

    fn drop(&mut self, bytes: &Bytes) -> Result<(), u16> {
        let (holder, epoch) = (party_at(bytes)?, u64_at(bytes, 16));
        check(is_domain(u16_at(bytes, 8)) && is_grant_epoch(epoch), 5)?;
        check(is_command_zero(bytes) && is_watch_zero(bytes), 6)?;
        for_this_station(bytes)?;
        from_operator(bytes, holder)?;
        if self.holder == holder && self.epoch == epoch {
            *self = Record::fresh(epoch + 1, Holder::Free);
        }
        Ok(())
    }

    fn run(&mut self, bytes: &Bytes) -> Result<(), u16> {
        let (holder, epoch) = (party_at(bytes)?, u64_at(bytes, 16));
        let (verb, number, argument) = (u16_at(bytes, 14), u32_at(bytes, 24), u16_at(bytes, 28));
        check(is_domain(u16_at(bytes, 8)) && is_grant_epoch(epoch), 5)?;
        check((1..=LAST_NUMBER).contains(&number), 5)?;
        check((1..=5).contains(&verb) && (bytes[2] == 2) == (verb >= 4), 5)?;
        check((1..=if verb == 1 { 64 } else { 128 }).contains(&argument), 5)?;
        check(bytes[11] == 0 && is_watch_zero(bytes), 6)?;
        for_this_station(bytes)?;
        from_operator(bytes, holder)?;
        if self.holder == holder && self.epoch == epoch && number == self.last + 1 {
            self.last = number;
            self.outcome = if verb == 1 { 0 } else { 2 };
        }
        Ok(())
    }

    fn told(bytes: &Bytes) -> Result<(), u16> {
        let (holder, epoch) = (holder_at(bytes)?, u64_at(bytes, 16));
        let (busy, last, outcome) = (bytes[11], u32_at(bytes, 24), u16_at(bytes, 14));
        let is_free = holder == Holder::Free;
        let has_rested = busy == 0 && outcome == 0;
        check(is_domain(u16_at(bytes, 8)) && holder.is_in_range(), 5)?;
        check(epoch <= LAST_EPOCH && last <= LAST_NUMBER && is_free == (epoch % 2 == 0), 5)?;
        check(busy <= 1 && !(is_free && last != 0) && (last != 0 || has_rested), 5)?;
        check((busy == 0 || outcome == 0) && (outcome <= 7 || outcome == 9), 5)?;
        check(u16_at(bytes, 28) == 0 && is_watch_zero(bytes), 6)?;
        for_this_station(bytes)?;
        Err(9)
    }

    fn watched(bytes: &Bytes) -> Result<(), u16> {
        check(is_object(u16_at(bytes, 8)) && is_boot(u32_at(bytes, 32)), 5)?;
        check(is_grant_zero(bytes) && is_command_zero(bytes) && is_version_zero(bytes), 6)?;
        for_this_station(bytes)?;
        Err(9)
    }

    fn shown(bytes: &Bytes) -> Result<(), u16> {
        check(is_object(u16_at(bytes, 8)) && is_boot(u32_at(bytes, 32)), 5)?;
        check(is_boot(u32_at(bytes, 36)) && u32_at(bytes, 40) <= LAST_BOOT, 5)?;
        check((1..=64).contains(&u16_at(bytes, 14)), 5)?;
        let is_rest_zero = bytes[11] == 0 && u32_at(bytes, 24) == 0 && u16_at(bytes, 28) == 0;
        check(is_grant_zero(bytes) && is_rest_zero, 6)?;
        for_this_station(bytes)?;
        Err(9)
    }

    fn hear(&mut self, bytes: &Bytes) -> Result<(), u16> {
        check(bytes[0] == b'S' && bytes[1] == b'M', 2)?;
        check(bytes[2] == 1 || bytes[2] == 2, 3)?;
        check((1..=8).contains(&bytes[3]) && (bytes[2] == 1 || bytes[3] == 4), 4)?;
        check(is_domain(u16_at(bytes, 4)) && is_domain(u16_at(bytes, 6)), 5)?;
        check(u16_at(bytes, 30) != 0, 5)?;
        match bytes[3] {
            1 => self.ask(bytes),
            2 => self.take(bytes),
            3 => self.drop(bytes),
            4 => self.run(bytes),
            5 => Record::told(bytes),
            7 => Record::shown(bytes),
            _ => Record::watched(bytes),
        }
    }

    fn tell(&self, to: u16) -> Bytes {
        let (kind, number) = match self.holder {
            Holder::Free => (0, 0),
            Holder::Operator(number) => (1, number),
            Holder::Domain(number) => (2, number),
        };
        let mut bytes = [0; 44];
        bytes[..4].copy_from_slice(&[b'S', b'M', 1, 5]);
        bytes[4..6].copy_from_slice(&STATION.to_be_bytes());
        bytes[6..8].copy_from_slice(&to.to_be_bytes());
        bytes[8..10].copy_from_slice(&DOMAIN.to_be_bytes());
        bytes[10] = kind;
        bytes[12..14].copy_from_slice(&number.to_be_bytes());
        bytes[14..16].copy_from_slice(&self.outcome.to_be_bytes());
        bytes[16..24].copy_from_slice(&self.epoch.to_be_bytes());
        bytes[24..28].copy_from_slice(&self.last.to_be_bytes());
        bytes[30..32].copy_from_slice(&TREE.to_be_bytes());
        bytes
    }
}

// ---- the loop

/// How many bytes one read gave.
fn read_some(reader: &mut impl Read, buffer: &mut [u8]) -> io::Result<usize> {
    loop {
        match reader.read(buffer) {
            Err(e) if e.kind() == ErrorKind::Interrupted => {}
            given => return given,
        }
    }
}

/// Answers up to the end or to the first refusal: its place and its reason.
fn answer(reader: &mut impl Read, writer: &mut impl Write) -> io::Result<Option<(u64, u16)>> {
    let mut record = Record::fresh(0, Holder::Free);
    let mut block = vec![0; BLOCK];
    let mut told = Vec::with_capacity(BLOCK);
    let mut rest = 0;
    let mut count = 0;
    loop {
        let end = match read_some(reader, &mut block[rest..])? {
            0 if rest == 0 => return Ok(None),
            0 => return Ok(Some((count + 1, 1))),
            n => rest + n,
        };
        told.clear();
        let mut refused = None;
        for piece in block[..end].chunks_exact(44) {
            let bytes = piece.try_into().unwrap();
            if let Err(refusal) = record.hear(bytes) {
                refused = Some((count + 1, refusal));
                break;
            }
            told.extend_from_slice(&record.tell(u16_at(bytes, 4)));
            count += 1;
        }
        writer.write_all(&told)?;
        if refused.is_some() {
            return Ok(refused);
        }
        block.copy_within(told.len()..end, 0);
        rest = end - told.len();
    }
}

/// The file behind a standard stream, without the buffer that Rust puts around it.
fn file_of(stream: impl AsFd) -> io::Result<File> {
    Ok(File::from(stream.as_fd().try_clone_to_owned()?))
}

fn main() -> io::Result<ExitCode> {
    let (mut reader, mut writer) = (file_of(io::stdin())?, file_of(io::stdout())?);
    match answer(&mut reader, &mut writer)? {
        None => Ok(ExitCode::SUCCESS),
        Some((place, refusal)) => {
            eprintln!("datagram {place} refused {refusal}");
            Ok(ExitCode::from(1))
        }
    }
}
