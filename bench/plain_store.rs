//! A store of records in one file in plain Rust, with nothing proved: what `flight_bench` is timed against. `generate RECORDS
//! SIZE` writes a file of so many records of so many bytes each, uploads that slot after slot accepted; `keep-records COUNT
//! FILE` and `recall-records COUNT FILE` do what `flight_bench` does at these words; `read-file COUNT FILE` syncs and reads the
//! file's bytes so many times, and looks at none but the last.
use std::fs::{File, OpenOptions};
use std::hint::black_box;
use std::io::{self, Write};
use std::os::unix::fs::FileExt;

const OPEN: u8 = 1;
const CLOSED: u8 = 0;

const BEGAN: u64 = 1;
const PROMISED: u64 = 2;
const ACCEPTED: u64 = 3;

const MAX_SLOT: u64 = 999_999;
const MAX_ROUND: u64 = 4_000_000_000;
const MAX_NODE: u64 = 6;
const MAX_UPLOAD_BYTES: usize = 16_777_216;

// ---- fields

fn put_varint(out: &mut Vec<u8>, mut number: u64) {
    while number >= 128 {
        out.push(number as u8 | 128);
        number >>= 7;
    }
    out.push(number as u8);
}

fn put_number(out: &mut Vec<u8>, field: u64, number: u64) {
    if number != 0 {
        put_varint(out, 8 * field);
        put_varint(out, number);
    }
}

fn take_varint(bytes: &mut &[u8]) -> Option<u64> {
    let mut number = 0;
    for place in 0..10 {
        let (&byte, rest) = bytes.split_first()?;
        *bytes = rest;
        number |= u64::from(byte & 127) << (7 * place);
        if byte < 128 {
            return (place < 9 || byte < 2).then_some(number);
        }
    }
    None
}

// ---- records

struct Ballot {
    round: u32,
    node: u8,
}

/// The value is empty in a no-op.
enum Record {
    Began(Ballot),
    Promised(u32, Ballot),
    Accepted(u32, Ballot, Vec<u8>),
}

fn put_ballot(out: &mut Vec<u8>, ballot: &Ballot) {
    put_number(out, 3, u64::from(ballot.round));
    put_number(out, 4, u64::from(ballot.node));
}

fn put_record(out: &mut Vec<u8>, record: &Record) {
    match record {
        Record::Began(ballot) => {
            put_number(out, 1, BEGAN);
            put_ballot(out, ballot);
        }
        Record::Promised(slot, ballot) => {
            put_number(out, 1, PROMISED);
            put_number(out, 2, u64::from(*slot));
            put_ballot(out, ballot);
        }
        Record::Accepted(slot, ballot, value) => {
            put_number(out, 1, ACCEPTED);
            put_number(out, 2, u64::from(*slot));
            put_ballot(out, ballot);
            if !value.is_empty() {
                put_varint(out, 8 * 5 + 2);
                put_varint(out, value.len() as u64);
                out.extend_from_slice(value);
            }
        }
    }
}

/// The fields of a record's bytes, by their numbers from 0 on, and the value. Other fields are passed over.
fn fields(mut text: &[u8]) -> Option<([u64; 5], &[u8])> {
    let (mut numbers, mut value) = ([0; 5], &text[..0]);
    while !text.is_empty() {
        let key = take_varint(&mut text)?;
        match (key >> 3, key & 7) {
            (field @ 1..=4, 0) => numbers[field as usize] = take_varint(&mut text)?,
            (1..=4, _) | (5, 0 | 1 | 5) => return None,
            (_, 0) => drop(take_varint(&mut text)?),
            (_, 1) => text = text.split_at_checked(8)?.1,
            (_, 5) => text = text.split_at_checked(4)?.1,
            (field @ 1.., 2) => {
                let count = usize::try_from(take_varint(&mut text)?).ok()?;
                let (bytes, rest) = text.split_at_checked(count)?;
                text = rest;
                if field == 5 {
                    value = bytes;
                }
            }
            _ => return None,
        }
    }
    Some((numbers, value))
}

fn record_of(text: &[u8]) -> Option<Record> {
    let ([_, kind, slot, round, node], value) = fields(text)?;
    let is_ballot = (1..=MAX_ROUND).contains(&round) && node <= MAX_NODE;
    if !is_ballot || (kind != BEGAN && slot > MAX_SLOT) {
        return None;
    }
    let ballot = Ballot { round: round as u32, node: node as u8 };
    match kind {
        BEGAN => Some(Record::Began(ballot)),
        PROMISED => Some(Record::Promised(slot as u32, ballot)),
        ACCEPTED if value.len() <= MAX_UPLOAD_BYTES => Some(Record::Accepted(slot as u32, ballot, value.to_vec())),
        _ => None,
    }
}

// ---- files of records

/// What is written behind a closed gate: a length, a record, and a closed gate.
fn block_of(record: &Record) -> Vec<u8> {
    let value = if let Record::Accepted(_, _, value) = record { value.len() } else { 0 };
    let mut block = Vec::with_capacity(value + 32);
    block.extend_from_slice(&[0; 4]);
    put_record(&mut block, record);
    let length = (block.len() - 4) as u32;
    block[..4].copy_from_slice(&length.to_le_bytes());
    block.push(CLOSED);
    block
}

/// The records of a file, and where its closed gate stands.
fn records_of(file: &[u8]) -> Option<(Vec<Record>, usize)> {
    let (mut records, mut rest) = (Vec::new(), file);
    if file.len() <= 1 {
        return Some((records, 0));
    }
    while let [OPEN, after @ ..] = rest {
        let (length, after) = after.split_first_chunk()?;
        let (text, after) = after.split_at_checked(u32::from_le_bytes(*length) as usize)?;
        records.push(record_of(text)?);
        rest = after;
    }
    (!rest.is_empty()).then(|| (records, file.len() - rest.len()))
}

struct Store {
    file: File,
    gate: usize,
}

fn wrong() -> io::Error {
    io::ErrorKind::InvalidData.into()
}

/// The file's bytes, once it is synced.
fn synced_bytes(file: &File) -> io::Result<Vec<u8>> {
    file.sync_data()?;
    let mut bytes = vec![0; file.metadata()?.len() as usize];
    file.read_exact_at(&mut bytes, 0)?;
    Ok(bytes)
}

impl Store {
    fn open(path: &str) -> io::Result<Store> {
        let file = OpenOptions::new().read(true).write(true).create(true).truncate(false).open(path)?;
        let mut store = Store { file, gate: 0 };
        store.recall()?;
        Ok(store)
    }

    fn recall(&mut self) -> io::Result<Vec<Record>> {
        let bytes = synced_bytes(&self.file)?;
        let (records, gate) = records_of(&bytes).ok_or_else(wrong)?;
        if bytes.len() <= 1 {
            self.write_synced(0, &[CLOSED])?;
        }
        self.gate = gate;
        Ok(records)
    }

    fn write_synced(&self, at: usize, bytes: &[u8]) -> io::Result<()> {
        self.file.write_all_at(bytes, at as u64)?;
        self.file.sync_data()
    }

    fn keep(&mut self, record: &Record) -> io::Result<()> {
        let block = block_of(record);
        self.write_synced(self.gate + 1, &block)?;
        self.write_synced(self.gate, &[OPEN])?;
        self.gate += block.len();
        Ok(())
    }
}

// ---- a file to be recalled

/// A record of so many bytes: an upload that this slot accepted at the first ballot.
fn generated_record(slot: u32, size: usize) -> Record {
    let ballot = || Ballot { round: 1, node: 0 };
    let length = |value: usize| {
        let mut text = Vec::new();
        put_record(&mut text, &Record::Accepted(slot, ballot(), vec![0; value]));
        text.len()
    };
    let value = (1..size).rev().find(|&value| length(value) <= size).unwrap_or(1);
    Record::Accepted(slot, ballot(), (0..value).map(|place| (place % 251) as u8).collect())
}

fn generated(records: u32, size: usize) -> Vec<u8> {
    let mut file = vec![CLOSED];
    for slot in 0..records {
        file.pop();
        file.push(OPEN);
        file.extend(block_of(&generated_record(slot, size)));
    }
    file
}

// ---- the tasks of flight_bench

fn bytes_weight(bytes: &[u8]) -> u64 {
    bytes.len() as u64 + bytes.last().map_or(0, |&last| u64::from(last))
}

fn weight(records: &[Record]) -> u64 {
    records.len() as u64
        + match records.last() {
            Some(Record::Accepted(_, _, value)) => bytes_weight(value),
            _ => 0,
        }
}

fn keep_often(count: u64, path: &str) -> io::Result<u64> {
    let (records, _) = records_of(&std::fs::read(path)?).ok_or_else(wrong)?;
    let mut store = Store::open(&format!("{path}.kept"))?;
    for _ in 0..count {
        records.iter().try_for_each(|record| store.keep(black_box(record)))?;
    }
    Ok(count.wrapping_mul(records.len() as u64))
}

fn recall_often(count: u64, path: &str) -> io::Result<u64> {
    let mut store = Store::open(path)?;
    let mut sum = 0u64;
    for _ in 0..count {
        sum = sum.wrapping_add(weight(&black_box(store.recall()?)));
    }
    Ok(sum)
}

fn read_often(count: u64, path: &str) -> io::Result<u64> {
    let file = File::open(path)?;
    let mut sum = 0u64;
    for _ in 0..count {
        sum = sum.wrapping_add(bytes_weight(&black_box(synced_bytes(&file)?)));
    }
    Ok(sum)
}

fn main() -> io::Result<()> {
    let words: Vec<String> = std::env::args().skip(1).collect();
    let [task, count, last] = &words[..] else {
        return Err(wrong());
    };
    let count = count.parse::<u32>().map_err(|_| wrong())?;
    let sum = match task.as_str() {
        "generate" => return io::stdout().write_all(&generated(count, last.parse().map_err(|_| wrong())?)),
        "keep-records" => keep_often(count.into(), last)?,
        "recall-records" => recall_often(count.into(), last)?,
        "read-file" => read_often(count.into(), last)?,
        _ => return Err(wrong()),
    };
    println!("{count} {sum}");
    Ok(())
}
