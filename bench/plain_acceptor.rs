//! The same job in plain Rust, with nothing proved: what `flightd acceptor` is timed against. With the words
//! `generate FRAMES SLOTS` it writes a stream of frames to be answered instead.
use std::collections::HashMap;
use std::io::{self, BufReader, BufWriter, Read, Write};

const LIMIT: usize = 4_194_304;

struct Entry {
    promised: (u64, u64),
    accepted: Option<((u64, u64), Vec<u8>)>,
}

#[derive(Default)]
struct Message {
    numbers: [u64; 9],
    value: Vec<u8>,
}

fn varint(text: &[u8], at: &mut usize) -> Option<u64> {
    let mut value = 0u64;
    for i in 0..10 {
        let byte = *text.get(*at)?;
        *at += 1;
        value |= u64::from(byte & 127).checked_shl(7 * i)?;
        if byte < 128 {
            return Some(value);
        }
    }
    None
}

fn read_message(text: &[u8]) -> Option<Message> {
    let mut message = Message::default();
    let mut at = 0;
    while at < text.len() {
        let key = varint(text, &mut at)?;
        match key & 7 {
            0 => {
                let value = varint(text, &mut at)?;
                if let Some(number) = message.numbers.get_mut((key >> 3) as usize) {
                    *number = value;
                }
            }
            2 => {
                let length = varint(text, &mut at)? as usize;
                let bytes = text.get(at..at.checked_add(length)?)?;
                at += length;
                if key >> 3 == 9 {
                    message.value = bytes.to_vec();
                }
            }
            1 => at += 8,
            5 => at += 4,
            _ => return None,
        }
    }
    Some(message)
}

fn put(out: &mut Vec<u8>, number: u64, mut value: u64) {
    if value == 0 {
        return;
    }
    out.push((number << 3) as u8);
    while value >= 128 {
        out.push(value as u8 | 128);
        value >>= 7;
    }
    out.push(value as u8);
}

fn put_bytes(out: &mut Vec<u8>, number: u64, bytes: &[u8]) {
    if bytes.is_empty() {
        return;
    }
    out.push((number << 3 | 2) as u8);
    let mut length = bytes.len();
    while length >= 128 {
        out.push(length as u8 | 128);
        length >>= 7;
    }
    out.push(length as u8);
    out.extend_from_slice(bytes);
}

fn head(kind: u64, sender: u64, slot: u64, ballot: (u64, u64)) -> Vec<u8> {
    let mut out = Vec::new();
    put(&mut out, 1, kind);
    put(&mut out, 2, sender);
    put(&mut out, 3, slot);
    put(&mut out, 5, ballot.0);
    put(&mut out, 6, ballot.1);
    out
}

fn nack(slot: u64, ballot: (u64, u64), promised: (u64, u64)) -> Vec<u8> {
    let mut out = head(3, 0, slot, ballot);
    put(&mut out, 7, promised.0);
    put(&mut out, 8, promised.1);
    out
}

fn answer(slots: &mut HashMap<u64, Entry>, message: Message) -> Option<Vec<u8>> {
    let (kind, slot) = (message.numbers[1], message.numbers[3]);
    let ballot = (message.numbers[5], message.numbers[6]);
    match kind {
        1 => match slots.get_mut(&slot) {
            Some(entry) if entry.promised >= ballot => Some(nack(slot, ballot, entry.promised)),
            Some(entry) => {
                entry.promised = ballot;
                let mut out = head(2, 0, slot, ballot);
                if let Some((at, value)) = &entry.accepted {
                    put(&mut out, 7, at.0);
                    put(&mut out, 8, at.1);
                    put_bytes(&mut out, 9, value);
                }
                Some(out)
            }
            None => {
                slots.insert(slot, Entry { promised: ballot, accepted: None });
                Some(head(2, 0, slot, ballot))
            }
        },
        4 => match slots.get_mut(&slot) {
            Some(entry) if entry.promised > ballot => Some(nack(slot, ballot, entry.promised)),
            _ => {
                let mut out = head(5, 0, slot, ballot);
                put_bytes(&mut out, 9, &message.value);
                let entry = Entry { promised: ballot, accepted: Some((ballot, message.value)) };
                slots.insert(slot, entry);
                Some(out)
            }
        },
        _ => None,
    }
}

fn serve() -> io::Result<()> {
    let mut input = BufReader::new(io::stdin().lock());
    let mut output = BufWriter::new(io::stdout().lock());
    let mut slots = HashMap::new();
    loop {
        let mut header = [0; 5];
        if input.read(&mut header[..1])? == 0 {
            return Ok(());
        }
        input.read_exact(&mut header[1..])?;
        let length = u32::from_be_bytes([header[1], header[2], header[3], header[4]]) as usize;
        if header[0] != 0 || length > LIMIT {
            return Err(io::ErrorKind::InvalidData.into());
        }
        let mut payload = vec![0; length];
        input.read_exact(&mut payload)?;
        let message = read_message(&payload).ok_or(io::ErrorKind::InvalidData)?;
        if let Some(text) = answer(&mut slots, message) {
            output.write_all(&[0])?;
            output.write_all(&(text.len() as u32).to_be_bytes())?;
            output.write_all(&text)?;
            output.flush()?;
        }
    }
}

fn generate(frames: u64, slots: u64) -> io::Result<()> {
    let mut output = BufWriter::new(io::stdout().lock());
    let mut state = 1u64;
    let mut next = |below: u64| {
        state = state.wrapping_mul(6364136223846793005).wrapping_add(1442695040888963407);
        (state >> 33) % below
    };
    for n in 0..frames {
        let ballot = (1 + n / slots + next(3), next(3));
        let kind = if next(2) == 0 { 1 } else { 4 };
        let mut text = head(kind, ballot.1, next(slots), ballot);
        if kind == 4 && next(4) != 0 {
            put_bytes(&mut text, 9, &[7; 40]);
        }
        output.write_all(&[0])?;
        output.write_all(&(text.len() as u32).to_be_bytes())?;
        output.write_all(&text)?;
    }
    output.flush()
}

fn main() -> io::Result<()> {
    let words: Vec<String> = std::env::args().collect();
    match words.iter().map(String::as_str).collect::<Vec<_>>()[..] {
        [_, "generate", frames, slots] => generate(frames.parse().unwrap(), slots.parse().unwrap()),
        _ => serve(),
    }
}
