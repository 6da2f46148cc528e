//! Flight calls in plain Rust, over the maps of std, with nothing proved: what `call_server` is timed against.
//! `generate put NAME BATCHES ROWS`, `generate puts COUNT`, `generate get VERSION` and `generate info COUNT` write calls; `copy COUNT FILE` writes a
//! file so often; without a word it serves the calls of standard input, as `call_server` does those that are not refused.
use plain_tables::plain_batches::plain_headers::{self, Header, Schema};
use plain_tables::plain_batches::{read_batch, write_body};
use plain_tables::{Outcome, Table, Tables, head_of, put_bytes, put_varint, take_varint};
use std::io::{self, BufRead, BufReader, BufWriter, Read, Write};
use std::sync::Arc;

#[allow(dead_code)]
#[path = "plain_tables.rs"]
pub(crate) mod plain_tables;

pub(crate) const PATH: &str = "/arrow.flight.protocol.FlightService/";
const MAX_PAYLOAD: usize = 4_194_304;
const LOCATIONS: [&str; 3] = [
    "plain+tcp://127.0.0.1:42000",
    "plain+tcp://127.0.0.1:42001",
    "plain+tcp://127.0.0.1:42002",
];

// ---- frames

pub(crate) fn wrong() -> io::Error {
    io::Error::from(io::ErrorKind::InvalidData)
}

fn some<T>(found: Option<T>) -> io::Result<T> {
    found.ok_or_else(wrong)
}

/// The payload of a message, or nothing at the end of a call.
pub(crate) fn next_message(input: &mut impl Read) -> io::Result<Option<Vec<u8>>> {
    let mut head = [0; 5];
    input.read_exact(&mut head)?;
    let length = u32::from_be_bytes([head[1], head[2], head[3], head[4]]) as usize;
    match (head[0], length) {
        (0x80, 0) => Ok(None),
        (0, 0..=MAX_PAYLOAD) => {
            let mut payload = vec![0; length];
            input.read_exact(&mut payload)?;
            Ok(Some(payload))
        }
        _ => Err(wrong()),
    }
}

pub(crate) fn put_framed(output: &mut impl Write, flag: u8, payload: &[u8]) -> io::Result<()> {
    output.write_all(&[flag])?;
    output.write_all(&(payload.len() as u32).to_be_bytes())?;
    output.write_all(payload)
}

// ---- messages

/// The last content of each field of bytes, and all of those of one that may be repeated.
#[derive(Default)]
struct Fields<'a> {
    bytes: Vec<(u64, &'a [u8])>,
    numbers: Vec<(u64, u64)>,
}

fn fields(mut text: &[u8]) -> Option<Fields<'_>> {
    let mut found = Fields::default();
    while !text.is_empty() {
        let key = take_varint(&mut text)?;
        let number = take_varint(&mut text)?;
        if key % 8 == 2 {
            let (content, rest) = text.split_at_checked(usize::try_from(number).ok()?)?;
            found.bytes.push((key / 8, content));
            text = rest;
        } else {
            found.numbers.push((key / 8, number));
        }
    }
    Some(found)
}

impl<'a> Fields<'a> {
    fn all(&self, number: u64) -> impl Iterator<Item = &'a [u8]> + '_ {
        self.bytes.iter().filter(move |it| it.0 == number).map(|it| it.1)
    }

    fn bytes(&self, number: u64) -> &'a [u8] {
        self.all(number).last().unwrap_or_default()
    }

    fn number(&self, number: u64) -> u64 {
        self.numbers.iter().rfind(|it| it.0 == number).map_or(0, |it| it.1)
    }
}

/// The names of a descriptor of type PATH.
fn path_of(descriptor: &[u8]) -> Option<Vec<&str>> {
    let found = fields(descriptor).filter(|it| it.number(1) == 1)?;
    found.all(3).map(|it| std::str::from_utf8(it).ok()).collect()
}

pub(crate) fn put_number(out: &mut Vec<u8>, field: u64, number: u64) {
    if number > 0 {
        put_varint(out, 8 * field);
        put_varint(out, number);
    }
}

fn id_of(digits: &str) -> Option<[u8; 16]> {
    let id = u128::from_str_radix(digits, 16).ok().filter(|_| digits.len() == 32)?;
    Some(id.to_be_bytes())
}

// ---- calls

/// Reads an upload message by message into its one encoding.
pub(crate) fn read_upload(input: &mut impl Read) -> io::Result<([u8; 16], Vec<u8>)> {
    let first = some(next_message(input)?)?;
    let parts = some(fields(&first))?;
    let (id, mut text, schema) = some(opened(&parts))?;
    while let Some(message) = next_message(input)? {
        let parts = some(fields(&message))?;
        let (header, body) = (parts.bytes(2), parts.bytes(1_000));
        if !(header.is_empty() && body.is_empty()) {
            some(put_batch(&mut text, &schema, header, body))?;
        }
    }
    Ok((id, text))
}

fn opened(parts: &Fields) -> Option<([u8; 16], Vec<u8>, Schema)> {
    let path = path_of(parts.bytes(1))?;
    let [table, digits] = path[..] else {
        return None;
    };
    let Ok(Header::Schema(schema)) = plain_headers::read(parts.bytes(2)) else {
        return None;
    };
    let (id, mut text) = (id_of(digits)?, Vec::new());
    put_bytes(&mut text, 1, table.as_bytes());
    put_bytes(&mut text, 2, &id);
    let header = Header::Schema(schema);
    put_bytes(&mut text, 3, &plain_headers::encoded(&header));
    let Header::Schema(schema) = header else { unreachable!() };
    Some((id, text, schema))
}

fn put_batch(text: &mut Vec<u8>, schema: &Schema, header: &[u8], body: &[u8]) -> Option<()> {
    let batch = read_batch(schema, &head_of(header)?, body).ok()?;
    let (head, written) = write_body(&batch);
    let mut parts = Vec::new();
    put_bytes(&mut parts, 1, &plain_headers::encoded(&Header::Batch(head)));
    put_bytes(&mut parts, 2, &written);
    put_bytes(text, 4, &parts);
    Some(())
}

fn put(tables: &mut Tables, input: &mut impl Read, output: &mut impl Write) -> io::Result<()> {
    let (id, text) = read_upload(input)?;
    tables.take(&Arc::from(text));
    match tables.firsts.get(&id) {
        Some((_, Outcome::Applied(version))) => put_result(output, &id, *version),
        _ => Err(wrong()),
    }
}

pub(crate) fn put_result(output: &mut impl Write, id: &[u8; 16], version: u64) -> io::Result<()> {
    let (mut told, mut result) = (Vec::new(), Vec::new());
    put_bytes(&mut told, 1, id);
    put_number(&mut told, 2, version);
    put_bytes(&mut result, 1, &told);
    put_framed(output, 0, &result)
}

fn get(tables: &Tables, message: &[u8], output: &mut impl Write) -> io::Result<()> {
    let ticket = some(fields(message))?.bytes(1);
    let asked = some(fields(ticket))?;
    let name = some(std::str::from_utf8(asked.bytes(1)).ok())?;
    let table = some(tables.tables.get(name))?;
    let frames = some(table.frames.get(..asked.number(2) as usize))?;
    output.write_all(&table.schema_frame)?;
    frames.iter().try_for_each(|it| output.write_all(it))
}

fn ticket_of(name: &str, version: u64) -> Vec<u8> {
    let mut ticket = Vec::new();
    put_bytes(&mut ticket, 1, name.as_bytes());
    put_number(&mut ticket, 2, version);
    ticket
}

fn info_of(name: &str, descriptor: &[u8], table: &Table) -> Vec<u8> {
    let header = &schema_of(table);
    let mut schema = vec![0xff; 4];
    schema.extend_from_slice(&(header.len() as u32).to_le_bytes());
    schema.extend_from_slice(header);
    let (mut ticket, mut endpoint, mut info) = (Vec::new(), Vec::new(), Vec::new());
    put_bytes(&mut ticket, 1, &ticket_of(name, table.frames.len() as u64));
    put_bytes(&mut endpoint, 1, &ticket);
    for location in LOCATIONS {
        let mut uri = Vec::new();
        put_bytes(&mut uri, 1, location.as_bytes());
        put_bytes(&mut endpoint, 2, &uri);
    }
    put_bytes(&mut info, 1, &schema);
    put_bytes(&mut info, 2, descriptor);
    put_bytes(&mut info, 3, &endpoint);
    put_number(&mut info, 4, table.records);
    put_number(&mut info, 5, table.total_bytes);
    put_number(&mut info, 6, 1);
    info
}

/// The header of a table's schema, out of its frame.
fn schema_of(table: &Table) -> Vec<u8> {
    fields(&table.schema_frame[5..]).map(|it| it.bytes(2).to_vec()).unwrap_or_default()
}

fn serve(tables: &mut Tables, input: &mut impl Read, output: &mut impl Write) -> io::Result<()> {
    let path = some(next_message(input)?)?;
    let path = some(String::from_utf8(path).ok())?;
    match some(path.strip_prefix(PATH))? {
        "DoPut" => put(tables, input, output)?,
        method => {
            let message = some(next_message(input)?)?;
            if next_message(input)?.is_some() {
                return Err(wrong());
            }
            match method {
                "DoGet" => get(tables, &message, output)?,
                "GetFlightInfo" => {
                    let path = some(path_of(&message))?;
                    let table = some(tables.tables.get(path[0]))?;
                    put_framed(output, 0, &info_of(path[0], &message, table))?;
                }
                _ => return Err(wrong()),
            }
        }
    }
    put_framed(output, 0x80, &[0])?;
    output.flush()
}

// ---- calls to be served

fn descriptor(names: &[&str]) -> Vec<u8> {
    let mut out = Vec::new();
    put_number(&mut out, 1, 1);
    names.iter().for_each(|it| put_bytes(&mut out, 3, it.as_bytes()));
    out
}

fn call(method: &str, messages: &[Vec<u8>]) -> io::Result<()> {
    let mut out = io::stdout().lock();
    put_framed(&mut out, 0, format!("{PATH}{method}").as_bytes())?;
    messages.iter().try_for_each(|it| put_framed(&mut out, 0, it))?;
    put_framed(&mut out, 0x80, &[])
}

fn generate_put(name: u64, batches: u64, rows: u64) -> io::Result<()> {
    let id = u128::from(name) * 0x9e37_79b9_7f4a_7c15_f39c_c060_5ced_c835;
    let mut first = Vec::new();
    put_bytes(&mut first, 1, &descriptor(&["table", &format!("{id:032x}")]));
    put_bytes(&mut first, 2, &plain_headers::encoded(&Header::Schema(plain_tables::int8())));
    let batch = plain_tables::batch_of(rows as usize);
    let parts = some(fields(&batch))?;
    let mut message = Vec::new();
    put_bytes(&mut message, 2, parts.bytes(1));
    put_bytes(&mut message, 1_000, parts.bytes(2));
    let mut messages = vec![first];
    messages.resize(1 + batches as usize, message);
    call("DoPut", &messages)
}

fn generate(words: &[&str]) -> io::Result<()> {
    let number = |word: &str| word.parse::<u64>().map_err(|_| wrong());
    match words {
        ["put", name, batches, rows] => generate_put(number(name)?, number(batches)?, number(rows)?),
        ["puts", count] => (1..=number(count)?).try_for_each(|name| generate_put(name, 1, 3)),
        ["get", version] => {
            let mut message = Vec::new();
            put_bytes(&mut message, 1, &ticket_of("table", number(version)?));
            call("DoGet", &[message])
        }
        ["info", count] => (0..number(count)?).try_for_each(|_| call("GetFlightInfo", &[descriptor(&["table"])])),
        _ => Err(wrong()),
    }
}

fn main() -> io::Result<()> {
    let words: Vec<String> = std::env::args().skip(1).collect();
    let words: Vec<&str> = words.iter().map(String::as_str).collect();
    if let ["generate", rest @ ..] = &words[..] {
        return generate(rest);
    }
    if let ["copy", count, file] = &words[..] {
        let (bytes, mut output) = (std::fs::read(file)?, io::stdout().lock());
        let count: u64 = count.parse().map_err(|_| wrong())?;
        return (0..count).try_for_each(|_| bytes.chunks(1 << 20).try_for_each(|it| output.write_all(it)));
    }
    let mut input = BufReader::new(io::stdin().lock());
    let mut output = BufWriter::new(io::stdout().lock());
    let mut tables = Tables::default();
    while !input.fill_buf()?.is_empty() {
        serve(&mut tables, &mut input, &mut output)?;
    }
    Ok(())
}
