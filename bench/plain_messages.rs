//! The same work in plain Rust, with nothing proved: what `flight_bench` is timed against. `generate-data` and
//! `generate-info` write the messages that both read; `TASK COUNT FILE` does what `flight_bench` does at these words,
//! and the task `copy` copies the file's bytes so many times.
use std::hint::black_box;
use std::io::{self, Write};

#[derive(Debug, PartialEq)]
enum Fault {
    BadVarint,
    BadKey,
    BadWireType,
    CutShort,
    NotUtf8,
}

#[derive(Default)]
struct FlightDescriptor {
    descriptor_type: i32,
    cmd: Vec<u8>,
    path: Vec<String>,
}

#[derive(Default)]
struct FlightData {
    flight_descriptor: Option<FlightDescriptor>,
    data_header: Vec<u8>,
    app_metadata: Vec<u8>,
    data_body: Vec<u8>,
}

#[derive(Default)]
struct Ticket {
    ticket: Vec<u8>,
}

#[derive(Default)]
struct Location {
    uri: String,
}

#[derive(Default)]
struct FlightEndpoint {
    ticket: Option<Ticket>,
    location: Vec<Location>,
}

#[derive(Default)]
struct FlightInfo {
    schema: Vec<u8>,
    flight_descriptor: Option<FlightDescriptor>,
    endpoint: Vec<FlightEndpoint>,
    total_records: i64,
    total_bytes: i64,
    ordered: bool,
}

enum Part<'a> {
    Varint(u64),
    Bytes(&'a [u8]),
    Other,
}

fn split_varint<'a>(text: &mut &'a [u8]) -> Result<u64, Fault> {
    let mut value = 0u64;
    for i in 0..10 {
        let (byte, rest) = text.split_first().ok_or(Fault::CutShort)?;
        *text = rest;
        if i == 9 && *byte > 1 {
            return Err(Fault::BadVarint);
        }
        value |= u64::from(byte & 127) << (7 * i);
        if *byte < 128 {
            return Ok(value);
        }
    }
    Err(Fault::BadVarint)
}

fn split_bytes<'a>(text: &mut &'a [u8], count: u64) -> Result<&'a [u8], Fault> {
    if (text.len() as u64) < count {
        return Err(Fault::CutShort);
    }
    let (bytes, rest) = text.split_at(count as usize);
    *text = rest;
    Ok(bytes)
}

fn split_field<'a>(text: &mut &'a [u8]) -> Result<(u64, Part<'a>), Fault> {
    let key = split_varint(text)?;
    let number = key >> 3;
    if number == 0 || number > 536_870_911 {
        return Err(Fault::BadKey);
    }
    let part = match key & 7 {
        0 => Part::Varint(split_varint(text)?),
        2 => {
            let count = split_varint(text)?;
            Part::Bytes(split_bytes(text, count)?)
        }
        1 => split_bytes(text, 8).map(|_| Part::Other)?,
        5 => split_bytes(text, 4).map(|_| Part::Other)?,
        _ => return Err(Fault::BadWireType),
    };
    Ok((number, part))
}

impl<'a> Part<'a> {
    fn number(self) -> Result<u64, Fault> {
        match self {
            Part::Varint(number) => Ok(number),
            _ => Err(Fault::BadWireType),
        }
    }

    fn piece(self) -> Result<&'a [u8], Fault> {
        match self {
            Part::Bytes(bytes) => Ok(bytes),
            _ => Err(Fault::BadWireType),
        }
    }

    fn bytes(self) -> Result<Vec<u8>, Fault> {
        Ok(self.piece()?.to_vec())
    }

    fn string(self) -> Result<String, Fault> {
        let text = std::str::from_utf8(self.piece()?).map_err(|_| Fault::NotUtf8)?;
        Ok(text.to_owned())
    }
}

fn put_varint(out: &mut Vec<u8>, mut value: u64) {
    while value >= 128 {
        out.push(value as u8 | 128);
        value >>= 7;
    }
    out.push(value as u8);
}

fn put_number(out: &mut Vec<u8>, number: u64, value: u64) {
    if value != 0 {
        put_varint(out, number << 3);
        put_varint(out, value);
    }
}

fn put_bytes(out: &mut Vec<u8>, number: u64, bytes: &[u8]) {
    put_varint(out, number << 3 | 2);
    put_varint(out, bytes.len() as u64);
    out.extend_from_slice(bytes);
}

fn put_present(out: &mut Vec<u8>, number: u64, bytes: &[u8]) {
    if !bytes.is_empty() {
        put_bytes(out, number, bytes);
    }
}

fn put_message<M: Message>(out: &mut Vec<u8>, number: u64, message: &M) {
    let mut text = Vec::new();
    message.encode(&mut text);
    put_bytes(out, number, &text);
}

trait Message: Default {
    fn take(&mut self, number: u64, part: Part<'_>) -> Result<(), Fault>;
    fn encode(&self, out: &mut Vec<u8>);

    fn merge(&mut self, mut text: &[u8]) -> Result<(), Fault> {
        while !text.is_empty() {
            let (number, part) = split_field(&mut text)?;
            self.take(number, part)?;
        }
        Ok(())
    }

    fn decode(text: &[u8]) -> Result<Self, Fault> {
        let mut message = Self::default();
        message.merge(text)?;
        Ok(message)
    }
}

impl Message for FlightDescriptor {
    fn take(&mut self, number: u64, part: Part<'_>) -> Result<(), Fault> {
        match number {
            1 => self.descriptor_type = part.number()? as i32,
            2 => self.cmd = part.bytes()?,
            3 => self.path.push(part.string()?),
            _ => {}
        }
        Ok(())
    }

    fn encode(&self, out: &mut Vec<u8>) {
        put_number(out, 1, i64::from(self.descriptor_type) as u64);
        put_present(out, 2, &self.cmd);
        for element in &self.path {
            put_bytes(out, 3, element.as_bytes());
        }
    }
}

impl Message for FlightData {
    fn take(&mut self, number: u64, part: Part<'_>) -> Result<(), Fault> {
        match number {
            1 => self.flight_descriptor.get_or_insert_default().merge(part.piece()?)?,
            2 => self.data_header = part.bytes()?,
            3 => self.app_metadata = part.bytes()?,
            1000 => self.data_body = part.bytes()?,
            _ => {}
        }
        Ok(())
    }

    fn encode(&self, out: &mut Vec<u8>) {
        if let Some(descriptor) = &self.flight_descriptor {
            put_message(out, 1, descriptor);
        }
        put_present(out, 2, &self.data_header);
        put_present(out, 3, &self.app_metadata);
        put_present(out, 1000, &self.data_body);
    }
}

impl Message for Ticket {
    fn take(&mut self, number: u64, part: Part<'_>) -> Result<(), Fault> {
        if number == 1 {
            self.ticket = part.bytes()?;
        }
        Ok(())
    }

    fn encode(&self, out: &mut Vec<u8>) {
        put_present(out, 1, &self.ticket);
    }
}

impl Message for Location {
    fn take(&mut self, number: u64, part: Part<'_>) -> Result<(), Fault> {
        if number == 1 {
            self.uri = part.string()?;
        }
        Ok(())
    }

    fn encode(&self, out: &mut Vec<u8>) {
        put_present(out, 1, self.uri.as_bytes());
    }
}

impl Message for FlightEndpoint {
    fn take(&mut self, number: u64, part: Part<'_>) -> Result<(), Fault> {
        match number {
            1 => self.ticket.get_or_insert_default().merge(part.piece()?)?,
            2 => self.location.push(Location::decode(part.piece()?)?),
            _ => {}
        }
        Ok(())
    }

    fn encode(&self, out: &mut Vec<u8>) {
        if let Some(ticket) = &self.ticket {
            put_message(out, 1, ticket);
        }
        for location in &self.location {
            put_message(out, 2, location);
        }
    }
}

impl Message for FlightInfo {
    fn take(&mut self, number: u64, part: Part<'_>) -> Result<(), Fault> {
        match number {
            1 => self.schema = part.bytes()?,
            2 => self.flight_descriptor.get_or_insert_default().merge(part.piece()?)?,
            3 => self.endpoint.push(FlightEndpoint::decode(part.piece()?)?),
            4 => self.total_records = part.number()? as i64,
            5 => self.total_bytes = part.number()? as i64,
            6 => self.ordered = part.number()? != 0,
            _ => {}
        }
        Ok(())
    }

    fn encode(&self, out: &mut Vec<u8>) {
        put_present(out, 1, &self.schema);
        if let Some(descriptor) = &self.flight_descriptor {
            put_message(out, 2, descriptor);
        }
        for endpoint in &self.endpoint {
            put_message(out, 3, endpoint);
        }
        put_number(out, 4, self.total_records as u64);
        put_number(out, 5, self.total_bytes as u64);
        put_number(out, 6, u64::from(self.ordered));
    }
}

fn last_byte(text: &[u8]) -> u64 {
    text.last().copied().map_or(0, u64::from)
}

fn text_weight(text: &[u8]) -> u64 {
    text.len() as u64 + last_byte(text)
}

fn data_weight(message: &FlightData) -> u64 {
    text_weight(&message.data_body)
}

fn info_weight(message: &FlightInfo) -> u64 {
    message.endpoint.len() as u64 + last_byte(&message.schema)
}

fn decode_often<M: Message>(count: u64, text: &[u8], weight: fn(&M) -> u64) -> Result<u64, Fault> {
    let mut sum = 0u64;
    for _ in 0..count {
        let message = black_box(M::decode(black_box(text))?);
        sum = sum.wrapping_add(weight(&message));
    }
    Ok(sum)
}

fn encode_often<M: Message>(count: u64, text: &[u8], out: &mut Vec<u8>) -> Result<u64, Fault> {
    let message = M::decode(text)?;
    let mut sum = 0u64;
    for _ in 0..count {
        out.clear();
        black_box(&message).encode(out);
        sum = sum.wrapping_add(text_weight(black_box(out)));
    }
    Ok(sum)
}

fn copy_often(count: u64, text: &[u8]) -> u64 {
    let mut sum = 0u64;
    for _ in 0..count {
        let copy = black_box(black_box(text).to_vec());
        sum = sum.wrapping_add(text_weight(&copy));
    }
    sum
}

/// Prints the message as it was written last, or its fault on standard error, with status 1.
fn reencode_often<M: Message>(count: u64, text: &[u8]) -> io::Result<()> {
    let mut out = Vec::new();
    if let Err(fault) = encode_often::<M>(count, text, &mut out) {
        eprintln!("{fault:?}");
        std::process::exit(1);
    }
    io::stdout().write_all(&out)
}

fn pattern(length: usize) -> Vec<u8> {
    (0..length).map(|i| (i * 7 % 251) as u8 + 1).collect()
}

fn descriptor() -> Option<FlightDescriptor> {
    Some(FlightDescriptor { descriptor_type: 1, cmd: Vec::new(), path: vec!["sales".to_owned()] })
}

fn generated_data() -> FlightData {
    FlightData {
        flight_descriptor: descriptor(),
        data_header: pattern(200),
        app_metadata: Vec::new(),
        data_body: pattern(1 << 20),
    }
}

fn generated_info() -> FlightInfo {
    let location = |n: usize, port: usize| Location { uri: format!("grpc+tcp://10.10.{:02}.7:42{port:03}", n % 100) };
    let endpoint = |n: usize| FlightEndpoint {
        ticket: Some(Ticket { ticket: format!("part-{n:04}").into_bytes() }),
        location: (1..4).map(|port| location(n, port)).collect(),
    };
    FlightInfo {
        schema: pattern(160),
        flight_descriptor: descriptor(),
        endpoint: (0..64).map(endpoint).collect(),
        total_records: 1_000_000,
        total_bytes: 64 << 20,
        ordered: true,
    }
}

fn generate<M: Message>(message: &M) -> io::Result<()> {
    let mut out = Vec::new();
    message.encode(&mut out);
    io::stdout().write_all(&out)
}

fn tally(count: u64, sum: Result<u64, Fault>) -> io::Result<()> {
    let sum = sum.map_err(|fault| io::Error::other(format!("{fault:?}")))?;
    println!("{count} {sum}");
    Ok(())
}

fn main() -> io::Result<()> {
    let words: Vec<String> = std::env::args().skip(1).collect();
    let [task, count, file] = &words[..] else {
        return match words[0].as_str() {
            "generate-data" => generate(&generated_data()),
            "generate-info" => generate(&generated_info()),
            _ => Err(io::ErrorKind::InvalidInput.into()),
        };
    };
    let count: u64 = count.parse().map_err(|_| io::ErrorKind::InvalidInput)?;
    let text = std::fs::read(file)?;
    match task.as_str() {
        "decode-data" => tally(count, decode_often(count, &text, data_weight)),
        "encode-data" => tally(count, encode_often::<FlightData>(count, &text, &mut Vec::new())),
        "reencode-data" => reencode_often::<FlightData>(count, &text),
        "decode-info" => tally(count, decode_often(count, &text, info_weight)),
        "encode-info" => tally(count, encode_often::<FlightInfo>(count, &text, &mut Vec::new())),
        "reencode-info" => reencode_often::<FlightInfo>(count, &text),
        "copy" => tally(count, Ok(copy_often(count, &text))),
        _ => Err(io::ErrorKind::InvalidInput.into()),
    }
}
