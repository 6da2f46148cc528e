//! Uploads and the tables that they make in plain Rust, over the maps of std, with nothing proved: what `flight_bench` is
//! timed against. `generate UPLOADS TABLES BATCHES ROWS` writes so many uploads, each behind its length, to so many tables
//! in turn, of one column of Int8, each of so many batches of so many rows; `TASK COUNT FILE` does what `flight_bench` does
//! at these words.
use plain_batches::plain_headers::{self, BatchHead, Field, Header, Schema, Type};
use plain_batches::{bytes_weight, read_batch, write_body};
use std::collections::HashMap;
use std::hint::black_box;
use std::io::{self, Write};
use std::sync::Arc;

#[allow(dead_code)]
#[path = "plain_batches.rs"]
pub(crate) mod plain_batches;

const MAX_NAME_BYTES: usize = 64;
const MAX_BATCHES: usize = 1_024;
const MAX_BYTES: usize = 16_777_216;
const MAX_FRAME: usize = 4_194_304;

// ---- fields

pub(crate) fn put_varint(out: &mut Vec<u8>, mut number: u64) {
    while number >= 128 {
        out.push(number as u8 | 128);
        number >>= 7;
    }
    out.push(number as u8);
}

pub(crate) fn put_bytes(out: &mut Vec<u8>, number: u64, bytes: &[u8]) {
    if !bytes.is_empty() {
        put_varint(out, 8 * number + 2);
        put_varint(out, bytes.len() as u64);
        out.extend_from_slice(bytes);
    }
}

fn varint_length(number: u64) -> usize {
    (64 - (number | 1).leading_zeros() as usize).div_ceil(7)
}

fn field_length(number: u64, count: usize) -> usize {
    if count == 0 { 0 } else { varint_length(8 * number + 2) + varint_length(count as u64) + count }
}

/// A number in its shortest encoding.
pub(crate) fn take_varint(bytes: &mut &[u8]) -> Option<u64> {
    let mut number = 0;
    for place in 0..10 {
        let (&byte, rest) = bytes.split_first()?;
        *bytes = rest;
        number |= u64::from(byte & 127) << (7 * place);
        if byte < 128 {
            return (place == 0 || byte != 0).then_some(number);
        }
    }
    None
}

/// The bytes of a field of this number at the front.
pub(crate) fn take_bytes<'a>(bytes: &mut &'a [u8], number: u64) -> Option<&'a [u8]> {
    if take_varint(bytes)? != 8 * number + 2 {
        return None;
    }
    let count = usize::try_from(take_varint(bytes)?).ok()?;
    let (content, rest) = bytes.split_at_checked(count).filter(|_| count > 0)?;
    *bytes = rest;
    Some(content)
}

// ---- uploads

pub(crate) fn is_table_name(name: &[u8]) -> bool {
    let is_name_byte = |byte: &u8| byte.is_ascii_alphanumeric() || matches!(byte, b'_' | b'.' | b'-');
    name.len() <= MAX_NAME_BYTES && name.iter().all(is_name_byte)
}

fn fits_frame(header: usize, metadata: usize, body: usize) -> bool {
    field_length(2, header) + field_length(3, metadata) + field_length(1_000, body) <= MAX_FRAME
}

pub(crate) struct Parts<'a> {
    table: &'a str,
    id: [u8; 16],
    schema: &'a [u8],
    batches: Vec<(&'a [u8], &'a [u8])>,
}

fn parts(mut text: &[u8]) -> Option<Parts<'_>> {
    let table = take_bytes(&mut text, 1).filter(|name| is_table_name(name))?;
    let id = take_bytes(&mut text, 2)?.try_into().ok()?;
    let schema = take_bytes(&mut text, 3)?;
    let mut batches = Vec::new();
    while !text.is_empty() {
        let mut batch = take_bytes(&mut text, 4)?;
        let header = take_bytes(&mut batch, 1)?;
        let body = if batch.is_empty() { batch } else { take_bytes(&mut batch, 2)? };
        if !batch.is_empty() || batches.len() == MAX_BATCHES || !fits_frame(header.len(), 16, body.len()) {
            return None;
        }
        batches.push((header, body));
    }
    let is_served = fits_frame(schema.len(), 0, 0);
    is_served.then_some(Parts { table: std::str::from_utf8(table).ok()?, id, schema, batches })
}

pub(crate) fn head_of(bytes: &[u8]) -> Option<BatchHead> {
    match plain_headers::read(bytes) {
        Ok(Header::Batch(head)) => Some(head),
        _ => None,
    }
}

/// The rows of a batch, where it is written in its one way.
fn rows_of(schema: &Schema, header: &[u8], body: &[u8]) -> Option<u64> {
    let batch = read_batch(schema, &head_of(header)?, body).ok()?;
    let (head, written) = write_body(&batch);
    let is_written_so = written == body && plain_headers::encoded(&Header::Batch(head)) == header;
    is_written_so.then_some(batch.rows as u64)
}

/// An upload: its encoding, and what was read of it.
struct Upload {
    text: Arc<[u8]>,
    id: [u8; 16],
    table: String,
    schema: Schema,
    schema_bytes: Vec<u8>,
    records: u64,
    frames: Vec<u8>,
}

pub(crate) fn put_frame(out: &mut Vec<u8>, header: &[u8], metadata: &[u8], body: &[u8]) {
    let length = field_length(2, header.len()) + field_length(3, metadata.len()) + field_length(1_000, body.len());
    out.push(0);
    out.extend_from_slice(&(length as u32).to_be_bytes());
    put_bytes(out, 2, header);
    put_bytes(out, 3, metadata);
    put_bytes(out, 1_000, body);
}

fn frames_of(parts: &Parts) -> Vec<u8> {
    let mut frames = Vec::new();
    if parts.batches.is_empty() {
        put_frame(&mut frames, &[], &parts.id, &[]);
    }
    for (header, body) in &parts.batches {
        put_frame(&mut frames, header, &parts.id, body);
    }
    frames
}

/// The schema and the rows of an encoding that is one.
pub(crate) fn checked(text: &[u8]) -> Option<(Parts<'_>, Schema, u64)> {
    let parts = parts(text).filter(|_| text.len() <= MAX_BYTES)?;
    let Ok(Header::Schema(schema)) = plain_headers::read(parts.schema) else {
        return None;
    };
    let header = Header::Schema(schema);
    let is_written_so = plain_headers::encoded(&header) == parts.schema;
    let Header::Schema(schema) = header else { unreachable!() };
    let mut records = 0;
    for (header, body) in &parts.batches {
        records += rows_of(&schema, header, body)?;
    }
    is_written_so.then_some((parts, schema, records))
}

fn upload_of(text: &Arc<[u8]>) -> Option<Upload> {
    let (parts, schema, records) = checked(text)?;
    let (frames, schema_bytes) = (frames_of(&parts), parts.schema.to_vec());
    let (id, table) = (parts.id, parts.table.to_owned());
    Some(Upload { text: text.clone(), id, table, schema, schema_bytes, records, frames })
}

// ---- tables

#[derive(Clone, Copy)]
#[allow(dead_code)]
pub(crate) enum Outcome {
    Applied(u64),
    SchemaMismatch,
}

pub(crate) struct Table {
    schema: Schema,
    pub(crate) schema_frame: Vec<u8>,
    pub(crate) frames: Vec<Vec<u8>>,
    pub(crate) records: u64,
    pub(crate) total_bytes: u64,
}

#[derive(Default)]
#[allow(dead_code)]
pub(crate) struct Tables {
    pub(crate) firsts: HashMap<[u8; 16], (Arc<[u8]>, Outcome)>,
    pub(crate) tables: HashMap<String, Table>,
    names: Vec<String>,
    taken: u64,
}

fn same_fields(one: &[Field], two: &[Field]) -> bool {
    one.len() == two.len() && one.iter().zip(two).all(|(one, two)| same_field(one, two))
}

fn same_field(one: &Field, two: &Field) -> bool {
    one.name == two.name
        && one.nullable == two.nullable
        && one.ty == two.ty
        && same_fields(&one.children, &two.children)
}

impl Tables {
    pub(crate) fn take(&mut self, value: &Arc<[u8]>) {
        self.taken += 1;
        if let Some(upload) = upload_of(value) {
            self.take_upload(upload);
        }
    }

    fn take_upload(&mut self, upload: Upload) {
        if self.firsts.contains_key(&upload.id) {
            return;
        }
        let (id, text) = (upload.id, upload.text.clone());
        let outcome = self.place(upload);
        self.firsts.insert(id, (text, outcome));
    }

    fn place(&mut self, upload: Upload) -> Outcome {
        if let Some(table) = self.tables.get_mut(&upload.table) {
            if !same_fields(&table.schema.fields, &upload.schema.fields) {
                return Outcome::SchemaMismatch;
            }
            table.records += upload.records;
            table.total_bytes += upload.frames.len() as u64;
            table.frames.push(upload.frames);
            return Outcome::Applied(table.frames.len() as u64);
        }
        let mut schema_frame = Vec::new();
        put_frame(&mut schema_frame, &upload.schema_bytes, &[], &[]);
        let table = Table {
            schema: upload.schema,
            total_bytes: (schema_frame.len() + upload.frames.len()) as u64,
            schema_frame,
            frames: vec![upload.frames],
            records: upload.records,
        };
        self.names.push(upload.table.clone());
        self.tables.insert(upload.table, table);
        Outcome::Applied(1)
    }

    pub(crate) fn answer(&self, name: &str, version: usize) -> Option<Vec<u8>> {
        let table = self.tables.get(name)?;
        let frames = table.frames.get(..version)?;
        let length = table.schema_frame.len() + frames.iter().map(Vec::len).sum::<usize>();
        let mut answer = Vec::with_capacity(length);
        answer.extend_from_slice(&table.schema_frame);
        frames.iter().for_each(|frames| answer.extend_from_slice(frames));
        Some(answer)
    }

    fn weight(&self) -> u64 {
        let of_one = |table: &Table| table.frames.len() as u64 + table.records + table.total_bytes;
        self.names.iter().map(|name| of_one(&self.tables[name])).fold(self.taken, u64::wrapping_add)
    }
}

// ---- uploads to be taken

pub(crate) fn int8() -> Schema {
    let field = Field {
        name: "a".to_owned(),
        nullable: true,
        ty: Type::Int(8, true),
        children: Vec::new(),
        metadata: Vec::new(),
    };
    Schema { fields: Vec::from([field]), metadata: Vec::new() }
}

pub(crate) fn batch_of(rows: usize) -> Vec<u8> {
    let mut body: Vec<u8> = (0..rows).map(|place| (place % 251) as u8).collect();
    body.resize(rows.next_multiple_of(8), 0);
    let head = BatchHead {
        length: rows as i64,
        nodes: Vec::from([(rows as i64, 0)]),
        buffers: Vec::from([(0, 0), (0, rows as i64)]),
        compressed: false,
        body_length: body.len() as i64,
    };
    let mut batch = Vec::new();
    put_bytes(&mut batch, 1, &plain_headers::encoded(&Header::Batch(head)));
    put_bytes(&mut batch, 2, &body);
    batch
}

pub(crate) fn generated(uploads: u64, tables: u64, batches: usize, rows: usize) -> Vec<u8> {
    let (schema, batch) = (plain_headers::encoded(&Header::Schema(int8())), batch_of(rows));
    let mut out = Vec::new();
    for number in 0..uploads {
        let mut text = Vec::new();
        put_bytes(&mut text, 1, format!("table_{:03}", number % tables).as_bytes());
        put_bytes(&mut text, 2, &(u128::from(number) * 0x9e37_79b9_7f4a_7c15_f39c_c060_5ced_c835).to_le_bytes());
        put_bytes(&mut text, 3, &schema);
        (0..batches).for_each(|_| put_bytes(&mut text, 4, &batch));
        out.extend_from_slice(&(text.len() as u32).to_le_bytes());
        out.extend_from_slice(&text);
    }
    out
}

// ---- the tasks of flight_bench

pub(crate) fn values(mut bytes: &[u8]) -> Option<Vec<Arc<[u8]>>> {
    let mut values = Vec::new();
    while !bytes.is_empty() {
        let (count, rest) = bytes.split_first_chunk()?;
        let (text, rest) = rest.split_at_checked(u32::from_le_bytes(*count) as usize)?;
        values.push(text.into());
        bytes = rest;
    }
    Some(values)
}

fn tables_of(values: &[Arc<[u8]>]) -> Tables {
    let mut tables = Tables::default();
    values.iter().for_each(|value| tables.take(black_box(value)));
    tables
}

fn take_often(count: u64, bytes: &[u8]) -> Option<u64> {
    let values = values(bytes)?;
    Some((0..count).map(|_| tables_of(&values).weight()).fold(0, u64::wrapping_add))
}

fn hold_all(count: u64, bytes: &[u8]) -> Option<u64> {
    let values = values(bytes)?;
    let held: Vec<Tables> = (0..count).map(|_| tables_of(&values)).collect();
    Some(held.iter().map(Tables::weight).fold(0, u64::wrapping_add))
}

fn decode_often(count: u64, bytes: &[u8]) -> Option<u64> {
    let values = values(bytes)?;
    let mut sum = 0u64;
    for _ in 0..count {
        for value in &values {
            let (parts, _, _) = black_box(checked(black_box(value))?);
            sum = sum.wrapping_add(bytes_weight(value) + parts.batches.len() as u64);
        }
    }
    Some(sum)
}

fn answer_often(count: u64, bytes: &[u8]) -> Option<u64> {
    let tables = tables_of(&values(bytes)?);
    let name = tables.names.first()?;
    let version = tables.tables[name].frames.len();
    let mut sum = 0u64;
    for _ in 0..count {
        sum = sum.wrapping_add(bytes_weight(&black_box(tables.answer(black_box(name), version)?)));
    }
    Some(sum)
}

fn main() -> io::Result<()> {
    let words: Vec<String> = std::env::args().skip(1).collect();
    let wrong = || io::Error::from(io::ErrorKind::InvalidInput);
    let number = |word: &String| word.parse::<u64>().map_err(|_| wrong());
    if let [generate, uploads, tables, batches, rows] = &words[..] {
        if generate != "generate" {
            return Err(wrong());
        }
        let (batches, rows) = (number(batches)? as usize, number(rows)? as usize);
        let laid = generated(number(uploads)?, number(tables)?, batches, rows);
        return io::stdout().write_all(&laid);
    }
    let [task, count, file] = &words[..] else {
        return Err(wrong());
    };
    let count = number(count)?;
    let bytes = std::fs::read(file)?;
    let task = match task.as_str() {
        "take-uploads" => take_often,
        "hold-uploads" => hold_all,
        "decode-uploads" => decode_often,
        "answer-tickets" => answer_often,
        _ => return Err(wrong()),
    };
    println!("{count} {}", task(count, &bytes).ok_or_else(wrong)?);
    Ok(())
}
