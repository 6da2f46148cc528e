//! Headers of Arrow's metadata in plain Rust, with nothing proved: what `flight_bench` is timed against. `generate
//! NAME` writes a header, or a hostile text of 4 MiB; `TASK COUNT FILE` does what `flight_bench` does at these words.
use std::hint::black_box;
use std::io::{self, Write};

const MAX_DEPTH: usize = 16;
const MAX_FIELDS: usize = 512;
const MAX_METADATA_ENTRIES: usize = 4_096;
const MAX_TEXT_BYTES: usize = 1_048_576;
const MAX_BUFFERS: usize = 1_536;
const HOSTILE_BYTES: usize = 4 << 20;

#[derive(Clone, Copy, Debug, PartialEq)]
pub(crate) enum Fault {
    OutOfBounds,
    Version,
    Endianness,
    Unsupported,
    Dictionary,
    TooDeep,
    TooManyFields,
    NotUtf8,
    BadHeader,
    Unwritable,
}

pub(crate) type Metadata = Vec<(String, String)>;

#[derive(PartialEq)]
pub(crate) enum Type {
    Null,
    Int(i32, bool),
    FloatingPoint(u16),
    Binary,
    Utf8,
    Bool,
    Decimal(i32, i32, i32),
    Date(u16),
    Time(u16, i32),
    Timestamp(u16, Option<String>),
    List,
    Struct,
    FixedSizeBinary(i32),
    FixedSizeList(i32),
    Duration(u16),
}

pub(crate) struct Field {
    pub(crate) name: String,
    pub(crate) nullable: bool,
    pub(crate) ty: Type,
    pub(crate) children: Vec<Field>,
    pub(crate) metadata: Metadata,
}

pub(crate) struct Schema {
    pub(crate) fields: Vec<Field>,
    pub(crate) metadata: Metadata,
}

pub(crate) struct BatchHead {
    pub(crate) length: i64,
    pub(crate) nodes: Vec<(i64, i64)>,
    pub(crate) buffers: Vec<(i64, i64)>,
    pub(crate) compressed: bool,
    pub(crate) body_length: i64,
}

pub(crate) enum Header {
    Schema(Schema),
    Batch(BatchHead),
}

// ---- reading

/// A text, and what may still be read of a schema.
struct Reader<'a> {
    text: &'a [u8],
    fields: usize,
    entries: usize,
    bytes: usize,
}

fn take(left: &mut usize, count: usize) -> Result<(), Fault> {
    *left = left.checked_sub(count).ok_or(Fault::TooManyFields)?;
    Ok(())
}

impl Reader<'_> {
    fn number<const N: usize>(&self, place: usize) -> Result<[u8; N], Fault> {
        let bytes = self.text.get(place..).and_then(|rest| rest.first_chunk());
        bytes.copied().ok_or(Fault::OutOfBounds)
    }

    fn short(&self, place: usize) -> Result<u16, Fault> {
        self.number(place).map(u16::from_le_bytes)
    }

    fn follow(&self, place: usize) -> Result<usize, Fault> {
        Ok(place + u32::from_le_bytes(self.number(place)?) as usize)
    }

    fn slot(&self, table: usize, n: usize) -> Result<Option<usize>, Fault> {
        let back = i64::from(i32::from_le_bytes(self.number(table)?));
        let vtable = usize::try_from(table as i64 - back).map_err(|_| Fault::OutOfBounds)?;
        let size = usize::from(self.short(vtable)?);
        if size < 4 {
            return Err(Fault::BadHeader);
        }
        if size < 6 + 2 * n {
            return Ok(None);
        }
        let offset = usize::from(self.short(vtable + 4 + 2 * n)?);
        Ok((offset != 0).then_some(table + offset))
    }

    fn byte_at(&self, table: usize, n: usize) -> Result<u8, Fault> {
        let place = self.slot(table, n)?;
        place.map_or(Ok(0), |place| self.number::<1>(place).map(|[byte]| byte))
    }

    fn short_at(&self, table: usize, n: usize, default: u16) -> Result<u16, Fault> {
        self.slot(table, n)?.map_or(Ok(default), |place| self.short(place))
    }

    fn int_at(&self, table: usize, n: usize, default: i32) -> Result<i32, Fault> {
        let place = self.slot(table, n)?;
        place.map_or(Ok(default), |place| self.number(place).map(i32::from_le_bytes))
    }

    fn long_at(&self, table: usize, n: usize) -> Result<i64, Fault> {
        let place = self.slot(table, n)?;
        place.map_or(Ok(0), |place| self.number(place).map(i64::from_le_bytes))
    }

    fn table_at(&self, table: usize, n: usize) -> Result<Option<usize>, Fault> {
        self.slot(table, n)?.map(|place| self.follow(place)).transpose()
    }

    /// The first element of a vector, and how many there are.
    fn vector_at(&self, table: usize, n: usize, size: usize) -> Result<(usize, usize), Fault> {
        let Some(place) = self.table_at(table, n)? else {
            return Ok((0, 0));
        };
        let count = u32::from_le_bytes(self.number(place)?) as usize;
        if self.text.len() - place - 4 < count.checked_mul(size).ok_or(Fault::OutOfBounds)? {
            return Err(Fault::OutOfBounds);
        }
        Ok((place + 4, count))
    }

    fn text_at(&mut self, table: usize, n: usize) -> Result<String, Fault> {
        let (first, count) = self.vector_at(table, n, 1)?;
        take(&mut self.bytes, count)?;
        let text = std::str::from_utf8(&self.text[first..first + count]);
        text.map(str::to_owned).map_err(|_| Fault::NotUtf8)
    }

    fn metadata_at(&mut self, table: usize, n: usize) -> Result<Metadata, Fault> {
        let (first, count) = self.vector_at(table, n, 4)?;
        take(&mut self.entries, count)?;
        let mut entries = Vec::new();
        for index in 0..count {
            let entry = self.follow(first + 4 * index)?;
            entries.push((self.text_at(entry, 0)?, self.text_at(entry, 1)?));
        }
        Ok(entries)
    }

    fn unit(&self, table: Option<usize>, default: u16, most: u16) -> Result<u16, Fault> {
        let unit = table.map_or(Ok(default), |table| self.short_at(table, 0, default))?;
        if unit > most { Err(Fault::BadHeader) } else { Ok(unit) }
    }

    fn parameter(&self, table: Option<usize>, n: usize, default: i32) -> Result<i32, Fault> {
        table.map_or(Ok(default), |table| self.int_at(table, n, default))
    }

    fn size(&self, table: Option<usize>) -> Result<i32, Fault> {
        let size = self.parameter(table, 0, 0)?;
        if size < 0 { Err(Fault::BadHeader) } else { Ok(size) }
    }

    fn type_of(&mut self, field: usize) -> Result<Type, Fault> {
        let kind = self.byte_at(field, 2)?;
        let table = match kind {
            2 | 3 | 7 | 8 | 9 | 10 | 15 | 16 | 18 => self.table_at(field, 3)?,
            _ => None,
        };
        Ok(match kind {
            1 => Type::Null,
            2 => match self.parameter(table, 0, 0)? {
                width @ (8 | 16 | 32 | 64) => {
                    Type::Int(width, table.map_or(Ok(0), |table| self.byte_at(table, 1))? != 0)
                }
                _ => return Err(Fault::BadHeader),
            },
            3 => Type::FloatingPoint(self.unit(table, 0, 2)?),
            4 => Type::Binary,
            5 => Type::Utf8,
            6 => Type::Bool,
            7 => match self.parameter(table, 2, 128)? {
                width @ (128 | 256) => {
                    Type::Decimal(self.parameter(table, 0, 0)?, self.parameter(table, 1, 0)?, width)
                }
                _ => return Err(Fault::Unsupported),
            },
            8 => Type::Date(self.unit(table, 1, 1)?),
            9 => {
                let (unit, width) = (self.unit(table, 1, 3)?, self.parameter(table, 1, 32)?);
                if width != if unit < 2 { 32 } else { 64 } {
                    return Err(Fault::BadHeader);
                }
                Type::Time(unit, width)
            }
            10 => {
                let unit = self.unit(table, 0, 3)?;
                let zone = match table {
                    Some(table) if self.slot(table, 1)?.is_some() => Some(self.text_at(table, 1)?),
                    _ => None,
                };
                Type::Timestamp(unit, zone)
            }
            12 => Type::List,
            13 => Type::Struct,
            15 => Type::FixedSizeBinary(self.size(table)?),
            16 => Type::FixedSizeList(self.size(table)?),
            18 => Type::Duration(self.unit(table, 1, 3)?),
            _ => return Err(Fault::Unsupported),
        })
    }

    fn field(&mut self, table: usize, depth: usize) -> Result<Field, Fault> {
        if depth > MAX_DEPTH {
            return Err(Fault::TooDeep);
        }
        take(&mut self.fields, 1)?;
        if self.slot(table, 4)?.is_some() {
            return Err(Fault::Dictionary);
        }
        let name = self.text_at(table, 0)?;
        let nullable = self.byte_at(table, 1)? != 0;
        let ty = self.type_of(table)?;
        let children = self.fields_at(table, 5, depth + 1)?;
        let is_well_formed = match ty {
            Type::Struct => true,
            Type::List | Type::FixedSizeList(_) => children.len() == 1,
            _ => children.is_empty(),
        };
        if !is_well_formed {
            return Err(Fault::BadHeader);
        }
        let metadata = self.metadata_at(table, 6)?;
        Ok(Field { name, nullable, ty, children, metadata })
    }

    fn fields_at(&mut self, table: usize, n: usize, depth: usize) -> Result<Vec<Field>, Fault> {
        let (first, count) = self.vector_at(table, n, 4)?;
        let mut fields = Vec::new();
        for index in 0..count {
            let field = self.follow(first + 4 * index)?;
            fields.push(self.field(field, depth)?);
        }
        Ok(fields)
    }

    fn pairs_at(&self, table: usize, n: usize) -> Result<Vec<(i64, i64)>, Fault> {
        let (first, count) = self.vector_at(table, n, 16)?;
        let pair = |index: usize| {
            let one = i64::from_le_bytes(self.number(first + 16 * index)?);
            Ok((one, i64::from_le_bytes(self.number(first + 16 * index + 8)?)))
        };
        (0..count).map(pair).collect()
    }

    fn header(&mut self) -> Result<Header, Fault> {
        let message = self.follow(0)?;
        if self.short_at(message, 0, 0)? != 4 {
            return Err(Fault::Version);
        }
        let kind = self.byte_at(message, 1)?;
        let table = self.table_at(message, 2)?.ok_or(Fault::BadHeader)?;
        match kind {
            1 if self.short_at(table, 0, 0)? != 0 => Err(Fault::Endianness),
            1 => {
                let fields = self.fields_at(table, 1, 1)?;
                let metadata = self.metadata_at(table, 2)?;
                Ok(Header::Schema(Schema { fields, metadata }))
            }
            2 => Err(Fault::Dictionary),
            3 => Ok(Header::Batch(BatchHead {
                length: self.long_at(table, 0)?,
                nodes: self.pairs_at(table, 1)?,
                buffers: self.pairs_at(table, 2)?,
                compressed: self.slot(table, 3)?.is_some(),
                body_length: self.long_at(message, 3)?,
            })),
            _ => Err(Fault::BadHeader),
        }
    }
}

pub(crate) fn read(text: &[u8]) -> Result<Header, Fault> {
    Reader { text, fields: MAX_FIELDS, entries: MAX_METADATA_ENTRIES, bytes: MAX_TEXT_BYTES }.header()
}

// ---- writing

/// A text that grows upwards. Each object that is put is referred to from a place that was left for it.
struct Writer {
    text: Vec<u8>,
}

impl Writer {
    fn pad(&mut self, size: usize, ahead: usize) {
        while (self.text.len() + ahead) % size != 0 {
            self.text.push(0);
        }
    }

    fn refer(&mut self, from: usize) {
        let distance = (self.text.len() - from) as u32;
        self.text[from..from + 4].copy_from_slice(&distance.to_le_bytes());
    }

    /// Puts a table after its vtable, and gives the place where it stands.
    fn table(&mut self, from: usize, numbers: &[u16], cells: &[u8]) -> usize {
        self.pad(8, 2 * numbers.len());
        for number in numbers {
            self.text.extend_from_slice(&number.to_le_bytes());
        }
        self.refer(from);
        let table = self.text.len();
        self.text.extend_from_slice(&(2 * numbers.len() as u32).to_le_bytes());
        self.text.extend_from_slice(cells);
        table
    }

    fn string(&mut self, from: usize, text: &str) {
        self.pad(4, 0);
        self.refer(from);
        self.text.extend_from_slice(&(text.len() as u32).to_le_bytes());
        self.text.extend_from_slice(text.as_bytes());
        self.text.push(0);
    }

    fn references(&mut self, from: usize, count: usize) -> usize {
        self.pad(4, 0);
        self.refer(from);
        self.text.extend_from_slice(&(count as u32).to_le_bytes());
        let first = self.text.len();
        self.text.resize(first + 4 * count, 0);
        first
    }

    fn metadata(&mut self, from: usize, entries: &Metadata) {
        if entries.is_empty() {
            return;
        }
        let first = self.references(from, entries.len());
        for (index, (key, value)) in entries.iter().enumerate() {
            let entry = self.table(first + 4 * index, &[8, 12, 4, 8], &[0; 8]);
            self.string(entry + 4, key);
            self.string(entry + 8, value);
        }
    }

    fn type_table(&mut self, from: usize, ty: &Type) {
        let two = |first: u32, second: u32| [first.to_le_bytes(), second.to_le_bytes()].concat();
        let one = |first: u32| first.to_le_bytes();
        match ty {
            Type::Null | Type::Binary | Type::Utf8 | Type::Bool | Type::List | Type::Struct => {
                self.table(from, &[4, 4], &[])
            }
            Type::Int(width, signed) => {
                self.table(from, &[8, 12, 4, 8], &two(*width as u32, u32::from(*signed)))
            }
            Type::FloatingPoint(unit) | Type::Date(unit) | Type::Duration(unit) => {
                self.table(from, &[6, 8, 4], &one(u32::from(*unit)))
            }
            Type::FixedSizeBinary(size) | Type::FixedSizeList(size) => {
                self.table(from, &[6, 8, 4], &one(*size as u32))
            }
            Type::Decimal(precision, scale, width) => {
                let cells = [two(*precision as u32, *scale as u32), one(*width as u32).to_vec()];
                self.table(from, &[10, 16, 4, 8, 12], &cells.concat())
            }
            Type::Time(unit, width) => {
                self.table(from, &[8, 12, 4, 8], &two(u32::from(*unit), *width as u32))
            }
            Type::Timestamp(unit, zone) => {
                let place = if zone.is_some() { 8 } else { 0 };
                let table = self.table(from, &[8, 12, 4, place], &two(u32::from(*unit), 0));
                if let Some(zone) = zone {
                    self.string(table + 8, zone);
                }
                table
            }
        };
    }

    fn fields(&mut self, from: usize, fields: &[Field]) {
        let first = self.references(from, fields.len());
        for (index, field) in fields.iter().enumerate() {
            let metadata = if field.metadata.is_empty() { 0 } else { 20 };
            let mut cells = [0; 20];
            cells[4] = u8::from(field.nullable);
            cells[5] = kind_of(&field.ty);
            let numbers = [18, 24, 4, 8, 9, 12, 0, 16, metadata];
            let table = self.table(first + 4 * index, &numbers, &cells);
            self.string(table + 4, &field.name);
            self.type_table(table + 12, &field.ty);
            self.fields(table + 16, &field.children);
            self.metadata(table + 20, &field.metadata);
        }
    }

    fn pairs(&mut self, from: usize, pairs: &[(i64, i64)]) {
        self.pad(8, 4);
        self.refer(from);
        self.text.extend_from_slice(&(pairs.len() as u32).to_le_bytes());
        for (one, two) in pairs {
            self.text.extend_from_slice(&one.to_le_bytes());
            self.text.extend_from_slice(&two.to_le_bytes());
        }
    }

    fn message(&mut self, kind: u8, body_length: i64) -> usize {
        let mut cells = [0; 20];
        cells[0] = 4;
        cells[2] = kind;
        cells[12..].copy_from_slice(&body_length.to_le_bytes());
        self.table(0, &[12, 24, 4, 6, 8, 16], &cells)
    }
}

fn kind_of(ty: &Type) -> u8 {
    match ty {
        Type::Null => 1,
        Type::Int(..) => 2,
        Type::FloatingPoint(_) => 3,
        Type::Binary => 4,
        Type::Utf8 => 5,
        Type::Bool => 6,
        Type::Decimal(..) => 7,
        Type::Date(_) => 8,
        Type::Time(..) => 9,
        Type::Timestamp(..) => 10,
        Type::List => 12,
        Type::Struct => 13,
        Type::FixedSizeBinary(_) => 15,
        Type::FixedSizeList(_) => 16,
        Type::Duration(_) => 18,
    }
}

fn write(header: &Header, out: &mut Vec<u8>) {
    let mut writer = Writer { text: vec![0; 4] };
    match header {
        Header::Schema(schema) => {
            let message = writer.message(1, 0);
            let metadata = if schema.metadata.is_empty() { 0 } else { 8 };
            let table = writer.table(message + 8, &[10, 12, 0, 4, metadata], &[0; 8]);
            writer.fields(table + 4, &schema.fields);
            writer.metadata(table + 8, &schema.metadata);
        }
        Header::Batch(head) => {
            let message = writer.message(3, head.body_length);
            let mut cells = [0; 20];
            cells[4..12].copy_from_slice(&head.length.to_le_bytes());
            let table = writer.table(message + 8, &[10, 24, 8, 4, 16], &cells);
            writer.pairs(table + 4, &head.nodes);
            writer.pairs(table + 16, &head.buffers);
        }
    }
    writer.pad(8, 0);
    out.extend_from_slice(&writer.text);
}

// ---- texts to be read

fn field(name: String, ty: Type, children: Vec<Field>) -> Field {
    Field { name, nullable: true, ty, children, metadata: Vec::new() }
}

/// 500 fields side by side.
fn flat() -> Header {
    let column = |n: usize| {
        let ty = match n % 4 {
            0 => Type::Int(64, true),
            1 => Type::Utf8,
            2 => Type::FloatingPoint(2),
            _ => Type::Timestamp(2, Some("UTC".to_owned())),
        };
        field(format!("column_{n:03}"), ty, Vec::new())
    };
    Header::Schema(Schema { fields: (0..500).map(column).collect(), metadata: Vec::new() })
}

/// Structs in structs down to level 16, with a number beside each.
fn deep() -> Header {
    let number = |depth: usize| field(format!("number_{depth}"), Type::Int(32, true), Vec::new());
    let mut inner = vec![number(MAX_DEPTH)];
    for depth in (1..MAX_DEPTH).rev() {
        inner = vec![number(depth), field(format!("level_{depth}"), Type::Struct, inner)];
    }
    Header::Schema(Schema { fields: inner, metadata: Vec::new() })
}

/// As many columns, entries and bytes as a schema may have, nothing shared.
fn full() -> Header {
    let entry = |n: usize, e: usize| (format!("key_{n:03}_{e}"), "v".repeat(240));
    let column = |n: usize| Field {
        metadata: (0..8).map(|e| entry(n, e)).collect(),
        ..field(format!("column_{n:03}"), Type::Int(64, true), Vec::new())
    };
    Header::Schema(Schema { fields: (0..MAX_FIELDS).map(column).collect(), metadata: Vec::new() })
}

pub(crate) fn encoded(header: &Header) -> Vec<u8> {
    let mut text = Vec::new();
    write(header, &mut text);
    text
}

/// A schema whose columns are one table, named so many times, with so many entries that are one table too, whose key
/// has so many bytes.
fn shared(fields: usize, entries: usize, key: usize) -> Vec<u8> {
    let mut writer = Writer { text: vec![0; 4] };
    let message = writer.message(1, 0);
    let table = writer.table(message + 8, &[10, 12, 0, 4, 0], &[0; 8]);
    let first = writer.references(table + 4, fields);
    let mut cells = [0; 20];
    cells[5] = 1;
    let field = writer.table(first, &[18, 24, 0, 8, 9, 0, 0, 0, 20], &cells);
    name_again(&mut writer.text, first, fields, field);
    let first = writer.references(field + 20, entries);
    let entry = writer.table(first, &[8, 12, 4, 0], &[0; 8]);
    name_again(&mut writer.text, first, entries, entry);
    writer.string(entry + 4, &"k".repeat(key));
    writer.text
}

/// Makes all the references of a vector name one table.
fn name_again(text: &mut [u8], first: usize, count: usize, table: usize) {
    for index in 0..count {
        let from = first + 4 * index;
        text[from..from + 4].copy_from_slice(&((table - from) as u32).to_le_bytes());
    }
}

/// Structs in structs, each of which names the one inside it twice.
fn doubled() -> Vec<u8> {
    let mut writer = Writer { text: vec![0; 4] };
    let message = writer.message(1, 0);
    let mut from = writer.table(message + 8, &[10, 12, 0, 4, 0], &[0; 8]) + 4;
    for _ in 0..MAX_DEPTH {
        let first = writer.references(from, 2);
        let mut cells = [0; 20];
        cells[5] = 13;
        let table = writer.table(first, &[18, 24, 0, 8, 9, 0, 0, 16, 0], &cells);
        name_again(&mut writer.text, first, 2, table);
        from = table + 16;
    }
    writer.references(from, 0);
    writer.text
}

/// A schema whose vector of columns claims as many as a number of 32 bits can.
fn claimed() -> Vec<u8> {
    let mut writer = Writer { text: vec![0; 4] };
    let message = writer.message(1, 0);
    let table = writer.table(message + 8, &[10, 12, 0, 4, 0], &[0; 8]);
    let first = writer.references(table + 4, 1);
    writer.text[first - 4..first].fill(255);
    writer.text
}

fn generated(name: &str) -> Option<Vec<u8>> {
    let mut text = match name {
        "flat" => return Some(encoded(&flat())),
        "deep" => return Some(encoded(&deep())),
        "plain-text" => encoded(&full()),
        "tables-within-the-limits" => shared(MAX_FIELDS, 8, 256),
        "a-million-tables" => shared(1_000_000, 0, 0),
        "a-million-entries" => shared(1, 1_000_000, 0),
        "a-shared-megabyte" => shared(MAX_FIELDS, 4_096, MAX_TEXT_BYTES),
        "levels-that-double" => doubled(),
        "a-count-of-32-ones" => claimed(),
        _ => return None,
    };
    text.resize(HOSTILE_BYTES.max(text.len()), 0);
    Some(text)
}

// ---- the tasks of flight_bench

fn text_weight(text: &[u8]) -> u64 {
    text.len() as u64 + u64::from(*text.last().unwrap_or(&0))
}

fn decode_often(count: u64, text: &[u8]) -> Result<u64, Fault> {
    let mut sum = 0u64;
    for _ in 0..count {
        let weight = match &black_box(read(black_box(text))?) {
            Header::Schema(schema) => schema.fields.len(),
            Header::Batch(head) => head.nodes.len() + head.buffers.len(),
        };
        sum = sum.wrapping_add(weight as u64);
    }
    Ok(sum)
}

/// The header of a text, where it is one that is written. What is read of a schema is within its limits.
fn read_writable(text: &[u8]) -> Result<Header, Fault> {
    match read(text)? {
        Header::Batch(head)
            if head.compressed || head.nodes.len() > MAX_FIELDS || head.buffers.len() > MAX_BUFFERS =>
        {
            Err(Fault::Unwritable)
        }
        header => Ok(header),
    }
}

fn encode_often(count: u64, text: &[u8], out: &mut Vec<u8>) -> Result<u64, Fault> {
    let header = read_writable(text)?;
    let mut sum = 0u64;
    for _ in 0..count {
        out.clear();
        write(black_box(&header), out);
        sum = sum.wrapping_add(text_weight(black_box(out)));
    }
    Ok(sum)
}

/// Prints the header as it was written last, or its fault on standard error, with status 1.
fn reencode_often(count: u64, text: &[u8]) -> io::Result<()> {
    let mut out = Vec::new();
    if let Err(fault) = encode_often(count, text, &mut out) {
        eprintln!("{fault:?}");
        std::process::exit(1);
    }
    io::stdout().write_all(&out)
}

fn tally(count: u64, sum: Result<u64, Fault>) -> io::Result<()> {
    let sum = sum.map_err(|fault| io::Error::other(format!("{fault:?}")))?;
    println!("{count} {sum}");
    Ok(())
}

fn main() -> io::Result<()> {
    let words: Vec<String> = std::env::args().skip(1).collect();
    let wrong = || io::Error::from(io::ErrorKind::InvalidInput);
    if let [generate, name] = &words[..] {
        let text = generated(name).filter(|_| generate == "generate").ok_or_else(wrong)?;
        return io::stdout().write_all(&text);
    }
    let [task, count, file] = &words[..] else {
        return Err(wrong());
    };
    let count: u64 = count.parse().map_err(|_| wrong())?;
    let text = std::fs::read(file)?;
    match task.as_str() {
        "decode-header" => tally(count, decode_often(count, &text)),
        "encode-header" => tally(count, encode_often(count, &text, &mut Vec::new())),
        "reencode-header" => reencode_often(count, &text),
        _ => Err(wrong()),
    }
}
