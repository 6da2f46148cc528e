//! Batches of Arrow's columnar format in plain Rust, with nothing proved: what `flight_bench` is timed against.
//! `generate NAME` writes a schema, a batch's header and a body, each behind its length; `TASK COUNT FILE` does what
//! `flight_bench` does at these words.
use plain_headers::{BatchHead, Field, Header, Schema, Type};
use std::hint::black_box;
use std::io::{self, Write};
use std::ops::Range;

#[allow(dead_code)]
#[path = "plain_headers.rs"]
pub(crate) mod plain_headers;

const MAX_ROWS: i64 = 1_048_576;
const MAX_VALUES: i64 = 16_777_216;
const ROWS: usize = 1_000_000;
const HOSTILE_BYTES: usize = 4 << 20;

#[derive(Clone, Copy, Debug, PartialEq)]
pub(crate) enum Fault {
    Compressed,
    TooManyRows,
    NodeCount,
    BufferCount,
    BufferRange,
    NullCount,
    OffsetsFall,
    ChildShort,
    NotUtf8,
    Parts,
}

#[derive(Clone, Copy, PartialEq)]
enum Layout {
    Null,
    Bits,
    Bytes(usize),
    Binary,
    Utf8,
    List,
    FixedSizeList(usize),
    Struct,
}

impl Layout {
    fn of(ty: &Type) -> Layout {
        match ty {
            Type::Null => Layout::Null,
            Type::Int(width, _) | Type::Time(_, width) | Type::Decimal(_, _, width) => {
                Layout::Bytes(*width as usize / 8)
            }
            Type::FloatingPoint(precision) => Layout::Bytes(2 << precision),
            Type::Date(unit) => Layout::Bytes(if *unit == 0 { 4 } else { 8 }),
            Type::Timestamp(..) | Type::Duration(_) => Layout::Bytes(8),
            Type::FixedSizeBinary(size) => Layout::Bytes(*size as usize),
            Type::Binary => Layout::Binary,
            Type::Utf8 => Layout::Utf8,
            Type::Bool => Layout::Bits,
            Type::List => Layout::List,
            Type::FixedSizeList(size) => Layout::FixedSizeList(*size as usize),
            Type::Struct => Layout::Struct,
        }
    }

    fn buffers(self) -> usize {
        match self {
            Layout::Null => 0,
            Layout::FixedSizeList(_) | Layout::Struct => 1,
            Layout::Bits | Layout::Bytes(_) | Layout::List => 2,
            Layout::Binary | Layout::Utf8 => 3,
        }
    }
}

/// A column in its one form: no bitmap where nothing is null, offsets from 0, and blanks under nulls.
struct Column {
    layout: Layout,
    length: usize,
    nulls: usize,
    validity: Vec<u8>,
    second: Vec<u8>,
    third: Vec<u8>,
    inside: Vec<Column>,
}

pub(crate) struct Batch {
    pub(crate) rows: usize,
    columns: Vec<Column>,
}

// ---- bits

fn bit(bits: &[u8], index: usize) -> bool {
    bits[index / 8] >> (index % 8) & 1 == 1
}

fn count_ones(bits: &[u8], count: usize) -> usize {
    let (whole, rest) = (&bits[..count / 8], count % 8);
    let (words, bytes) = whole.as_chunks::<8>();
    let ones = |ones: u32| ones as usize;
    words.iter().map(|word| ones(u64::from_le_bytes(*word).count_ones())).sum::<usize>()
        + bytes.iter().map(|byte| ones(byte.count_ones())).sum::<usize>()
        + if rest > 0 { ones((bits[count / 8] & ((1 << rest) - 1)).count_ones()) } else { 0 }
}

#[derive(Default)]
struct Bits {
    bytes: Vec<u8>,
    length: usize,
}

impl Bits {
    fn with_capacity(count: usize) -> Bits {
        Bits { bytes: Vec::with_capacity(count.div_ceil(8)), length: 0 }
    }

    fn push(&mut self, bit: bool) {
        if self.length % 8 == 0 {
            self.bytes.push(0);
        }
        self.bytes[self.length / 8] |= u8::from(bit) << (self.length % 8);
        self.length += 1;
    }

    fn extend(&mut self, bits: &[u8], range: Range<usize>) {
        if self.length % 8 == 0 && range.start % 8 == 0 {
            self.bytes.extend_from_slice(&bits[range.start / 8..range.end.div_ceil(8)]);
            self.length += range.len();
            if self.length % 8 != 0 {
                *self.bytes.last_mut().unwrap() &= (1 << (self.length % 8)) - 1;
            }
        } else {
            range.for_each(|index| self.push(bit(bits, index)));
        }
    }

    fn nulls(&self) -> usize {
        self.length - count_ones(&self.bytes, self.length)
    }
}

// ---- reading

/// The places of a column that are wanted, as runs; where there is a bitmap, only those whose bit is set, and blanks
/// for the others.
struct Wanted {
    runs: Vec<Range<usize>>,
    count: usize,
    there: Option<Bits>,
}

impl Wanted {
    fn first(count: usize) -> Wanted {
        Wanted { runs: Vec::from([0..count]), count, there: None }
    }

    fn places(&self) -> impl Iterator<Item = usize> + '_ {
        self.runs.iter().cloned().flatten()
    }

    fn spots<'a>(&'a self, taken: &'a Option<Bits>) -> impl Iterator<Item = (usize, bool)> + 'a {
        let is_taken = |number| taken.as_ref().is_none_or(|bits| bit(&bits.bytes, number));
        self.places().enumerate().map(move |(number, place)| (place, is_taken(number)))
    }
}

/// Which of the wanted cells are null, and which have values.
struct Marks {
    validity: Vec<u8>,
    nulls: usize,
    taken: Option<Bits>,
}

fn same(bits: &Option<Bits>) -> Option<Bits> {
    bits.as_ref().map(|bits| Bits { bytes: bits.bytes.clone(), length: bits.length })
}

fn marks(validity: &[u8], nulls: i64, wanted: &Wanted) -> Marks {
    if validity.is_empty() || nulls == 0 {
        return Marks { validity: Vec::new(), nulls: 0, taken: same(&wanted.there) };
    }
    let (mut shown, mut taken) = (Bits::with_capacity(wanted.count), None);
    match &wanted.there {
        None => wanted.runs.iter().for_each(|run| shown.extend(validity, run.clone())),
        Some(_) => {
            let mut both = Bits::with_capacity(wanted.count);
            for (place, there) in wanted.spots(&wanted.there) {
                let valid = bit(validity, place);
                shown.push(!there || valid);
                both.push(there && valid);
            }
            taken = Some(both);
        }
    }
    let nulls = shown.nulls();
    if nulls == 0 {
        return Marks { validity: Vec::new(), nulls, taken: same(&wanted.there) };
    }
    let validity = shown.bytes.clone();
    Marks { validity, nulls, taken: taken.or(Some(shown)) }
}

fn bits_taken(bits: &[u8], wanted: &Wanted, taken: &Option<Bits>) -> Vec<u8> {
    let mut made = Bits::with_capacity(wanted.count);
    match taken {
        None => wanted.runs.iter().for_each(|run| made.extend(bits, run.clone())),
        Some(_) => wanted.spots(taken).for_each(|(place, taken)| made.push(taken && bit(bits, place))),
    }
    made.bytes
}

fn blocks_taken(size: usize, blocks: &[u8], wanted: &Wanted, taken: &Option<Bits>) -> Vec<u8> {
    if taken.is_none() {
        let mut made = Vec::with_capacity(size * wanted.count);
        for run in &wanted.runs {
            made.extend_from_slice(&blocks[size * run.start..size * run.end]);
        }
        return made;
    }
    let mut made = vec![0; size * wanted.count];
    if size > 0 {
        for (block, (place, taken)) in made.chunks_exact_mut(size).zip(wanted.spots(taken)) {
            if taken {
                block.copy_from_slice(&blocks[size * place..size * (place + 1)]);
            }
        }
    }
    made
}

fn offset(offsets: &[u8], index: usize) -> i32 {
    i32::from_le_bytes(*offsets[4 * index..].first_chunk().unwrap())
}

fn span(offsets: &[u8], index: usize) -> Range<usize> {
    offset(offsets, index) as usize..offset(offsets, index + 1) as usize
}

/// The offsets of a run, moved so that they begin at 0.
fn moved(offsets: &[u8], run: &Range<usize>) -> Vec<u8> {
    if run.is_empty() {
        return vec![0; 4];
    }
    let (first, offsets) = (offset(offsets, run.start), &offsets[4 * run.start..4 * run.end + 4]);
    if first == 0 {
        return offsets.to_vec();
    }
    let mut made = Vec::with_capacity(offsets.len());
    for offset in offsets.as_chunks().0 {
        made.extend_from_slice(&(i32::from_le_bytes(*offset) - first).to_le_bytes());
    }
    made
}

fn is_text(layout: Layout, bytes: &[u8]) -> bool {
    layout != Layout::Utf8 || std::str::from_utf8(bytes).is_ok()
}

type Spans = (Vec<u8>, Vec<u8>);

fn spans_taken(
    layout: Layout,
    offsets: &[u8],
    bytes: &[u8],
    wanted: &Wanted,
    taken: &Option<Bits>,
) -> Result<Spans, Fault> {
    if let ([run], None) = (&wanted.runs[..], taken) {
        let mut texts = run.clone().map(|place| &bytes[span(offsets, place)]);
        if !texts.all(|text| is_text(layout, text)) {
            return Err(Fault::NotUtf8);
        }
        let whole = if run.is_empty() {
            0..0
        } else {
            offset(offsets, run.start) as usize..offset(offsets, run.end) as usize
        };
        return Ok((moved(offsets, run), bytes[whole].to_vec()));
    }
    let (mut ends, mut made) = (Vec::with_capacity(4 * wanted.count + 4), Vec::new());
    ends.extend_from_slice(&[0; 4]);
    for (place, taken) in wanted.spots(taken) {
        if taken {
            let more = &bytes[span(offsets, place)];
            if !is_text(layout, more) {
                return Err(Fault::NotUtf8);
            }
            made.extend_from_slice(more);
        }
        ends.extend_from_slice(&(made.len() as u32).to_le_bytes());
    }
    Ok((ends, made))
}

fn lists_taken(offsets: &[u8], wanted: &Wanted, taken: &Option<Bits>) -> (Vec<u8>, Wanted) {
    if let ([run], None) = (&wanted.runs[..], taken) {
        if !run.is_empty() {
            let inside = offset(offsets, run.start) as usize..offset(offsets, run.end) as usize;
            let count = inside.len();
            let wanted = Wanted { runs: Vec::from([inside]), count, there: None };
            return (moved(offsets, run), wanted);
        }
    }
    let mut ends = Vec::with_capacity(4 * wanted.count + 4);
    let (mut runs, mut count): (Vec<Range<usize>>, usize) = (Vec::new(), 0);
    ends.extend_from_slice(&[0; 4]);
    for (place, taken) in wanted.spots(taken) {
        if taken {
            let more = span(offsets, place);
            count += more.len();
            match runs.last_mut() {
                Some(last) if last.end == more.start => last.end = more.end,
                _ => runs.push(more),
            }
        }
        ends.extend_from_slice(&(count as u32).to_le_bytes());
    }
    (ends, Wanted { runs, count, there: None })
}

fn repeated(size: usize, wanted: &Wanted, taken: Option<Bits>) -> Wanted {
    let count = size * wanted.count;
    let there = taken.map(|bits| {
        let mut made = Bits::with_capacity(count);
        for index in 0..bits.length {
            (0..size).for_each(|_| made.push(bit(&bits.bytes, index)));
        }
        made
    });
    let runs = wanted.runs.iter().map(|run| size * run.start..size * run.end).collect();
    Wanted { runs, count, there }
}

struct Reader<'a> {
    nodes: &'a [(i64, i64)],
    buffers: &'a [(i64, i64)],
    body: &'a [u8],
}

impl<'a> Reader<'a> {
    fn buffer(&mut self) -> Result<&'a [u8], Fault> {
        let (&(start, count), rest) = self.buffers.split_first().ok_or(Fault::BufferCount)?;
        self.buffers = rest;
        let start = usize::try_from(start).map_err(|_| Fault::BufferRange)?;
        let count = usize::try_from(count).map_err(|_| Fault::BufferRange)?;
        let bytes = self.body.get(start..).and_then(|bytes| bytes.get(..count));
        bytes.ok_or(Fault::BufferRange)
    }

    fn column(&mut self, field: &Field, asked: usize, wanted: &Wanted) -> Result<Column, Fault> {
        let (&(length, nulls), rest) = self.nodes.split_first().ok_or(Fault::NodeCount)?;
        self.nodes = rest;
        let (layout, length) = (Layout::of(&field.ty), length as usize);
        let mut buffers = [&[][..]; 3];
        for buffer in &mut buffers[..layout.buffers()] {
            *buffer = self.buffer()?;
        }
        let [validity, second, third] = buffers;
        let target = match layout {
            Layout::List => self.nodes[0].0 as usize,
            _ => third.len(),
        };
        check(layout, length, nulls, buffers, target, asked)?;
        let Marks { validity, nulls, taken } = match layout {
            Layout::Null => Marks { validity: Vec::new(), nulls: wanted.count, taken: None },
            _ => marks(validity, nulls, wanted),
        };
        let mut column = Column {
            layout,
            length: wanted.count,
            nulls,
            validity,
            second: Vec::new(),
            third: Vec::new(),
            inside: Vec::new(),
        };
        match layout {
            Layout::Null => {}
            Layout::Bits => column.second = bits_taken(second, wanted, &taken),
            Layout::Bytes(size) => column.second = blocks_taken(size, second, wanted, &taken),
            Layout::Binary | Layout::Utf8 => {
                (column.second, column.third) = spans_taken(layout, second, third, wanted, &taken)?;
            }
            Layout::List => {
                let (ends, inside) = lists_taken(second, wanted, &taken);
                column.second = ends;
                column.inside = self.columns(&field.children, 0, &inside)?;
            }
            Layout::FixedSizeList(size) => {
                let inside = repeated(size, wanted, taken);
                column.inside = self.columns(&field.children, size * length, &inside)?;
            }
            Layout::Struct => {
                let inside = Wanted { runs: wanted.runs.clone(), count: wanted.count, there: taken };
                column.inside = self.columns(&field.children, length, &inside)?;
            }
        }
        Ok(column)
    }

    fn columns(&mut self, fields: &[Field], asked: usize, wanted: &Wanted) -> Result<Vec<Column>, Fault> {
        fields.iter().map(|field| self.column(field, asked, wanted)).collect()
    }
}

/// Whether a column keeps its own rules, its texts aside.
fn check(
    layout: Layout,
    length: usize,
    nulls: i64,
    [validity, second, _]: [&[u8]; 3],
    target: usize,
    asked: usize,
) -> Result<(), Fault> {
    let needed = match layout {
        Layout::Null | Layout::FixedSizeList(_) | Layout::Struct => 0,
        Layout::Bits => length.div_ceil(8),
        Layout::Bytes(size) => size * length,
        Layout::Binary | Layout::Utf8 | Layout::List if length == 0 && second.is_empty() => 0,
        Layout::Binary | Layout::Utf8 | Layout::List => 4 * (length + 1),
    };
    let has_bitmap = nulls == 0 && validity.is_empty() || length.div_ceil(8) <= validity.len();
    if second.len() < needed || layout != Layout::Null && !has_bitmap {
        return Err(Fault::BufferRange);
    }
    let counted = if validity.is_empty() { 0 } else { length - count_ones(validity, length) };
    if layout != Layout::Null && i64::try_from(counted) != Ok(nulls) {
        return Err(Fault::NullCount);
    }
    let has_offsets = matches!(layout, Layout::Binary | Layout::Utf8 | Layout::List);
    if has_offsets && !second.is_empty() && !do_rise(second, length, target) {
        return Err(Fault::OffsetsFall);
    }
    if length < asked {
        return Err(Fault::ChildShort);
    }
    Ok(())
}

fn do_rise(offsets: &[u8], count: usize, limit: usize) -> bool {
    let (offsets, _) = offsets[..4 * count + 4].as_chunks::<4>();
    let mut before = 0;
    for offset in offsets {
        let offset = i32::from_le_bytes(*offset);
        if offset < before {
            return false;
        }
        before = offset;
    }
    before as usize <= limit
}

fn counts(fields: &[Field]) -> (usize, usize) {
    fields.iter().fold((0, 0), |(nodes, buffers), field| {
        let inside = counts(&field.children);
        (nodes + 1 + inside.0, buffers + Layout::of(&field.ty).buffers() + inside.1)
    })
}

pub(crate) fn read_batch(schema: &Schema, head: &BatchHead, body: &[u8]) -> Result<Batch, Fault> {
    if head.compressed {
        return Err(Fault::Compressed);
    }
    let may_have = |node: &(i64, i64)| (0..=MAX_VALUES).contains(&node.0);
    if !(0..=MAX_ROWS).contains(&head.length) || !head.nodes.iter().all(may_have) {
        return Err(Fault::TooManyRows);
    }
    let (nodes, buffers) = counts(&schema.fields);
    if head.nodes.len() != nodes {
        return Err(Fault::NodeCount);
    }
    if head.buffers.len() != buffers {
        return Err(Fault::BufferCount);
    }
    let body_length = usize::try_from(head.body_length).map_err(|_| Fault::BufferRange)?;
    let body = body.get(..body_length).ok_or(Fault::BufferRange)?;
    let rows = head.length as usize;
    let mut reader = Reader { nodes: &head.nodes, buffers: &head.buffers, body };
    let columns = reader.columns(&schema.fields, rows, &Wanted::first(rows))?;
    Ok(Batch { rows, columns })
}

// ---- writing

fn body_length(columns: &[Column]) -> usize {
    let padded = |bytes: &[u8]| bytes.len().next_multiple_of(8);
    let own = |column: &Column| {
        padded(&column.validity) + padded(&column.second) + padded(&column.third)
    };
    columns.iter().map(|column| own(column) + body_length(&column.inside)).sum()
}

fn write_columns(head: &mut BatchHead, body: &mut Vec<u8>, columns: &[Column]) {
    for column in columns {
        head.nodes.push((column.length as i64, column.nulls as i64));
        let buffers = [&column.validity, &column.second, &column.third];
        for buffer in &buffers[..column.layout.buffers()] {
            head.buffers.push((body.len() as i64, buffer.len() as i64));
            body.extend_from_slice(buffer);
            body.resize(body.len().next_multiple_of(8), 0);
        }
        write_columns(head, body, &column.inside);
    }
}

pub(crate) fn write_body(batch: &Batch) -> (BatchHead, Vec<u8>) {
    let mut body = Vec::with_capacity(body_length(&batch.columns));
    let mut head = BatchHead {
        length: batch.rows as i64,
        nodes: Vec::new(),
        buffers: Vec::new(),
        compressed: false,
        body_length: 0,
    };
    write_columns(&mut head, &mut body, &batch.columns);
    head.body_length = body.len() as i64;
    (head, body)
}

// ---- batches to be read

/// The columns of a file, laid into a body one by one.
pub(crate) struct Laid {
    fields: Vec<Field>,
    head: BatchHead,
    body: Vec<u8>,
}

fn field(ty: Type, children: Vec<Field>) -> Field {
    Field { name: "f".to_owned(), nullable: true, ty, children, metadata: Vec::new() }
}

fn number(width: i32) -> Field {
    field(Type::Int(width, true), Vec::new())
}

/// The bits of so many cells, where each tenth is null.
fn tenths(count: usize, phase: usize) -> (Vec<u8>, i64) {
    let mut bits = Bits::default();
    (0..count).for_each(|place| bits.push(place % 10 != phase % 10));
    let nulls = bits.nulls() as i64;
    (bits.bytes, nulls)
}

fn noise(count: usize) -> Vec<u8> {
    (0..count).map(|place| (place % 251) as u8).collect()
}

/// Offsets of so many values that have so many bytes or elements each.
fn steps(count: usize, size: usize) -> Vec<u8> {
    (0..=count).flat_map(|place| ((size * place) as u32).to_le_bytes()).collect()
}

impl Laid {
    fn of(rows: usize, fields: Vec<Field>) -> Laid {
        let head = BatchHead {
            length: rows as i64,
            nodes: Vec::new(),
            buffers: Vec::new(),
            compressed: false,
            body_length: 0,
        };
        Laid { fields, head, body: Vec::new() }
    }

    fn column(mut self, length: usize, nulls: i64, buffers: &[&[u8]]) -> Laid {
        self.head.nodes.push((length as i64, nulls));
        for bytes in buffers {
            self.head.buffers.push((self.body.len() as i64, bytes.len() as i64));
            self.body.extend_from_slice(bytes);
            self.body.resize(self.body.len().next_multiple_of(8), 0);
        }
        self.head.body_length = self.body.len() as i64;
        self
    }

    fn encoded(self) -> Vec<u8> {
        let schema = Header::Schema(Schema { fields: self.fields, metadata: Vec::new() });
        let parts = [
            plain_headers::encoded(&schema),
            plain_headers::encoded(&Header::Batch(self.head)),
            self.body,
        ];
        let with_length = |part: &Vec<u8>| [&(part.len() as u32).to_le_bytes(), &part[..]].concat();
        parts.iter().flat_map(with_length).collect()
    }
}

fn numbers(rows: usize, with_nulls: bool) -> Laid {
    let (validity, nulls) = if with_nulls { tenths(rows, 3) } else { (Vec::new(), 0) };
    let laid = Laid::of(rows, Vec::from([number(64)]));
    laid.column(rows, nulls, &[&validity, &noise(8 * rows)])
}

/// Texts of eight bytes: digits, and every hundredth four letters of two bytes.
fn texts(rows: usize, with_nulls: bool) -> Laid {
    let (validity, nulls) = if with_nulls { tenths(rows, 3) } else { (Vec::new(), 0) };
    let text = |place: usize| match place % 100 {
        50 => "äöüß".as_bytes().to_vec(),
        _ => format!("{place:08}").into_bytes(),
    };
    let bytes: Vec<u8> = (0..rows).flat_map(text).collect();
    let laid = Laid::of(rows, Vec::from([field(Type::Utf8, Vec::new())]));
    laid.column(rows, nulls, &[&validity, &steps(rows, 8), &bytes])
}

fn bools(rows: usize) -> Laid {
    let (validity, nulls) = tenths(rows, 3);
    let laid = Laid::of(rows, Vec::from([field(Type::Bool, Vec::new())]));
    laid.column(rows, nulls, &[&validity, &noise(rows.div_ceil(8))])
}

fn lists(rows: usize) -> Laid {
    let laid = Laid::of(rows, Vec::from([field(Type::List, Vec::from([number(32)]))]));
    let laid = laid.column(rows, 0, &[&[], &steps(rows, 3)]);
    laid.column(3 * rows, 0, &[&[], &noise(12 * rows)])
}

fn structs(rows: usize) -> Laid {
    let inside = (0..4).map(|_| number(64)).collect();
    let (validity, nulls) = tenths(rows, 3);
    let laid = Laid::of(rows, Vec::from([field(Type::Struct, inside)]));
    let laid = laid.column(rows, nulls, &[&validity]);
    (0..4).fold(laid, |laid, _| laid.column(rows, 0, &[&[], &noise(8 * rows)]))
}

fn wide() -> Laid {
    let laid = Laid::of(100, (0..512).map(|_| number(32)).collect());
    (0..512).fold(laid, |laid, _| laid.column(100, 0, &[&[], &noise(400)]))
}

/// A field inside so many others, one inside the other, of this type.
fn nested(levels: usize, ty: fn() -> Type, leaf: Field) -> Field {
    (0..levels).fold(leaf, |inside, _| field(ty(), Vec::from([inside])))
}

/// Lists in lists down to level 16, of one element each, and nulls at each level.
fn deep_lists() -> Laid {
    let rows = HOSTILE_BYTES / 70;
    let laid = Laid::of(rows, Vec::from([nested(15, || Type::List, number(64))]));
    let level = |laid: Laid, level: usize| {
        let (validity, nulls) = tenths(rows, level);
        laid.column(rows, nulls, &[&validity, &steps(rows, 1)])
    };
    let laid = (0..15).fold(laid, level);
    laid.column(rows, 0, &[&[], &noise(8 * rows)])
}

/// Structs in structs down to level 16, and nulls at each level.
fn deep_structs() -> Laid {
    let rows = HOSTILE_BYTES / 10;
    let laid = Laid::of(rows, Vec::from([nested(15, || Type::Struct, number(64))]));
    let level = |laid: Laid, level: usize| {
        let (validity, nulls) = tenths(rows, level);
        laid.column(rows, nulls, &[&validity])
    };
    let laid = (0..15).fold(laid, level);
    laid.column(rows, 0, &[&[], &noise(8 * rows)])
}

/// Numbers and bits with bitmaps, and every bit set.
fn ones() -> Laid {
    let rows = HOSTILE_BYTES * 8 / 67;
    let bits = vec![255; rows.div_ceil(8)];
    let laid = Laid::of(rows, Vec::from([number(64), field(Type::Bool, Vec::new())]));
    let laid = laid.column(rows, 0, &[&bits, &vec![255; 8 * rows]]);
    laid.column(rows, 0, &[&bits, &bits])
}

/// Texts whose last offset alone falls.
fn falling() -> Laid {
    let rows = HOSTILE_BYTES / 5;
    let mut offsets = steps(rows, 1);
    offsets[4 * rows..].fill(0);
    let laid = Laid::of(rows, Vec::from([field(Type::Utf8, Vec::new())]));
    laid.column(rows, 0, &[&[], &offsets, &vec![b'a'; rows]])
}

/// One text that is not UTF-8 at its end.
fn long_text() -> Laid {
    let mut bytes = vec![b'a'; HOSTILE_BYTES];
    bytes[HOSTILE_BYTES - 1] = 255;
    let laid = Laid::of(1, Vec::from([field(Type::Utf8, Vec::new())]));
    laid.column(1, 0, &[&[], &steps(1, HOSTILE_BYTES), &bytes])
}

/// Texts that are not UTF-8, in lists in a list that is null, so that none belongs to the batch.
fn hidden_texts() -> Laid {
    let rows = HOSTILE_BYTES / 63;
    let leaf = field(Type::Utf8, Vec::new());
    let laid = Laid::of(rows, Vec::from([nested(14, || Type::List, leaf)]));
    let laid = laid.column(rows, rows as i64, &[&vec![0; rows.div_ceil(8)], &steps(rows, 1)]);
    let laid = (1..14).fold(laid, |laid, _| laid.column(rows, 0, &[&[], &steps(rows, 1)]));
    laid.column(rows, 0, &[&[], &steps(rows, 1), &vec![255; rows]])
}

fn generated(name: &str) -> Option<Laid> {
    Some(match name {
        "int64" => numbers(ROWS, false),
        "int64-nulls" => numbers(ROWS, true),
        "utf8" => texts(ROWS, false),
        "utf8-nulls" => texts(ROWS, true),
        "bool-nulls" => bools(ROWS),
        "list" => lists(ROWS),
        "struct-nulls" => structs(ROWS),
        "wide" => wide(),
        "plain-numbers" => numbers(HOSTILE_BYTES * 8 / 65, true),
        "plain-texts" => texts(HOSTILE_BYTES * 8 / 97, true),
        "deep-lists" => deep_lists(),
        "deep-structs" => deep_structs(),
        "all-ones" => ones(),
        "offsets-that-fall-at-the-end" => falling(),
        "a-text-that-ends-badly" => long_text(),
        "hidden-texts" => hidden_texts(),
        _ => return None,
    })
}

// ---- the tasks of flight_bench

fn part<'a>(bytes: &mut &'a [u8]) -> Result<&'a [u8], Fault> {
    let (count, rest) = bytes.split_first_chunk().ok_or(Fault::Parts)?;
    let count = u32::from_le_bytes(*count) as usize;
    let (part, rest) = rest.split_at_checked(count).ok_or(Fault::Parts)?;
    *bytes = rest;
    Ok(part)
}

fn parts(mut bytes: &[u8]) -> Result<(Schema, BatchHead, &[u8]), Fault> {
    let (schema, head) = (part(&mut bytes)?, part(&mut bytes)?);
    let body = part(&mut bytes)?;
    match (plain_headers::read(schema), plain_headers::read(head)) {
        (Ok(Header::Schema(schema)), Ok(Header::Batch(head))) => Ok((schema, head, body)),
        _ => Err(Fault::Parts),
    }
}

pub(crate) fn bytes_weight(bytes: &[u8]) -> u64 {
    bytes.len() as u64 + u64::from(*bytes.last().unwrap_or(&0))
}

fn columns_weight(columns: &[Column]) -> u64 {
    let own = |column: &Column| {
        let buffers = [&column.validity, &column.second, &column.third];
        let bytes: u64 = buffers.map(|buffer| bytes_weight(buffer)).iter().sum();
        column.length as u64 + column.nulls as u64 + bytes
    };
    columns.iter().map(|column| own(column) + columns_weight(&column.inside)).sum()
}

fn pairs_weight(pairs: &[(i64, i64)]) -> u64 {
    pairs.iter().fold(0, |sum, pair| sum.wrapping_mul(31).wrapping_add((pair.0 ^ pair.1 << 32) as u64))
}

fn read_often(count: u64, bytes: &[u8]) -> Result<u64, Fault> {
    let (schema, head, body) = parts(bytes)?;
    let mut sum = 0u64;
    for _ in 0..count {
        let batch = black_box(read_batch(&schema, &head, black_box(body))?);
        sum = sum.wrapping_add(batch.rows as u64 + columns_weight(&batch.columns));
    }
    Ok(sum)
}

fn write_often(count: u64, bytes: &[u8]) -> Result<u64, Fault> {
    let (schema, head, body) = parts(bytes)?;
    let batch = read_batch(&schema, &head, body)?;
    let mut sum = 0u64;
    for _ in 0..count {
        let (head, body) = black_box(write_body(black_box(&batch)));
        sum = sum.wrapping_add(pairs_weight(&head.nodes));
        sum = sum.wrapping_add(pairs_weight(&head.buffers));
        sum = sum.wrapping_add(bytes_weight(&body));
    }
    Ok(sum)
}

/// Adds what every byte that is written says.
fn rewrite_often(count: u64, bytes: &[u8]) -> Result<u64, Fault> {
    let (schema, head, body) = parts(bytes)?;
    let mut sum = 0u64;
    for _ in 0..count {
        let (head, body) = write_body(&read_batch(&schema, &head, body)?);
        sum = sum.wrapping_add(pairs_weight(&head.nodes));
        sum = sum.wrapping_add(pairs_weight(&head.buffers));
        let fold = |sum: u64, byte: &u8| sum.wrapping_mul(31).wrapping_add(u64::from(*byte));
        sum = sum.wrapping_add(body.iter().fold(0, fold));
    }
    Ok(sum)
}

fn copy_often(count: u64, bytes: &[u8]) -> Result<u64, Fault> {
    let (_, _, body) = parts(bytes)?;
    let copied = (0..count).map(|_| bytes_weight(&black_box(black_box(body).to_vec())));
    Ok(copied.fold(0, u64::wrapping_add))
}

fn tally(count: u64, sum: Result<u64, Fault>) -> io::Result<()> {
    let sum = sum.map_err(|fault| io::Error::other(format!("{fault:?}")))?;
    println!("{count} {sum}");
    Ok(())
}

fn main() -> io::Result<()> {
    let words: Vec<String> = std::env::args().skip(1).collect();
    let wrong = || io::Error::from(io::ErrorKind::InvalidInput);
    if let [generate, name] = &words[..] {
        let laid = generated(name).filter(|_| generate == "generate").ok_or_else(wrong)?;
        return io::stdout().write_all(&laid.encoded());
    }
    let [task, count, file] = &words[..] else {
        return Err(wrong());
    };
    let count: u64 = count.parse().map_err(|_| wrong())?;
    let bytes = std::fs::read(file)?;
    match task.as_str() {
        "read-batch" => tally(count, read_often(count, &bytes)),
        "write-batch" => tally(count, write_often(count, &bytes)),
        "rewrite-batch" => tally(count, rewrite_often(count, &bytes)),
        "copy" => tally(count, copy_often(count, &bytes)),
        _ => Err(wrong()),
    }
}
