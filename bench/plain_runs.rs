//! Whole Paxos nodes in plain Rust, over the maps of std, with nothing proved: what `flight_bench` is timed against. A
//! run is a list of events, each of which happens to one node, with what it gives, and all messages that were sent.
//! `generate MEMBERS UPLOADS BATCHES ROWS` writes a file of a run: how many members there are, a slot for each upload,
//! and the uploads, each behind its length, of one column of Int8 to one table. `run-events COUNT FILE` and `seat-events
//! COUNT FILE` do what `flight_bench` does at these words, the second without asking whether a node agrees with the journal. `play FILE` plays events that are told a line each, and prints the lines that
//! tools/runs_model.py prints.
use plain_tables::plain_batches::bytes_weight;
use plain_tables::{checked, generated, take_bytes, values, Outcome, Tables};
use std::collections::HashMap;
use std::fmt;
use std::hint::black_box;
use std::io::{self, Write};
use std::ops::Range;
use std::sync::Arc;

#[allow(dead_code)]
#[path = "plain_tables.rs"]
mod plain_tables;

const MAX_ROUND: u32 = 4_000_000_000;
const MAX_SLOTS: Slot = 1_000_000;
const MOST_LEFT: u8 = 7;
const MAX_ASKED: usize = 16;

pub(crate) type Slot = u32;

#[derive(Clone, Copy, PartialEq, Eq, PartialOrd, Ord, Hash)]
pub(crate) struct Ballot {
    pub(crate) round: u32,
    pub(crate) node: u8,
}

/// An upload's encoding, which was checked.
#[derive(Clone, PartialEq)]
pub(crate) struct Upload {
    pub(crate) text: Arc<[u8]>,
}

impl Upload {
    fn decode(text: Arc<[u8]>) -> Option<Upload> {
        checked(&text)?;
        Some(Upload { text })
    }

    pub(crate) fn id(&self) -> [u8; 16] {
        let mut text = &self.text[..];
        take_bytes(&mut text, 1);
        take_bytes(&mut text, 2).and_then(|id| id.try_into().ok()).expect("an upload has a name")
    }
}

// ---- messages and records

#[derive(Clone)]
pub(crate) enum Value {
    Noop,
    Upload(Arc<[u8]>),
}

#[derive(Clone)]
pub(crate) struct Acceptance {
    pub(crate) ballot: Ballot,
    pub(crate) value: Value,
}

#[derive(Clone)]
pub(crate) enum Body {
    Prepare(Ballot),
    Promise(Ballot, Option<Acceptance>),
    Nack { ballot: Ballot, promised: Ballot },
    Accept(Acceptance),
    Accepted(Acceptance),
    Ask,
    Decided(Value),
}

#[derive(Clone)]
pub(crate) struct Message {
    pub(crate) sender: u8,
    pub(crate) slot: Slot,
    pub(crate) body: Body,
}

pub(crate) enum Record {
    Began(Ballot),
    Promised(Slot, Ballot),
    Accepted(Slot, Acceptance),
}

impl Body {
    fn ballots(&self) -> [Option<Ballot>; 2] {
        match self {
            Body::Prepare(ballot) => [Some(*ballot), None],
            Body::Promise(ballot, report) => [Some(*ballot), report.as_ref().map(|it| it.ballot)],
            Body::Nack { ballot, promised } => [Some(*ballot), Some(*promised)],
            Body::Accept(it) | Body::Accepted(it) => [Some(it.ballot), None],
            Body::Ask | Body::Decided(_) => [None, None],
        }
    }
}

/// A set of members, a bit for each.
#[derive(Clone, Copy, Default)]
pub(crate) struct NodeSet(u8);

impl NodeSet {
    pub(crate) fn with(self, node: u8) -> NodeSet {
        NodeSet(self.0 | 1 << node)
    }

    fn contains(self, node: u8) -> bool {
        self.0 & 1 << node != 0
    }

    pub(crate) fn is_majority_of(self, members: u8) -> bool {
        2 * self.0.count_ones() > u32::from(members)
    }
}

// ---- the acceptor

#[derive(Default)]
struct Acceptor {
    slots: HashMap<Slot, (Ballot, Option<Acceptance>)>,
}

impl Acceptor {
    /// Promises the ballot, and tells what the slot has accepted; or tells what it has promised.
    fn on_prepare(&mut self, slot: Slot, ballot: Ballot) -> Result<Option<Acceptance>, Ballot> {
        match self.slots.get_mut(&slot) {
            Some((promised, _)) if *promised >= ballot => Err(*promised),
            Some((promised, accepted)) => {
                *promised = ballot;
                Ok(accepted.clone())
            }
            None => {
                self.slots.insert(slot, (ballot, None));
                Ok(None)
            }
        }
    }

    /// Accepts the proposal, or tells what the slot has promised.
    fn on_accept(&mut self, slot: Slot, proposal: Acceptance) -> Result<(), Ballot> {
        let (promised, accepted) = self.slots.entry(slot).or_insert((proposal.ballot, None));
        if proposal.ballot < *promised {
            return Err(*promised);
        }
        *promised = proposal.ballot;
        *accepted = Some(proposal);
        Ok(())
    }

    /// Takes a record as the last of those that were kept.
    fn apply(&mut self, record: &Record) {
        match record {
            Record::Began(_) => {}
            Record::Promised(slot, ballot) => {
                let (promised, _) = self.slots.entry(*slot).or_insert((*ballot, None));
                *promised = (*promised).max(*ballot);
            }
            Record::Accepted(slot, acceptance) => {
                let (promised, accepted) = self.slots.entry(*slot).or_insert((acceptance.ballot, None));
                *promised = (*promised).max(acceptance.ballot);
                if accepted.as_ref().is_none_or(|held| held.ballot <= acceptance.ballot) {
                    *accepted = Some(acceptance.clone());
                }
            }
        }
    }
}

// ---- the proposer

struct Attempt {
    slot: Slot,
    ballot: Ballot,
    counted: NodeSet,
    /// What would be proposed now, and the ballot at which it was reported. It is gone with the majority.
    choice: Option<(Option<Ballot>, Value)>,
}

#[derive(Default)]
struct Proposer {
    highest_round: u32,
    attempt: Option<Attempt>,
}

impl Proposer {
    fn begin(&mut self, slot: Slot, ballot: Ballot, value: Value) {
        self.highest_round = ballot.round;
        let choice = Some((None, value));
        self.attempt = Some(Attempt { slot, ballot, counted: NodeSet::default(), choice });
    }

    fn attempt_at(&mut self, slot: Slot, ballot: Ballot) -> Option<&mut Attempt> {
        self.attempt.as_mut().filter(|attempt| attempt.slot == slot && attempt.ballot == ballot)
    }

    /// The value to propose, where the promise makes the majority.
    fn on_promise(
        &mut self,
        members: u8,
        sender: u8,
        slot: Slot,
        ballot: Ballot,
        report: Option<Acceptance>,
    ) -> Option<Value> {
        let attempt = self.attempt_at(slot, ballot).filter(|attempt| !attempt.counted.contains(sender))?;
        attempt.counted = attempt.counted.with(sender);
        let choice = attempt.choice.as_mut()?;
        if let Some(report) = report.filter(|report| choice.0.is_none_or(|highest| highest < report.ballot)) {
            *choice = (Some(report.ballot), report.value);
        }
        let has_majority = attempt.counted.is_majority_of(members);
        attempt.choice.take_if(|_| has_majority).map(|(_, value)| value)
    }

    fn on_nack(&mut self, slot: Slot, ballot: Ballot) {
        if self.attempt_at(slot, ballot).is_some() {
            self.attempt = None;
        }
    }
}

// ---- the learner

struct Tally {
    voted: NodeSet,
    value: Value,
}

#[derive(Default)]
struct Learner {
    learned: HashMap<Slot, Value>,
    tallies: HashMap<Slot, HashMap<Ballot, Tally>>,
}

impl Learner {
    /// The value that the slot learns, if it does.
    fn on_accepted(&mut self, members: u8, sender: u8, slot: Slot, acceptance: Acceptance) -> Option<Value> {
        if self.learned.contains_key(&slot) {
            return None;
        }
        let tallies = self.tallies.entry(slot).or_default();
        let first = || Tally { voted: NodeSet::default(), value: acceptance.value };
        let tally = tallies.entry(acceptance.ballot).or_insert_with(first);
        tally.voted = tally.voted.with(sender);
        if !tally.voted.is_majority_of(members) {
            return None;
        }
        let value = tallies.remove(&acceptance.ballot)?.value;
        self.learn(slot, value)
    }

    fn on_decided(&mut self, slot: Slot, value: Value) -> Option<Value> {
        if self.learned.contains_key(&slot) {
            return None;
        }
        self.learn(slot, value)
    }

    fn learn(&mut self, slot: Slot, value: Value) -> Option<Value> {
        self.tallies.remove(&slot);
        self.learned.insert(slot, value.clone());
        Some(value)
    }
}

// ---- the log

#[derive(Default)]
struct DecidedLog {
    prefix: Vec<Value>,
    later: HashMap<Slot, Value>,
}

impl DecidedLog {
    /// The places by which the prefix grows.
    fn insert(&mut self, slot: Slot, value: Value) -> Range<usize> {
        let start = self.prefix.len();
        if slot as usize > start {
            self.later.insert(slot, value);
            return start..start;
        }
        self.prefix.push(value);
        while let Some(next) = self.take_later() {
            self.prefix.push(next);
        }
        start..self.prefix.len()
    }

    fn take_later(&mut self) -> Option<Value> {
        if self.later.is_empty() {
            return None;
        }
        self.later.remove(&(self.prefix.len() as Slot))
    }
}

// ---- a node

#[derive(Clone, Copy)]
pub(crate) enum Reason {
    OutOfRange,
    SlotsSpent,
    RoundsSpent,
    Down,
    NotSent,
}

#[derive(Clone, Copy)]
pub(crate) enum Told {
    Applied(u64),
    SchemaMismatch,
    Conflict,
    Unknown,
}

/// What all nodes have in common.
#[derive(Clone, Copy)]
pub(crate) struct Config {
    pub(crate) members: u8,
    pub(crate) slots: Slot,
}

pub(crate) enum Input<'a> {
    Put(&'a Upload),
    Tick(u8),
    Deliver(Message),
}

pub(crate) struct Node {
    me: u8,
    config: Config,
    seen_round: u32,
    acceptor: Acceptor,
    proposer: Proposer,
    learner: Learner,
    log: DecidedLog,
    pub(crate) tables: Tables,
    waiting: Vec<Upload>,
}

pub(crate) fn told_by(tables: &Tables, upload: &Upload) -> Told {
    match tables.firsts.get(&upload.id()) {
        None => Told::Unknown,
        Some((text, _)) if *text != upload.text => Told::Conflict,
        Some((_, Outcome::Applied(version))) => Told::Applied(*version),
        Some((_, Outcome::SchemaMismatch)) => Told::SchemaMismatch,
    }
}

impl Node {
    /// The node as its records left it.
    pub(crate) fn open(me: u8, config: Config, records: &[Record]) -> Node {
        let mut node = Node {
            me,
            config,
            seen_round: 0,
            acceptor: Acceptor::default(),
            proposer: Proposer::default(),
            learner: Learner::default(),
            log: DecidedLog::default(),
            tables: Tables::default(),
            waiting: Vec::new(),
        };
        for record in records {
            node.acceptor.apply(record);
            if let Record::Began(ballot) = record {
                node.proposer.highest_round = node.proposer.highest_round.max(ballot.round);
            }
        }
        node
    }

    /// Does what is due: gives the record of it, and puts the messages behind those that were sent.
    pub(crate) fn take(&mut self, input: Input, sent: &mut Vec<Message>) -> Result<Option<Record>, Reason> {
        match input {
            Input::Put(upload) => self.put(upload).map(|()| None),
            Input::Tick(left) => self.tick(left, sent),
            Input::Deliver(message) => self.deliver(message, sent),
        }
    }

    fn first_free(&self) -> Option<Slot> {
        let first = self.log.prefix.len() as Slot;
        (first < self.config.slots).then_some(first)
    }

    fn slot_left(&self, left: u8) -> Option<Slot> {
        let free = |slot: &Slot| !self.learner.learned.contains_key(slot);
        (self.log.prefix.len() as Slot..self.config.slots).filter(free).nth(left.into())
    }

    fn put(&mut self, upload: &Upload) -> Result<(), Reason> {
        let is_known = self.waiting.contains(upload) || !matches!(told_by(&self.tables, upload), Told::Unknown);
        if !is_known {
            self.first_free().ok_or(Reason::SlotsSpent)?;
            self.waiting.push(upload.clone());
        }
        Ok(())
    }

    fn tick(&mut self, left: u8, sent: &mut Vec<Message>) -> Result<Option<Record>, Reason> {
        if left > MOST_LEFT {
            return Err(Reason::OutOfRange);
        }
        if let Some(upload) = self.waiting.first() {
            let value = Value::Upload(upload.text.clone());
            return self.begin(self.slot_left(left), value, sent);
        }
        if !self.log.later.is_empty() {
            return self.begin(self.first_free(), Value::Noop, sent);
        }
        sent.extend(self.first_free().map(|slot| self.message(slot, Body::Ask)));
        Ok(None)
    }

    fn begin(&mut self, slot: Option<Slot>, value: Value, sent: &mut Vec<Message>) -> Result<Option<Record>, Reason> {
        let slot = slot.ok_or(Reason::SlotsSpent)?;
        let highest = self.seen_round.max(self.proposer.highest_round);
        if highest >= MAX_ROUND {
            return Err(Reason::RoundsSpent);
        }
        let ballot = Ballot { round: highest + 1, node: self.me };
        self.proposer.begin(slot, ballot, value);
        sent.push(self.message(slot, Body::Prepare(ballot)));
        Ok(Some(Record::Began(ballot)))
    }

    fn message(&self, slot: Slot, body: Body) -> Message {
        Message { sender: self.me, slot, body }
    }

    fn deliver(&mut self, message: Message, sent: &mut Vec<Message>) -> Result<Option<Record>, Reason> {
        let Message { sender, slot, body } = message;
        let ballots = body.ballots();
        let are_members = ballots.iter().flatten().all(|ballot| ballot.node < self.config.members);
        if sender >= self.config.members || slot >= self.config.slots || !are_members {
            return Err(Reason::OutOfRange);
        }
        self.seen_round = ballots.iter().flatten().map(|ballot| ballot.round).fold(self.seen_round, u32::max);
        Ok(self.reply(sender, slot, body, sent))
    }

    fn reply(&mut self, sender: u8, slot: Slot, body: Body, sent: &mut Vec<Message>) -> Option<Record> {
        match body {
            Body::Prepare(ballot) => return self.promise(slot, ballot, sent),
            Body::Accept(proposal) => return self.accept(slot, proposal, sent),
            Body::Promise(ballot, report) => {
                let value = self.proposer.on_promise(self.config.members, sender, slot, ballot, report);
                sent.extend(value.map(|value| self.message(slot, Body::Accept(Acceptance { ballot, value }))));
            }
            Body::Nack { ballot, .. } => self.proposer.on_nack(slot, ballot),
            Body::Accepted(acceptance) => {
                let learned = self.learner.on_accepted(self.config.members, sender, slot, acceptance);
                self.learn(slot, learned);
            }
            Body::Ask => {
                let decided = self.log.prefix.iter().enumerate().skip(slot as usize).take(MAX_ASKED);
                sent.extend(decided.map(|(slot, value)| self.message(slot as Slot, Body::Decided(value.clone()))));
            }
            Body::Decided(value) => {
                let learned = self.learner.on_decided(slot, value);
                self.learn(slot, learned);
            }
        }
        None
    }

    fn promise(&mut self, slot: Slot, ballot: Ballot, sent: &mut Vec<Message>) -> Option<Record> {
        match self.acceptor.on_prepare(slot, ballot) {
            Ok(report) => {
                sent.push(self.message(slot, Body::Promise(ballot, report)));
                Some(Record::Promised(slot, ballot))
            }
            Err(promised) => {
                sent.push(self.message(slot, Body::Nack { ballot, promised }));
                None
            }
        }
    }

    fn accept(&mut self, slot: Slot, proposal: Acceptance, sent: &mut Vec<Message>) -> Option<Record> {
        let ballot = proposal.ballot;
        match self.acceptor.on_accept(slot, proposal.clone()) {
            Ok(()) => {
                sent.push(self.message(slot, Body::Accepted(proposal.clone())));
                Some(Record::Accepted(slot, proposal))
            }
            Err(promised) => {
                sent.push(self.message(slot, Body::Nack { ballot, promised }));
                None
            }
        }
    }

    /// The tables take what the prefix grows by, and what they know then waits no more.
    fn learn(&mut self, slot: Slot, learned: Option<Value>) {
        let Some(value) = learned else {
            return;
        };
        let grown = self.log.insert(slot, value);
        if grown.is_empty() {
            return;
        }
        for value in &self.log.prefix[grown] {
            if let Value::Upload(text) = value {
                self.tables.take(text);
            }
        }
        let tables = &self.tables;
        self.waiting.retain(|upload| matches!(told_by(tables, upload), Told::Unknown));
    }

    fn version(&self, table: &str) -> Option<u64> {
        self.tables.tables.get(table).map(|table| table.frames.len() as u64)
    }
}

// ---- a run

#[derive(Clone)]
pub(crate) enum Event {
    Put(u64, Upload),
    Tick(u64, u8),
    Deliver(u64, u64),
    TickCut(u64, u8),
    DeliverCut(u64, u64),
    Restart(u64),
    Get(u64, String, u64),
    Info(u64, String),
    Outcome(u64, Upload),
}

#[derive(Clone)]
pub(crate) enum Gave {
    Sent { first: u64, count: u64 },
    Done,
    Answer(Vec<u8>),
    Unavailable,
    Info(u64),
    NoTable,
    Outcome(Told),
    Refused(Reason),
}

pub(crate) struct Step {
    pub(crate) event: Event,
    pub(crate) gave: Gave,
}

pub(crate) struct Trace {
    pub(crate) sent: Vec<Message>,
    pub(crate) steps: Vec<Step>,
}

impl Event {
    fn node(&self) -> u64 {
        match self {
            Event::Put(node, _) | Event::Tick(node, _) | Event::Deliver(node, _) | Event::TickCut(node, _) => *node,
            Event::DeliverCut(node, _) | Event::Restart(node) | Event::Get(node, _, _) => *node,
            Event::Info(node, _) | Event::Outcome(node, _) => *node,
        }
    }
}

/// A node with its records, up or down.
struct Seat {
    me: u8,
    config: Config,
    records: Vec<Record>,
    node: Option<Node>,
}

impl Seat {
    fn open(me: u8, config: Config) -> Seat {
        Seat { me, config, records: Vec::new(), node: Some(Node::open(me, config, &[])) }
    }

    fn happen(&mut self, event: &Event, sent: &mut Vec<Message>) -> Result<Gave, Reason> {
        if let Event::Restart(_) = event {
            self.node = Some(Node::open(self.me, self.config, &self.records));
            return Ok(Gave::Done);
        }
        let node = self.node.as_ref().ok_or(Reason::Down)?;
        let message = |number: &u64| sent.get(*number as usize).cloned().ok_or(Reason::NotSent);
        match event {
            Event::Put(_, upload) => self.step(Input::Put(upload), sent).map(|_| Gave::Done),
            Event::Tick(_, left) => self.step(Input::Tick(*left), sent),
            Event::Deliver(_, number) => self.step(Input::Deliver(message(number)?), sent),
            Event::TickCut(_, left) => Ok(self.cut(Input::Tick(*left), sent)),
            Event::DeliverCut(_, number) => Ok(self.cut(Input::Deliver(message(number)?), sent)),
            Event::Restart(_) => unreachable!(),
            Event::Get(_, table, version) => {
                let answer = node.tables.answer(table, *version as usize);
                Ok(answer.map_or(Gave::Unavailable, Gave::Answer))
            }
            Event::Info(_, table) => Ok(node.version(table).map_or(Gave::NoTable, Gave::Info)),
            Event::Outcome(_, upload) => Ok(Gave::Outcome(told_by(&node.tables, upload))),
        }
    }

    fn step(&mut self, input: Input, sent: &mut Vec<Message>) -> Result<Gave, Reason> {
        let first = sent.len() as u64;
        let record = self.node.as_mut().ok_or(Reason::Down)?.take(input, sent)?;
        self.records.extend(record);
        Ok(Gave::Sent { first, count: sent.len() as u64 - first })
    }

    /// Goes down behind the record.
    fn cut(&mut self, input: Input, sent: &mut Vec<Message>) -> Gave {
        let first = sent.len();
        let _ = self.step(input, sent);
        sent.truncate(first);
        self.node = None;
        Gave::Done
    }
}

fn run(config: Config, events: &[Event]) -> Trace {
    let mut seats: Vec<Seat> = (0..config.members).map(|me| Seat::open(me, config)).collect();
    let (mut sent, mut steps) = (Vec::new(), Vec::new());
    for event in events {
        let gave = match seats.get_mut(event.node() as usize) {
            Some(seat) => seat.happen(event, &mut sent).unwrap_or_else(Gave::Refused),
            None => Gave::Refused(Reason::OutOfRange),
        };
        steps.push(Step { event: event.clone(), gave });
    }
    Trace { sent, steps }
}

// ---- nodes that share a journal

/// What a node did itself: the event, what it gave, the message that it was handed and those that it sent.
#[allow(dead_code)]
pub(crate) struct OwnEntry {
    pub(crate) event: Event,
    pub(crate) gave: Gave,
    pub(crate) handed: Option<Message>,
    pub(crate) sends: Vec<Message>,
}

/// What whoever took a step has of it.
#[allow(dead_code)]
pub(crate) struct Receipt {
    pub(crate) number: u64,
    pub(crate) event: Event,
    pub(crate) gave: Gave,
}

/// A node with what it did itself, which agrees with a journal unasked.
struct Sharing {
    seat: Seat,
    own: Vec<OwnEntry>,
}

impl Sharing {
    /// The event at this node: an entry of the journal, and one of its own where it is no question.
    fn take(&mut self, event: &Event, journal: &mut Trace) -> Result<Receipt, Reason> {
        let handed = match event {
            Event::Deliver(_, number) => journal.sent.get(*number as usize).cloned(),
            _ => None,
        };
        let first = journal.sent.len();
        let gave = self.seat.happen(event, &mut journal.sent)?;
        if !matches!(event, Event::Outcome(..)) {
            let sends = journal.sent[first..].to_vec();
            self.own.push(OwnEntry { event: event.clone(), gave: gave.clone(), handed, sends });
        }
        let number = journal.steps.len() as u64;
        journal.steps.push(Step { event: event.clone(), gave: gave.clone() });
        Ok(Receipt { number, event: event.clone(), gave })
    }
}

/// The events, each taken by its node.
fn share(config: Config, events: &[Event]) -> Option<Trace> {
    let seat = |me| Sharing { seat: Seat::open(me, config), own: Vec::new() };
    let mut seats: Vec<Sharing> = (0..config.members).map(seat).collect();
    let mut journal = Trace { sent: Vec::new(), steps: Vec::new() };
    for event in events {
        black_box(seats.get_mut(event.node() as usize)?.take(event, &mut journal).ok()?);
    }
    black_box(&seats);
    Some(journal)
}

// ---- events that are told a line each, and what each gives

impl fmt::Display for Told {
    fn fmt(&self, f: &mut fmt::Formatter) -> fmt::Result {
        match self {
            Told::Applied(version) => write!(f, "applied {version}"),
            Told::SchemaMismatch => write!(f, "mismatch"),
            Told::Conflict => write!(f, "conflict"),
            Told::Unknown => write!(f, "unknown"),
        }
    }
}

impl fmt::Display for Step {
    fn fmt(&self, f: &mut fmt::Formatter) -> fmt::Result {
        match &self.gave {
            Gave::Sent { count: 0, .. } => write!(f, "sent -"),
            Gave::Sent { first, count } => {
                let numbers: Vec<String> = (*first..first + count).map(|number| number.to_string()).collect();
                write!(f, "sent {}", numbers.join(","))
            }
            Gave::Done if matches!(self.event, Event::TickCut(..) | Event::DeliverCut(..)) => write!(f, "cut"),
            Gave::Done => write!(f, "done"),
            Gave::Answer(bytes) => {
                write!(f, "answer ")?;
                bytes.iter().try_for_each(|byte| write!(f, "{byte:02x}"))
            }
            Gave::Unavailable => write!(f, "unavailable"),
            Gave::Info(version) => write!(f, "info {version}"),
            Gave::NoTable => write!(f, "notable"),
            Gave::Outcome(told) => write!(f, "{told}"),
            Gave::Refused(Reason::OutOfRange) => write!(f, "refused OutOfRange"),
            Gave::Refused(Reason::SlotsSpent) => write!(f, "refused SlotsSpent"),
            Gave::Refused(Reason::RoundsSpent) => write!(f, "refused RoundsSpent"),
            Gave::Refused(Reason::Down) => write!(f, "refused Down"),
            Gave::Refused(Reason::NotSent) => write!(f, "refused NotSent"),
        }
    }
}

fn unhexed(digits: &str) -> Option<Arc<[u8]>> {
    (0..digits.len()).step_by(2).map(|at| u8::from_str_radix(digits.get(at..at + 2)?, 16).ok()).collect()
}

fn event_of(words: &[&str], uploads: &[Upload]) -> Option<Event> {
    let number = |word: &str| word.parse::<u64>().ok();
    let upload = |word: &str| uploads.get(number(word)? as usize).cloned();
    let left = |word: &str| word.parse::<u8>().ok();
    let node = number(words.get(1)?)?;
    Some(match (words[0], &words[2..]) {
        ("put", [place]) => Event::Put(node, upload(place)?),
        ("tick", [skipped]) => Event::Tick(node, left(skipped)?),
        ("deliver", [place]) => Event::Deliver(node, number(place)?),
        ("tickcut", [skipped]) => Event::TickCut(node, left(skipped)?),
        ("delivercut", [place]) => Event::DeliverCut(node, number(place)?),
        ("restart", []) => Event::Restart(node),
        ("get", [table, version]) => Event::Get(node, (*table).to_owned(), number(version)?),
        ("info", [table]) => Event::Info(node, (*table).to_owned()),
        ("outcome", [place]) => Event::Outcome(node, upload(place)?),
        _ => return None,
    })
}

/// Plays a text whose first line has the members and the slots. A line with one word is an upload in hexadecimal
/// digits, each other line an event.
fn play(text: &str) -> Option<String> {
    let mut lines = text.lines().map(|line| line.split(' ').collect::<Vec<_>>());
    let [members, slots] = lines.next()?[..] else {
        return None;
    };
    let config = Config { members: members.parse().ok()?, slots: slots.parse().ok()? };
    let (mut uploads, mut events) = (Vec::new(), Vec::new());
    for words in lines {
        match words[..] {
            [digits] => uploads.push(Upload::decode(unhexed(digits)?)?),
            _ => events.push(event_of(&words, &uploads)?),
        }
    }
    let steps = run(config, &events).steps;
    Some(steps.iter().enumerate().map(|(place, step)| format!("{place} {step}\n")).collect())
}

// ---- the task of flight_bench

/// What a file of a run holds.
struct Plan {
    config: Config,
    uploads: Vec<Upload>,
}

fn plan_in(bytes: &[u8]) -> Option<Plan> {
    let (members, bytes) = bytes.split_first_chunk()?;
    let (slots, bytes) = bytes.split_first_chunk()?;
    let members = u8::try_from(u32::from_le_bytes(*members)).ok().filter(|members| (1..=7).contains(members))?;
    let slots = Some(u32::from_le_bytes(*slots)).filter(|slots| (1..=MAX_SLOTS).contains(slots))?;
    let config = Config { members, slots };
    let uploads = values(bytes)?.into_iter().map(Upload::decode).collect::<Option<_>>()?;
    Some(Plan { config, uploads })
}

/// What happens so that one upload is decided at the first of the members and learned by all, where no message is lost:
/// its Prepare goes to all, their promises to the first, its Accept to all, and what each accepted to all. The Prepare
/// has this number.
fn push_decision(events: &mut Vec<Event>, members: u64, prepare: u64, upload: &Upload) {
    let (accept, behind) = (prepare + 1 + members, prepare + 2 + 2 * members);
    events.extend([Event::Put(0, upload.clone()), Event::Tick(0, 0)]);
    events.extend((0..members).map(|node| Event::Deliver(node, prepare)));
    events.extend((prepare + 1..accept).map(|promise| Event::Deliver(0, promise)));
    events.extend((0..members).map(|node| Event::Deliver(node, accept)));
    for accepted in accept + 1..behind {
        events.extend((0..members).map(|node| Event::Deliver(node, accepted)));
    }
}

/// The uploads, one after the other, and in the end a question to each member about the last of them.
fn events_of(plan: &Plan) -> Vec<Event> {
    let members = u64::from(plan.config.members);
    let mut events = Vec::new();
    let mut prepare = 0;
    for upload in &plan.uploads {
        push_decision(&mut events, members, prepare, upload);
        prepare += 2 + 2 * members;
    }
    if let Some(last) = plan.uploads.last() {
        events.extend((0..members).map(|node| Event::Outcome(node, last.clone())));
    }
    events
}

fn mixed(sum: u64, number: u64) -> u64 {
    sum.wrapping_mul(31).wrapping_add(number)
}

fn ballot_weight(ballot: Ballot) -> u64 {
    mixed(ballot.round.into(), ballot.node.into())
}

fn value_weight(value: &Value) -> u64 {
    match value {
        Value::Noop => 0,
        Value::Upload(text) => bytes_weight(text),
    }
}

fn acceptance_weight(acceptance: &Acceptance) -> u64 {
    mixed(ballot_weight(acceptance.ballot), value_weight(&acceptance.value))
}

fn body_weight(body: &Body) -> u64 {
    match body {
        Body::Prepare(ballot) => mixed(1, ballot_weight(*ballot)),
        Body::Promise(ballot, report) => {
            mixed(mixed(2, ballot_weight(*ballot)), report.as_ref().map_or(0, acceptance_weight))
        }
        Body::Nack { ballot, promised } => mixed(mixed(3, ballot_weight(*ballot)), ballot_weight(*promised)),
        Body::Accept(proposal) => mixed(4, acceptance_weight(proposal)),
        Body::Accepted(acceptance) => mixed(5, acceptance_weight(acceptance)),
        Body::Ask => 6,
        Body::Decided(value) => mixed(7, value_weight(value)),
    }
}

fn message_weight(message: &Message) -> u64 {
    mixed(mixed(message.sender.into(), message.slot.into()), body_weight(&message.body))
}

fn told_weight(told: Told) -> u64 {
    match told {
        Told::Applied(version) => mixed(7, version),
        Told::SchemaMismatch => 8,
        Told::Conflict => 9,
        Told::Unknown => 10,
    }
}

fn gave_weight(gave: &Gave) -> u64 {
    match gave {
        Gave::Sent { first, count } => mixed(mixed(1, *first), *count),
        Gave::Done => 2,
        Gave::Answer(bytes) => mixed(3, bytes_weight(bytes)),
        Gave::Unavailable => 4,
        Gave::Info(version) => mixed(5, *version),
        Gave::NoTable => 6,
        Gave::Outcome(told) => told_weight(*told),
        Gave::Refused(_) => 11,
    }
}

fn trace_weight(trace: &Trace) -> u64 {
    let sum = trace.sent.iter().map(message_weight).fold(trace.sent.len() as u64, mixed);
    trace.steps.iter().map(|step| gave_weight(&step.gave)).fold(sum, mixed)
}

fn run_often(count: u64, bytes: &[u8]) -> Option<u64> {
    let plan = plan_in(bytes)?;
    let events = events_of(&plan);
    let mut sum = 0u64;
    for _ in 0..count {
        let trace = run(plan.config, black_box(&events));
        if trace.steps.iter().any(|step| matches!(step.gave, Gave::Refused(_))) {
            return None;
        }
        sum = sum.wrapping_add(trace_weight(&trace));
    }
    Some(sum)
}

fn share_often(count: u64, bytes: &[u8]) -> Option<u64> {
    let plan = plan_in(bytes)?;
    let events = events_of(&plan);
    let mut sum = 0u64;
    for _ in 0..count {
        sum = sum.wrapping_add(trace_weight(&share(plan.config, black_box(&events))?));
    }
    Some(sum)
}

fn main() -> io::Result<()> {
    let words: Vec<String> = std::env::args().skip(1).collect();
    let wrong = || io::Error::from(io::ErrorKind::InvalidInput);
    let number = |word: &str| word.parse::<u32>().map_err(|_| wrong());
    match words.iter().map(String::as_str).collect::<Vec<_>>()[..] {
        ["generate", members, uploads, batches, rows] => {
            let laid = generated(number(uploads)?.into(), 1, number(batches)? as usize, number(rows)? as usize);
            let head = [number(members)?.to_le_bytes(), number(uploads)?.max(1).to_le_bytes()].concat();
            io::stdout().write_all(&[head, laid].concat())
        }
        ["run-events", count, file] => {
            let sum = run_often(number(count)?.into(), &std::fs::read(file)?).ok_or_else(wrong)?;
            println!("{count} {sum}");
            Ok(())
        }
        ["seat-events", count, file] => {
            let sum = share_often(number(count)?.into(), &std::fs::read(file)?).ok_or_else(wrong)?;
            println!("{count} {sum}");
            Ok(())
        }
        ["play", file] => {
            print!("{}", play(&std::fs::read_to_string(file)?).ok_or_else(wrong)?);
            Ok(())
        }
        _ => Err(wrong()),
    }
}
