//! A cluster of three nodes that is served over TCP, in plain Rust over std alone, with nothing proved: what `flightd serve` is timed
//! against in bench/puts.sh. It answers DoPut.
//!
//!     plain_cluster serve --nodes 3 --port PORT --data DIR [--apart]
//!
//! It does what `flightd serve` does for a put, in the same order: a thread for each connection reads the upload into its one encoding, and
//! hands it to its node, which is an acceptor, a proposer and a learner behind a lock (bench/plain_runs.rs); a worker for each node delivers
//! what was sent, begins an attempt where an upload waits, and tells those who wait; all that happens is entered in one journal behind
//! another lock, with the messages that went out, and in a list of the node's own; a record is kept before its messages go out, in the node's
//! file, by the four calls write, fdatasync, write, fdatasync, while the node and the journal are locked. With `--apart` it is kept with the
//! node locked alone, so that nodes keep their records at the same time, which no `flightd serve` does.
//!
//! Left out are all other calls, refusals (whoever would be told of a conflict or of another shape is cut off), the limits of the journal and
//! of connections, memory that is refused (the process ends, as it does where a file can't be written), restarts, that a node looks
//! whether the journal has its own entries, and that what a caller is told is entered twice: here it is entered once.
use plain_calls::{PATH, next_message, put_framed, put_number, put_result, read_upload, wrong};
use plain_calls::plain_tables::put_bytes;
use plain_runs::{Acceptance, Ballot, Body, Config, Event, Gave, Input, Message, Node, NodeSet, OwnEntry, Receipt, Record};
use plain_runs::{Slot, Step, Told, Trace, Upload, Value, told_by};
use std::fs::File;
use std::io::{self, BufReader, BufWriter, Read, Write};
use std::net::{Ipv4Addr, Shutdown, TcpListener, TcpStream};
use std::ops::Range;
use std::os::unix::fs::FileExt;
use std::path::Path;
use std::sync::mpsc::{Receiver, RecvTimeoutError, Sender, channel};
use std::sync::{Arc, Mutex, MutexGuard};
use std::thread;
use std::time::{Duration, Instant};

#[allow(dead_code)]
#[path = "plain_calls.rs"]
mod plain_calls;
#[allow(dead_code)]
#[path = "plain_runs.rs"]
mod plain_runs;

const MEMBERS: u8 = 3;
const CONFIG: Config = Config { members: MEMBERS, slots: 1_000_000 };
const LOOK: Duration = Duration::from_millis(50);
const LONGEST_WAIT: Duration = Duration::from_millis(51_200);
const SILENCE: Duration = Duration::from_secs(60);

fn lock<T>(mutex: &Mutex<T>) -> MutexGuard<'_, T> {
    mutex.lock().expect("a thread ended in its midst")
}

// ---- records in a file

/// A node's file: records behind open gates, and a closed gate at the end.
struct RecordFile {
    file: File,
    gate: u64,
}

impl RecordFile {
    fn create(path: &Path) -> io::Result<RecordFile> {
        let file = File::create_new(path)?;
        file.write_all_at(&[0], 0)?;
        file.sync_all()?;
        Ok(RecordFile { file, gate: 0 })
    }

    /// Keeps a record: its block is written behind the closed gate and synced, and then the gate is opened and synced.
    fn keep(&mut self, record: &Record) -> io::Result<()> {
        let block = block_of(record);
        self.file.write_all_at(&block, self.gate + 1)?;
        self.file.sync_data()?;
        self.file.write_all_at(&[1], self.gate)?;
        self.file.sync_data()?;
        self.gate += block.len() as u64;
        Ok(())
    }
}

/// The length of a record, the record, and a closed gate.
fn block_of(record: &Record) -> Vec<u8> {
    let mut block = vec![0; 4];
    match record {
        Record::Began(ballot) => put_record(&mut block, 1, 0, ballot),
        Record::Promised(slot, ballot) => put_record(&mut block, 2, *slot, ballot),
        Record::Accepted(slot, Acceptance { ballot, value }) => {
            put_record(&mut block, 3, *slot, ballot);
            if let Value::Upload(text) = value {
                put_bytes(&mut block, 5, text);
            }
        }
    }
    let length = block.len() as u32 - 4;
    block[..4].copy_from_slice(&length.to_le_bytes());
    block.push(0);
    block
}

fn put_record(block: &mut Vec<u8>, kind: u64, slot: Slot, ballot: &Ballot) {
    put_number(block, 1, kind);
    put_number(block, 2, slot.into());
    put_number(block, 3, ballot.round.into());
    put_number(block, 4, ballot.node.into());
}

// ---- nodes behind locks

enum Note {
    Message(u64),
    Look,
}

/// A node with its file and what it did itself.
struct Seat {
    node: Node,
    file: RecordFile,
    own: Vec<OwnEntry>,
}

/// A put whose outcome is not known yet, and whom to tell.
struct Waiting {
    upload: Upload,
    reply: Sender<(Told, Receipt)>,
}

struct Desk {
    notes: Sender<Note>,
    puts: Mutex<Vec<Waiting>>,
}

struct Cluster {
    seats: Vec<Mutex<Seat>>,
    desks: Vec<Desk>,
    journal: Mutex<Trace>,
    keeps_apart: bool,
}

impl Cluster {
    /// Hands an input to a node: its record is kept, and what happened is entered with the messages that go out, whose numbers are given.
    fn take(&self, me: usize, event: Event, input: Input) -> Range<u64> {
        let handed = match &input {
            Input::Deliver(message) => Some(message.clone()),
            _ => None,
        };
        let mut seat = lock(&self.seats[me]);
        let mut sends = Vec::new();
        let record = seat.node.take(input, &mut sends).unwrap_or_else(|_| panic!("a node refused an input"));
        let keep = |seat: &mut Seat| record.iter().for_each(|it| seat.file.keep(it).expect("a record can't be kept"));
        if self.keeps_apart {
            keep(&mut seat);
        }
        let mut journal = lock(&self.journal);
        if !self.keeps_apart {
            keep(&mut seat);
        }
        let first = journal.sent.len() as u64;
        let gave = match event {
            Event::Put(..) => Gave::Done,
            _ => Gave::Sent { first, count: sends.len() as u64 },
        };
        journal.sent.extend_from_slice(&sends);
        journal.steps.push(Step { event: event.clone(), gave: gave.clone() });
        seat.own.push(OwnEntry { event, gave, handed, sends });
        first..journal.sent.len() as u64
    }

    fn message(&self, number: u64) -> Message {
        lock(&self.journal).sent[number as usize].clone()
    }

    fn tell_all(&self, sent: Range<u64>) {
        for number in sent {
            for desk in &self.desks {
                let _ = desk.notes.send(Note::Message(number));
            }
        }
    }

    /// Hands an upload to a node, and waits until it is known what became of it.
    fn put(&self, me: usize, upload: Upload) -> Option<(Told, Receipt)> {
        let (reply, ending) = channel();
        lock(&self.desks[me].puts).push(Waiting { upload: upload.clone(), reply });
        self.take(me, Event::Put(me as u64, upload.clone()), Input::Put(&upload));
        let _ = self.desks[me].notes.send(Note::Look);
        ending.recv().ok()
    }

    /// Tells those who wait for an upload that the node's tables know, once that is entered.
    fn look_at_each(&self, me: usize) {
        if !self.has_waiting(me) {
            return;
        }
        let seat = lock(&self.seats[me]);
        lock(&self.desks[me].puts).retain(|waiting| {
            let told = told_by(&seat.node.tables, &waiting.upload);
            let is_unknown = matches!(told, Told::Unknown);
            if !is_unknown {
                let _ = waiting.reply.send((told, self.enter_outcome(me, &waiting.upload, told)));
            }
            is_unknown
        });
    }

    fn enter_outcome(&self, me: usize, upload: &Upload, told: Told) -> Receipt {
        let (event, gave) = (Event::Outcome(me as u64, upload.clone()), Gave::Outcome(told));
        let mut journal = lock(&self.journal);
        let number = journal.steps.len() as u64;
        journal.steps.push(Step { event: event.clone(), gave: gave.clone() });
        Receipt { number, event, gave }
    }

    fn has_waiting(&self, me: usize) -> bool {
        !lock(&self.desks[me].puts).is_empty()
    }
}

// ---- when a tick is due

struct Attempt {
    slot: Slot,
    ballot: Ballot,
    accepted: NodeSet,
}

/// When the next tick of a node is due: at once where an upload waits and no attempt is open, and after a while without a message.
struct Pace {
    attempt: Option<Attempt>,
    was_lost: bool,
    quiet: Duration,
    wait: Duration,
}

impl Pace {
    fn left(&self, me: usize) -> u8 {
        if self.was_lost { me as u8 } else { 0 }
    }

    fn is_due(&self, waits: bool) -> bool {
        (waits && self.attempt.is_none()) || self.quiet >= self.wait
    }

    fn tick(&mut self, sent: Option<&Message>) {
        self.quiet = Duration::ZERO;
        match sent.map(|message| (message.slot, &message.body)) {
            Some((slot, Body::Prepare(ballot))) => {
                self.was_lost = false;
                self.attempt = Some(Attempt { slot, ballot: *ballot, accepted: NodeSet::default() });
            }
            Some((_, Body::Ask)) => self.wait = LONGEST_WAIT.min(2 * self.wait),
            _ => {}
        }
    }

    fn hear(&mut self, message: &Message) {
        self.quiet = Duration::ZERO;
        if !matches!(message.body, Body::Ask) {
            self.wait = LOOK;
        }
        let Some(attempt) = self.attempt.as_mut().filter(|attempt| attempt.slot == message.slot) else {
            return;
        };
        let is_over = match &message.body {
            Body::Nack { ballot, .. } if *ballot == attempt.ballot => {
                self.was_lost = true;
                true
            }
            Body::Accepted(it) if it.ballot == attempt.ballot => {
                attempt.accepted = attempt.accepted.with(message.sender);
                attempt.accepted.is_majority_of(MEMBERS)
            }
            Body::Decided(_) => true,
            _ => false,
        };
        if is_over {
            self.attempt = None;
        }
    }
}

// ---- the worker of a node

fn work(cluster: &Cluster, me: usize, notes: &Receiver<Note>) {
    let mut pace = Pace { attempt: None, was_lost: false, quiet: Duration::ZERO, wait: LOOK };
    let mut before = Instant::now();
    loop {
        let note = notes.recv_timeout(LOOK);
        let now = Instant::now();
        pace.quiet += now - before;
        before = now;
        match note {
            Ok(Note::Message(number)) => {
                let message = cluster.message(number);
                pace.hear(&message);
                cluster.tell_all(cluster.take(me, Event::Deliver(me as u64, number), Input::Deliver(message)));
            }
            Ok(Note::Look) => pace.wait = LOOK,
            Err(RecvTimeoutError::Timeout) => {}
            Err(RecvTimeoutError::Disconnected) => return,
        }
        cluster.look_at_each(me);
        if pace.is_due(cluster.has_waiting(me)) {
            let left = pace.left(me);
            let mut sent = cluster.take(me, Event::Tick(me as u64, left), Input::Tick(left));
            cluster.tell_all(sent.clone());
            pace.tick(sent.next().map(|number| cluster.message(number)).as_ref());
            cluster.look_at_each(me);
        }
    }
}

// ---- connections

/// Serves the one call of a connection, and ends it once the peer has.
fn answer(cluster: &Cluster, me: usize, stream: &TcpStream) -> io::Result<()> {
    stream.set_read_timeout(Some(SILENCE))?;
    stream.set_write_timeout(Some(SILENCE))?;
    stream.set_nodelay(true)?;
    let (mut input, mut output) = (BufReader::new(stream), BufWriter::new(stream));
    let path = next_message(&mut input)?.ok_or_else(wrong)?;
    if path != format!("{PATH}DoPut").as_bytes() {
        return Err(wrong());
    }
    let (id, text) = read_upload(&mut input)?;
    match cluster.put(me, Upload { text: Arc::from(text) }) {
        Some((Told::Applied(version), _)) => put_result(&mut output, &id, version)?,
        _ => return Err(wrong()),
    }
    put_framed(&mut output, 0x80, &[0])?;
    output.flush()?;
    stream.shutdown(Shutdown::Write)?;
    io::copy(&mut input.take(1 << 25), &mut io::sink())?;
    Ok(())
}

fn listen(cluster: &Arc<Cluster>, me: usize, listener: &TcpListener) {
    for stream in listener.incoming().flatten() {
        let cluster = cluster.clone();
        thread::spawn(move || answer(&cluster, me, &stream));
    }
}

// ---- the words

struct Words {
    port: u16,
    folder: String,
    keeps_apart: bool,
}

fn words() -> Option<Words> {
    let (mut port, mut folder, mut keeps_apart) = (None, None, false);
    let mut words = std::env::args().skip(1);
    words.next().filter(|word| word == "serve")?;
    while let Some(word) = words.next() {
        match word.as_str() {
            "--nodes" => drop(words.next().filter(|count| *count == MEMBERS.to_string())?),
            "--port" => port = words.next()?.parse().ok(),
            "--data" => folder = words.next(),
            "--apart" => keeps_apart = true,
            _ => return None,
        }
    }
    Some(Words { port: port?, folder: folder?, keeps_apart })
}

fn main() -> io::Result<()> {
    let Words { port, folder, keeps_apart } = words().ok_or_else(|| io::Error::from(io::ErrorKind::InvalidInput))?;
    let (mut seats, mut desks, mut receivers, mut listeners) = (Vec::new(), Vec::new(), Vec::new(), Vec::new());
    for me in 0..MEMBERS {
        let file = RecordFile::create(&Path::new(&folder).join(format!("node-{me}.rec")))?;
        seats.push(Mutex::new(Seat { node: Node::open(me, CONFIG, &[]), file, own: Vec::new() }));
        let (notes, receiver) = channel();
        desks.push(Desk { notes, puts: Mutex::new(Vec::new()) });
        receivers.push(receiver);
        listeners.push(TcpListener::bind((Ipv4Addr::LOCALHOST, port + u16::from(me)))?);
    }
    let journal = Mutex::new(Trace { sent: Vec::new(), steps: Vec::new() });
    let cluster = Arc::new(Cluster { seats, desks, journal, keeps_apart });
    let mut workers = Vec::new();
    for (me, (notes, listener)) in receivers.into_iter().zip(listeners).enumerate() {
        let (working, listening) = (cluster.clone(), cluster.clone());
        workers.push(thread::spawn(move || work(&working, me, &notes)));
        thread::spawn(move || listen(&listening, me, &listener));
        println!("node {me} at 127.0.0.1:{}", port + me as u16);
    }
    io::stdout().flush()?;
    workers.into_iter().for_each(|worker| drop(worker.join()));
    Ok(())
}
