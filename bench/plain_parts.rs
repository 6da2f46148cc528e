//! The parts of a Paxos node in plain Rust, over the maps of std, with nothing proved: what `flight_bench` is timed
//! against. `TASK COUNT FILE` does what `flight_bench` does at these words, but that the learner is not told beforehand
//! what a call will give. The log is, by `gain`, as it makes copies of values there, which is most of the work.
use std::collections::HashMap;
use std::hint::black_box;
use std::io;

const MEMBERS: usize = 3;

type Slot = u32;

#[derive(Clone, Copy, Debug, PartialEq, Eq, PartialOrd, Ord, Hash)]
struct Ballot {
    round: u32,
    node: u8,
}

const FIRST: Ballot = Ballot { round: 1, node: 0 };

#[derive(Clone)]
#[allow(dead_code)]
enum Value {
    Noop,
    Upload(Vec<u8>),
}

// ---- the acceptor

#[derive(Default)]
struct Acceptor {
    slots: HashMap<Slot, (Ballot, Option<(Ballot, Value)>)>,
}

impl Acceptor {
    fn on_accept(&mut self, slot: Slot, ballot: Ballot, value: Value) -> bool {
        let entry = self.slots.entry(slot).or_insert((ballot, None));
        if ballot < entry.0 {
            return false;
        }
        *entry = (ballot, Some((ballot, value)));
        true
    }
}

// ---- the learner

struct Tally {
    voted: [bool; 7],
    value: Value,
}

#[derive(Default)]
struct Learner {
    learned: HashMap<Slot, Value>,
    tallies: HashMap<Slot, HashMap<Ballot, Tally>>,
}

impl Learner {
    /// Whether the slot is learned by this vote.
    fn on_accepted(&mut self, acceptor: usize, slot: Slot, ballot: Ballot, value: Value) -> bool {
        if self.learned.contains_key(&slot) {
            return false;
        }
        let tallies = self.tallies.entry(slot).or_default();
        let tally = tallies.entry(ballot).or_insert(Tally { voted: [false; 7], value });
        tally.voted[acceptor] = true;
        if 2 * tally.voted[..MEMBERS].iter().filter(|voted| **voted).count() <= MEMBERS {
            return false;
        }
        let tally = self.tallies.remove(&slot).and_then(|mut tallies| tallies.remove(&ballot));
        self.learned.extend(tally.map(|tally| (slot, tally.value)));
        true
    }
}

// ---- the log

#[derive(Default)]
struct DecidedLog {
    prefix: Vec<Value>,
    later: HashMap<Slot, Value>,
}

impl DecidedLog {
    /// Makes all the room that an insert can need, and gives copies of the values by which the prefix would grow.
    fn gain(&mut self, slot: Slot, value: &Value) -> Vec<Value> {
        self.prefix.reserve(self.later.len() + 1);
        self.later.reserve(1);
        let mut values = Vec::new();
        if slot as usize == self.prefix.len() {
            values.push(value.clone());
            while let Some(next) = self.later.get(&(slot + values.len() as Slot)) {
                values.push(next.clone());
            }
        }
        values
    }

    fn insert(&mut self, slot: Slot, value: Value) {
        match (slot as usize).cmp(&self.prefix.len()) {
            std::cmp::Ordering::Less => {}
            std::cmp::Ordering::Greater => {
                self.later.entry(slot).or_insert(value);
            }
            std::cmp::Ordering::Equal => {
                self.prefix.push(value);
                while let Some(value) = self.later.remove(&(self.prefix.len() as Slot)) {
                    self.prefix.push(value);
                }
            }
        }
    }

    /// By how many values the prefix grows.
    fn add(&mut self, slot: Slot, value: Value) -> usize {
        let values = self.gain(slot, &value);
        self.insert(slot, value);
        values.len()
    }
}

// ---- the tasks of flight_bench

fn call_acceptor(slots: Slot) -> u64 {
    let mut acceptor = Acceptor::default();
    (0..slots).map(|slot| u64::from(acceptor.on_accept(black_box(slot), FIRST, Value::Noop))).sum()
}

fn call_learner(slots: Slot) -> u64 {
    let mut learner = Learner::default();
    let vote = |number: u64| {
        let (member, slot) = ((number % 3) as usize, (number / 3) as Slot);
        u64::from(learner.on_accepted(member, black_box(slot), FIRST, Value::Noop))
    };
    (0..3 * u64::from(slots)).map(vote).sum()
}

fn call_log(slots: Slot) -> u64 {
    let mut log = DecidedLog::default();
    (0..slots).map(|slot| log.add(black_box(slot), Value::Noop) as u64).sum()
}

fn main() -> io::Result<()> {
    let words: Vec<String> = std::env::args().skip(1).collect();
    let wrong = || io::Error::from(io::ErrorKind::InvalidInput);
    let [task, count, file] = &words[..] else {
        return Err(wrong());
    };
    let count: u64 = count.parse().map_err(|_| wrong())?;
    let slots = std::fs::read(file)?.len() as Slot;
    let call = match task.as_str() {
        "call-acceptor" => call_acceptor,
        "call-learner" => call_learner,
        "call-log" => call_log,
        _ => return Err(wrong()),
    };
    let sum = (0..count).fold(0u64, |sum, _| sum.wrapping_add(call(black_box(slots))));
    println!("{count} {sum}");
    Ok(())
}
