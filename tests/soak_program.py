"""The program that `tests/soak` proves and builds: it plays runs of sessions at once in memory, one behind another, and compares each with the
plain copy of the store. It stands here, and not in a crate, so that the gate does not prove it.

A run's file has numbers of eight bytes, low byte first, and bytes behind their count: the moment at which both datastores are prepared; the
session that prepares the datastore; 1 and the session that prepares the remote, or 0; the clock's readings behind their count; the lanes
behind their count, each with the most bytes of a read, the read that fails, the most bytes of a write, the write that fails, and what is sent; and
the session of the later run.
"""
from program_parts import FROM_MEMORY, ORDER

CRATE = "soak_program"
CITES = "disk_trait port_traits store_types store_files order_file plain_store lane pbs_server"

MAIN = """//! Serves sessions at once on a datastore in memory, gives the order and what was sent to the plain copy of the store, and compares what both
//! told. Then it does so with a later run of one session on what the first run left.
#![tactic(auto)]

mod compare;
mod input;
mod order;
mod playing;
mod serving;
mod tally;
mod wrong;

use input::Case;
use playing::{play, play_later};
use std::process::ExitCode;
use std::sync::Wait;
use std::thread::Threads;
use std::{env, fs, io};
use store_types::Entry;
use tally::Tally;
use wrong::Wrong;

/// Prints what is wrong, and the order, each entry by its lane, moment and kind: the same sessions can come in another order.
fn tell<P: Print>(rt: &P, run: &str, order: &[Entry], wrong: Wrong) -> io::Result<()> {
    println!(rt; "WRONG {run}{wrong}")?;
    for Entry { lane, moment, kind } in order {
        println!(rt; "    {} {} {}", *lane, *moment, *kind)?;
    }
    Ok(())
}

/// Plays a run, and prints a line of it, or what is wrong.
fn play_case<P: Print, R: Threads + Wait + Sync>(
    rt: &P,
    threads: &R,
    case: &Case,
) -> io::Result<()> {
    let mut order = Vec::new(case.alloc);
    let mut tally = Tally::new();
    let stage = match play(threads, case, &mut tally, &mut order) {
        Ok(stage) => stage,
        Err(wrong) => return tell(rt, "", &order, wrong),
    };
    match play_later(threads, stage, case, &mut tally) {
        Ok(()) => println!(rt; "same {tally}"),
        Err(wrong) => tell(rt, "the later run: ", &order, wrong),
    }
}

/// Plays the files that the arguments name.
fn play_all<R: Threads + Wait + Sync>(rt: HostRuntime, threads: &R) -> io::Result<()> {
    for name in env::args(&rt)?.skip(1) {
        let bytes = fs::read(&rt, name.as_str())?;
        match Case::read(rt.alloc(), &bytes) {
            Ok(case) => play_case(&rt, threads, &case)?,
            Err(wrong) => tell(&rt, "", &[], wrong)?,
        }
    }
    Ok(())
}

fn main(rt: HostRuntime) -> ExitCode {
    match play_all(rt, &rt) {
        Ok(()) => ExitCode::SUCCESS,
        Err(error) => {
            let _ = eprintln!(rt; "soak: {error}");
            ExitCode::from(2)
        }
    }
}
"""

PLAYING = """//! A run, and a later one on what it left.

use crate::compare::compare_run;
use crate::input::{Case, Talk};
use crate::serving::{Disks, prepared, run};
use crate::tally::Tally;
use crate::wrong::Wrong;
use plain_store::Plain;
use port_traits::SetClock;
use std::sync::Wait;
use std::thread::Threads;
use store_types::Entry;

/// The disks that sessions are served on, and the plain copies of what they have.
#[derive(Drop)]
pub struct Stage {
    disks: Disks,
    here: Plain,
    there: Option<Plain>,
}

impl Stage {
    fn prepare<R: Threads + Wait + Sync>(rt: &R, case: &Case) -> Result<Stage, Wrong> {
        let mut disk = prepared(rt, case, &case.here)?;
        let here = Plain::load(case.alloc, &mut disk)?;
        let Some(sent) = &case.there else {
            let disks = Disks { disk, remote: None };
            return Ok(Stage {
                disks,
                here,
                there: None,
            });
        };
        let mut remote = prepared(rt, case, sent)?;
        let there = Some(Plain::load(case.alloc, &mut remote)?);
        let remote = Some(remote);
        let disks = Disks { disk, remote };
        Ok(Stage { disks, here, there })
    }

    /// Serves these sessions, and compares what came.
    fn serve<R: Threads + Wait + Sync>(
        self,
        rt: &R,
        case: &Case,
        talks: &[Talk],
        clock: SetClock,
        tally: &mut Tally,
        order: &mut Vec<Entry>,
    ) -> Result<Stage, Wrong> {
        let Stage { disks, here, there } = self;
        let ran = run(rt, case.alloc, talks, disks, clock)?;
        *order = ran.order.clone()?;
        let here = compare_run(case.alloc, &here, there.as_ref(), talks, &ran, tally)?;
        let disks = ran.disks;
        Ok(Stage { disks, here, there })
    }
}

/// Plays a run. Gives what came in it, the order of its acts, and what it left.
pub fn play<R: Threads + Wait + Sync>(
    rt: &R,
    case: &Case,
    tally: &mut Tally,
    order: &mut Vec<Entry>,
) -> Result<Stage, Wrong> {
    let stage = Stage::prepare(rt, case)?;
    let clock = SetClock::new(case.readings.clone()?, case.last);
    stage.serve(rt, case, &case.talks, clock, tally, order)
}

/// Plays the later run on what was left.
pub fn play_later<R: Threads + Wait + Sync>(
    rt: &R,
    stage: Stage,
    case: &Case,
    tally: &mut Tally,
) -> Result<(), Wrong> {
    let alloc = case.alloc;
    let talks = [Talk::of(case.later.clone()?)];
    let clock = SetClock::new(Vec::new(alloc), case.last);
    let mut found = Tally::new();
    let mut order = Vec::new(alloc);
    let _ = stage.serve(rt, case, &talks, clock, &mut found, &mut order)?;
    tally.add_later(&found);
    Ok(())
}
"""

SERVING = """//! Sessions are served.

use crate::input::{Case, Talk};
use crate::wrong::Wrong;
use disk_trait::MemoryDisk;
use lane::{LaneReport, Port};
use pbs_server::{Served, serve};
use port_traits::{FreeGate, MemSink, MemSource, SetClock};
use std::alloc::{AllocError, Global};
use std::sync::Wait;
use std::thread::Threads;
use store_types::Entry;

/// The datastore's disk, and the remote's.
#[derive(Drop)]
pub struct Disks {
    pub disk: MemoryDisk,
    pub remote: Option<MemoryDisk>,
}

/// What a run left.
#[derive(Drop)]
pub struct Ran {
    /// What each lane told.
    pub told: Vec<Vec<u8>>,
    pub status: u8,
    pub order: Vec<Entry>,
    pub lanes: Vec<LaneReport>,
    pub calls: Vec<u64>,
    pub disks: Disks,
}

type MemPort = Port<MemSource, MemSink>;

fn words(alloc: Global, sessions: usize) -> Result<Vec<String>, AllocError> {
    let mut words = Vec::new(alloc);
    words.push(String::from_str(alloc, "run")?)?;
    words.push(String::from_str(alloc, "root")?)?;
    for _ in 0..sessions {
        words.push(String::from_str(alloc, "session")?)?;
    }
    Ok(words)
}

fn port_of(alloc: Global, talk: &Talk) -> Result<MemPort, AllocError> {
    let source = MemSource::new(talk.sent.clone()?, [talk.unread].to_vec(alloc)?);
    let sink = MemSink::new(alloc, [talk.untaken].to_vec(alloc)?);
    Ok(Port {
        source: source.at_most(talk.gives.max(1)),
        sink: sink.at_most(talk.takes.max(1)),
    })
}

fn ports_of(alloc: Global, talks: &[Talk]) -> Result<Vec<MemPort>, AllocError> {
    let mut ports = Vec::new(alloc);
    for talk in talks {
        ports.push(port_of(alloc, talk)?)?;
    }
    Ok(ports)
}

fn told_by(alloc: Global, ports: Vec<MemPort>) -> Result<Vec<Vec<u8>>, AllocError> {
    let mut told = Vec::new(alloc);
    for port in ports {
        told.push(port.sink.into_bytes())?;
    }
    Ok(told)
}

/// Serves the sessions, all at once.
pub fn run<R: Threads + Wait + Sync>(
    rt: &R,
    alloc: Global,
    talks: &[Talk],
    disks: Disks,
    clock: SetClock,
) -> Result<Ran, Wrong> {
    let Disks { disk, remote } = disks;
    let mut ports = ports_of(alloc, talks)?;
    let words = words(alloc, talks.len())?;
    let mut journal = MemSink::new(alloc, Vec::new(alloc));
    let served = serve(
        rt,
        alloc,
        &words,
        &mut ports,
        disk,
        remote,
        clock,
        &mut journal,
        &FreeGate,
    );
    let told = told_by(alloc, ports)?;
    left_by(served, told)
}

/// What was served, where the datastore was opened and its book saved.
fn left_by(served: Served<MemoryDisk, MemoryDisk>, told: Vec<Vec<u8>>) -> Result<Ran, Wrong> {
    let Served {
        status,
        order,
        report,
        disk,
        remote,
    } = served;
    if report.not_opened.is_some() || report.not_saved.is_some() {
        return Err(Wrong::NotServed);
    }
    Ok(Ran {
        told,
        status: status.number(),
        order,
        lanes: report.lanes,
        calls: report.calls,
        disks: Disks { disk, remote },
    })
}

/// A datastore on which one session was served.
pub fn prepared<R: Threads + Wait + Sync>(
    rt: &R,
    case: &Case,
    sent: &[u8],
) -> Result<MemoryDisk, Wrong> {
    let alloc = case.alloc;
    let clock = SetClock::new(Vec::new(alloc), case.prepared);
    let disks = Disks {
        disk: MemoryDisk::new(alloc),
        remote: None,
    };
    let talks = [Talk::of(sent.to_vec(alloc)?)];
    let ran = run(rt, alloc, &talks, disks, clock)?;
    // (a disk of its own, whose calls are none: it reads as before)
    Ok(ran.disks.disk.crashed(alloc, 1)?)
}
"""

COMPARE = r"""//! What a run told, beside what the plain copy tells in the same order.

use crate::input::Talk;
use crate::order::read_again;
use crate::serving::Ran;
use crate::tally::Tally;
use crate::wrong::Wrong;
use lane::{Ending, LaneReport};
use plain_store::{Misfit, Plain, Woven};
use std::alloc::{AllocError, Global};
use store_types::Bytes;

/// The frame of a collection's command.
const GC: &[u8] = b"\x01\0\0\0$";

/// The front of the frame of its reply, behind which its numbers stand: the plain copy does not tell them.
const COLLECTED: &[u8] = b"\x29\0\0\0\0";

/// The counts of calls never fall, and there is one for each entry.
fn has_calls(calls: &[u64], entries: usize) -> bool {
    let mut last = 0;
    for count in calls {
        if *count < last {
            return false;
        }
        last = *count;
    }
    calls.len() == entries
}

/// How much an ending counts for the status, from 0, and the status that it makes.
fn weight(ending: Ending) -> (u8, u8) {
    match ending {
        Ending::Clean => (0, 0),
        Ending::Broken { .. } => (1, 1),
        Ending::SourceTooLong => (2, 9),
        Ending::SinkFault => (3, 5),
        Ending::SourceFault => (4, 4),
        Ending::NoMemory => (5, 6),
    }
}

/// The status of a run in which no disk fails and memory is ample, by how its lanes ended.
fn status_of(lanes: &[LaneReport]) -> u8 {
    let mut most = 0;
    let mut status = 0;
    for lane in lanes {
        let (found, number) = weight(lane.ending);
        if found > most {
            most = found;
            status = number;
        }
    }
    status
}

/// What the sources gave.
fn inputs_of(alloc: Global, talks: &[Talk], lanes: &[LaneReport]) -> Result<Vec<Bytes>, Wrong> {
    let mut inputs = Vec::new(alloc);
    for (talk, report) in talks.iter().zip(lanes.iter()) {
        let Some((given, _)) = talk.sent.split_at_checked(report.taken as usize) else {
            return Err(Wrong::Given(inputs.len()));
        };
        inputs.push(Bytes::from_slice(alloc, given)?)?;
    }
    Ok(inputs)
}

fn endings_of(alloc: Global, lanes: &[LaneReport]) -> Result<Vec<Ending>, AllocError> {
    let mut endings = Vec::new(alloc);
    for report in lanes {
        endings.push(report.ending)?;
    }
    Ok(endings)
}

/// What the plain copy tells, and its last store.
fn woven(
    alloc: Global,
    here: &Plain,
    there: Option<&Plain>,
    ran: &Ran,
    inputs: &[Bytes],
) -> Result<Woven, Wrong> {
    let endings = endings_of(alloc, &ran.lanes)?;
    if inputs.len() > 64 || endings.len() != inputs.len() {
        return Err(Wrong::Report(ran.status));
    }
    let Some(order) = read_again(alloc, inputs.len() as u32, &ran.order)? else {
        return Err(Wrong::Order);
    };
    match here.weave(alloc, there, &order, inputs, &endings)? {
        Ok(woven) if woven.replies.as_slice().len() == inputs.len() => Ok(woven),
        Ok(_) => Err(Wrong::Report(ran.status)),
        Err(Misfit { entry, lane, .. }) => Err(Wrong::Misfit(entry, lane)),
    }
}

/// The frame that stands first, with its head, and what stands behind it. None where there is none, or a part of one.
fn split_frame(bytes: &[u8]) -> Option<(&[u8], &[u8])> {
    let [a, b, c, d, ..] = bytes else {
        return None;
    };
    let len = u32::from_le_bytes([*a, *b, *c, *d]) as usize;
    bytes.split_at_checked(len.saturating_add(4))
}

/// A reply, or one and the end's.
fn is_cut_off(replayed: &[u8]) -> bool {
    let Some((_, rest)) = split_frame(replayed) else {
        return false;
    };
    match split_frame(rest) {
        Some((_, behind)) => behind.is_empty(),
        None => rest.is_empty(),
    }
}

/// What a lane is sent, what it told, and what the plain copy tells, as far as they are not yet compared.
#[derive(Clone, Copy)]
struct Sides<'a> {
    sent: &'a [u8],
    told: &'a [u8],
    replayed: &'a [u8],
}

impl<'a> Sides<'a> {
    /// The first reply, with what stands behind it on each side. None where the sides differ in it. Of a collection's numbers only their
    /// presence is compared.
    fn split_first(self) -> Option<(&'a [u8], Sides<'a>)> {
        let (reply, told) = split_frame(self.told)?;
        let (replayed, left) = self.replayed.split_at_checked(reply.len())?;
        let (command, sent) = split_frame(self.sent).unwrap_or((self.sent, b""));
        let is_collected = command == GC && reply.starts_with(COLLECTED);
        if replayed != reply && !(is_collected && replayed.starts_with(COLLECTED)) {
            return None;
        }
        let rest = Sides {
            sent,
            told,
            replayed: left,
        };
        Some((reply, rest))
    }

    /// What was told of the last reply, without a collection's numbers.
    fn last_front(self) -> &'a [u8] {
        if self.sent.starts_with(GC) {
            let (front, _) = self.told.split_at(self.told.len().min(COLLECTED.len()));
            return front;
        }
        self.told
    }

    /// Nothing is left; or of a sink that failed a front of the reply that it failed in, behind which the end may have one.
    fn is_over(self, is_cut: bool) -> bool {
        if !is_cut {
            return self.told.is_empty() && self.replayed.is_empty();
        }
        self.replayed.starts_with(self.last_front())
            && self.told.len() <= self.replayed.len()
            && is_cut_off(self.replayed)
    }

    /// The place of the first reply that differs.
    fn differ_at(self, is_cut: bool, tally: &mut Tally) -> Option<usize> {
        let mut left = self;
        for _ in 0..self.told.len() {
            match left.split_first() {
                Some((reply, rest)) if !is_cut || !rest.replayed.is_empty() => {
                    tally.add_reply(reply);
                    left = rest;
                }
                _ => break,
            }
        }
        if left.is_over(is_cut) {
            return None;
        }
        Some(self.told.len().saturating_sub(left.told.len()))
    }
}

/// A lane told what the plain copy tells.
fn compare_lane(
    lane: usize,
    sides: Sides,
    report: &LaneReport,
    tally: &mut Tally,
) -> Result<(), Wrong> {
    if report.given != sides.told.len() as u64 {
        return Err(Wrong::Given(lane));
    }
    let is_cut = report.ending == Ending::SinkFault;
    match sides.differ_at(is_cut, tally) {
        Some(place) => Err(Wrong::Told(lane, place)),
        None => Ok(()),
    }
}

/// The run keeps the rules, has its status, and told what the plain copy tells in its order. Gives the plain copy's last store.
pub fn compare_run(
    alloc: Global,
    here: &Plain,
    there: Option<&Plain>,
    talks: &[Talk],
    ran: &Ran,
    tally: &mut Tally,
) -> Result<Plain, Wrong> {
    let is_whole = ran.lanes.len() == talks.len() && has_calls(&ran.calls, ran.order.len());
    if !is_whole || ran.status != status_of(&ran.lanes) {
        return Err(Wrong::Report(ran.status));
    }
    tally.add_order(&ran.order);
    let inputs = inputs_of(alloc, talks, &ran.lanes)?;
    let Woven { store, replies } = woven(alloc, here, there, ran, &inputs)?;
    let sides = inputs
        .iter()
        .zip(ran.told.iter())
        .zip(replies.as_slice().iter());
    for (lane, (((sent, told), replayed), report)) in sides.zip(ran.lanes.iter()).enumerate() {
        let sides = Sides {
            sent: sent.as_slice(),
            told,
            replayed: replayed.as_slice(),
        };
        compare_lane(lane, sides, report, tally)?;
    }
    Ok(store)
}
"""

INPUT = """//! A run's file.

use crate::wrong::Wrong;
use std::alloc::Global;

/// What a lane is sent, and how its source and its sink work.
#[derive(Drop)]
pub struct Talk {
    pub sent: Vec<u8>,
    /// The most bytes that a read gives, and that a write takes.
    pub gives: usize,
    pub takes: usize,
    /// The read and the write that fail.
    pub unread: u64,
    pub untaken: u64,
}

impl Talk {
    /// Nothing fails.
    pub fn of(sent: Vec<u8>) -> Talk {
        Talk {
            sent,
            gives: usize::MAX,
            takes: usize::MAX,
            unread: u64::MAX,
            untaken: u64::MAX,
        }
    }
}

/// What is played.
#[derive(Drop)]
pub struct Case {
    pub alloc: Global,
    /// When both datastores are prepared.
    pub prepared: u64,
    /// The session that prepares the datastore, and the remote's, where there is one.
    pub here: Vec<u8>,
    pub there: Option<Vec<u8>>,
    /// What the clock reads, and what it reads from then on.
    pub readings: Vec<u64>,
    pub last: u64,
    pub talks: Vec<Talk>,
    /// The session of the later run.
    pub later: Vec<u8>,
}

impl Case {
    pub fn read(alloc: Global, bytes: &[u8]) -> Result<Case, Wrong> {
        let mut input = Input { alloc, rest: bytes };
        let prepared = input.number()?;
        let here = input.bytes()?;
        let there = input.remote()?;
        let mut readings = input.numbers()?;
        let last = readings.pop().unwrap_or(prepared);
        let talks = input.talks()?;
        let later = input.bytes()?;
        Ok(Case {
            alloc,
            prepared,
            here,
            there,
            readings,
            last,
            talks,
            later,
        })
    }
}

/// What is not yet read of a file.
#[derive(Drop)]
struct Input<'a> {
    alloc: Global,
    rest: &'a [u8],
}

impl Input<'_> {
    fn number(&mut self) -> Result<u64, Wrong> {
        let [a, b, c, d, e, f, g, h, rest @ ..] = self.rest else {
            return Err(Wrong::Unread);
        };
        let number = u64::from_le_bytes([*a, *b, *c, *d, *e, *f, *g, *h]);
        self.rest = rest;
        Ok(number)
    }

    fn bytes(&mut self) -> Result<Vec<u8>, Wrong> {
        let count = self.number()?;
        let Some((front, rest)) = self.rest.split_at_checked(count as usize) else {
            return Err(Wrong::Unread);
        };
        self.rest = rest;
        Ok(front.to_vec(self.alloc)?)
    }

    fn numbers(&mut self) -> Result<Vec<u64>, Wrong> {
        let mut numbers = Vec::new(self.alloc);
        for _ in 0..self.number()? {
            numbers.push(self.number()?)?;
        }
        Ok(numbers)
    }

    fn remote(&mut self) -> Result<Option<Vec<u8>>, Wrong> {
        match self.number()? {
            1 => Ok(Some(self.bytes()?)),
            _ => Ok(None),
        }
    }

    fn talk(&mut self) -> Result<Talk, Wrong> {
        let gives = self.number()? as usize;
        let unread = self.number()?;
        let takes = self.number()? as usize;
        let untaken = self.number()?;
        let sent = self.bytes()?;
        Ok(Talk {
            sent,
            gives,
            takes,
            unread,
            untaken,
        })
    }

    fn talks(&mut self) -> Result<Vec<Talk>, Wrong> {
        let mut talks = Vec::new(self.alloc);
        for _ in 0..self.number()? {
            talks.push(self.talk()?)?;
        }
        Ok(talks)
    }
}
"""

TALLY = """//! What came in a run.

use std::fmt::{self, Display, Formatter, Write};
use store_types::Entry;

#[derive(Drop)]
pub struct Tally {
    entries: u64,
    /// How often an entry was of another lane than the one before it.
    turns: u64,
    kinds: [u64; 8],
    /// By their first byte.
    replies: [u64; 31],
    /// The entries of the later run, and its replies Done.
    later: u64,
    later_done: u64,
}

/// Counts one more of a number's kind.
fn count(counts: &mut [u64], kind: u8) {
    if let Some(found) = counts.get_mut(kind as usize) {
        *found = found.saturating_add(1);
    }
}

impl Tally {
    pub fn new() -> Tally {
        Tally {
            entries: 0,
            turns: 0,
            kinds: [0; 8],
            replies: [0; 31],
            later: 0,
            later_done: 0,
        }
    }

    pub fn add_order(&mut self, order: &[Entry]) {
        let mut last = 0;
        for entry in order {
            self.entries = self.entries.saturating_add(1);
            if entry.lane != last {
                self.turns = self.turns.saturating_add(1);
            }
            count(&mut self.kinds, entry.kind);
            last = entry.lane;
        }
    }

    pub fn add_reply(&mut self, frame: &[u8]) {
        if let Some(code) = frame.get(4) {
            count(&mut self.replies, *code);
        }
    }

    /// What came in the later run.
    pub fn add_later(&mut self, later: &Tally) {
        self.later = later.entries;
        self.later_done = later.replies[0];
    }
}

fn write_all<W: Write>(f: &mut Formatter<W>, numbers: &[u64]) -> fmt::Result {
    for number in numbers {
        write!(f, " {}", *number)?;
    }
    Ok(())
}

impl Display for Tally {
    fn fmt<W: Write>(&self, f: &mut Formatter<W>) -> fmt::Result {
        write!(
            f,
            "{} {} {} {}",
            self.entries, self.turns, self.later, self.later_done
        )?;
        write_all(f, &self.kinds)?;
        write_all(f, &self.replies)
    }
}
"""

WRONG = (
    """//! Why a run is not as it is to be.

use disk_trait::DiskError;
use std::alloc::{AllocError, AllocFailed};
use std::fmt::{self, Display, Formatter, Write};

#[derive(Clone, Copy, Drop)]
pub enum Wrong {
    NoMemory,
    /// The run's file has no reading.
    Unread,
    /// The datastore was not opened, or its book not saved.
    NotServed,
    /// The order breaks a rule, or is not read from its file as it was written.
    Order,
    /// The status is not that of the endings, or reports or counts of calls are wanting.
    Report(u8),
    /// The plain copy cannot do this entry, which is of this lane.
    Misfit(u64, u32),
    /// This lane's report tells of other bytes than its sink has.
    Given(usize),
    /// This lane's replies differ from this place on.
    Told(usize, usize),
}

"""
    + FROM_MEMORY
    + """impl Display for Wrong {
    fn fmt<W: Write>(&self, f: &mut Formatter<W>) -> fmt::Result {
        match self {
            Wrong::NoMemory => f.write_str("there is no memory"),
            Wrong::Unread => f.write_str("the run's file has no reading"),
            Wrong::NotServed => f.write_str("the sessions were not served"),
            Wrong::Order => f.write_str("the order breaks a rule, or its file is not read as it"),
            Wrong::Report(status) => write!(
                f,
                "the report is not whole, or has the wrong status, {status}"
            ),
            Wrong::Misfit(entry, lane) => write!(f, "entry {entry}, of lane {lane}, does not fit"),
            Wrong::Given(lane) => write!(f, "lane {lane} gave other bytes than it reports"),
            Wrong::Told(lane, place) => write!(
                f,
                "the replies of lane {lane} differ from byte {place} on"
            ),
        }
    }
}
"""
)

FILES = {"main": MAIN, "playing": PLAYING, "serving": SERVING, "compare": COMPARE, "order": ORDER, "input": INPUT, "tally": TALLY, "wrong": WRONG}
