"""The program that `tests/refused-memory` proves and builds: it serves a session, or those that the program makes itself for one lane, on a
datastore in memory, asks the plain copy of the store in the order that was returned, and serves a later session on what was left. It stands
here, and not in a crate, so that the gate does not prove it.

Its arguments are `run` or `gen`, the file of the session (of `gen` any), and the file of the later session. It prints lines, each a word and
what stands behind it; a line `served`, on standard error, comes before it does anything with what was served.
"""
from program_parts import FROM_MEMORY, ORDER

CRATE = "refused_program"
CITES = "disk_trait port_traits store_types store_files order_file generator plain_store lane pbs_server hex"

MAIN = """//! Serves sessions in memory, and prints what came: the status, the order, how it fits, and what a later session is told.
#![tactic(auto)]

mod fits;
mod order;
mod serving;
mod wrong;

use fits::woven;
use serving::{Asked, Ran, reopened, serve_asked};
use std::alloc::Global;
use std::process::ExitCode;
use std::sync::Wait;
use std::thread::Threads;
use std::{env, fs, io};
use wrong::Wrong;

/// What was served, as lines.
fn text_of(alloc: Global, ran: &Ran) -> Result<String, Wrong> {
    let status = ran.status;
    let mut text = format!(in alloc; "status {status}\\nkinds")?;
    for entry in &ran.order {
        let (lane, kind) = (entry.lane, entry.kind);
        write!(text, " {lane}:{kind}")?;
    }
    text.push_str("\\nendings")?;
    for lane in &ran.lanes {
        let ending = lane.ending;
        write!(text, " {ending:?}")?;
    }
    for told in &ran.told {
        let digits = hex::encode(alloc, told)?;
        write!(text, "\\ntold {digits}")?;
    }
    text.push('\\n')?;
    Ok(text)
}

/// What the plain copy tells, as lines.
fn woven_text(alloc: Global, asked: &Asked, ran: &Ran) -> Result<String, Wrong> {
    let mut text = String::new(alloc);
    for replies in woven(alloc, asked, ran)?.as_slice() {
        let digits = hex::encode(alloc, replies.as_slice())?;
        write!(text, "woven {digits}\\n")?;
    }
    Ok(text)
}

/// What a later session is told, as lines.
fn later_text<R: Threads + Wait + Sync>(
    rt: &R,
    alloc: Global,
    ran: Ran,
    later: &[u8],
) -> Result<String, Wrong> {
    let later = reopened(rt, alloc, ran, later)?;
    let status = later.status;
    let mut text = format!(in alloc; "later-status {status}\\n")?;
    for told in &later.told {
        let digits = hex::encode(alloc, told)?;
        write!(text, "later {digits}\\n")?;
    }
    Ok(text)
}

/// Serves what is asked, and prints what came.
fn play<R: Threads + Wait + Sync>(
    rt: HostRuntime,
    threads: &R,
    asked: &Asked,
    later: &[u8],
) -> Result<String, Wrong> {
    let alloc = rt.alloc();
    let ran = serve_asked(threads, alloc, asked);
    if eprintln!(rt; "served").is_err() {
        return Err(Wrong::NotTold);
    }
    let ran = ran?;
    let mut text = text_of(alloc, &ran)?;
    if ran.is_opened {
        text.push_str(woven_text(alloc, asked, &ran)?.as_str())?;
    }
    text.push_str(later_text(threads, alloc, ran, later)?.as_str())?;
    Ok(text)
}

fn play_words<R: Threads + Wait + Sync>(rt: HostRuntime, threads: &R) -> io::Result<()> {
    let mut words = env::args(&rt)?.skip(1);
    let (Some(kind), Some(session), Some(later)) = (words.next(), words.next(), words.next()) else {
        return println!(rt; "wrong words");
    };
    let session = fs::read(&rt, session.as_str())?;
    let later = fs::read(&rt, later.as_str())?;
    let asked = Asked {
        is_made: kind.as_str() == "gen",
        session,
    };
    match play(rt, threads, &asked, &later) {
        Ok(text) => print!(rt; "{text}"),
        Err(wrong) => println!(rt; "wrong {wrong}"),
    }
}

fn main(rt: HostRuntime) -> ExitCode {
    match play_words(rt, &rt) {
        Ok(()) => ExitCode::SUCCESS,
        Err(_) => ExitCode::from(2),
    }
}
"""

WRONG = (
    """//! What is wrong.

use disk_trait::DiskError;
use std::alloc::{AllocError, AllocFailed};
use std::fmt::{self, Display, Formatter, Write};

#[derive(Drop)]
pub enum Wrong {
    /// Memory was wanting for what is done beside the store.
    NoMemory,
    /// The order breaks a rule.
    Order,
    /// The entry of this number has no place in it.
    Misfit(u64),
    /// There are not as many reports as sessions.
    Report,
    NotTold,
}

"""
    + FROM_MEMORY
    + """impl Display for Wrong {
    fn fmt<W: Write>(&self, f: &mut Formatter<W>) -> fmt::Result {
        match self {
            Wrong::NoMemory => f.write_str("no memory"),
            Wrong::Order => f.write_str("an order that breaks a rule"),
            Wrong::Misfit(entry) => write!(f, "entry {entry} does not fit"),
            Wrong::Report => f.write_str("another number of reports"),
            Wrong::NotTold => f.write_str("not told"),
        }
    }
}
"""
)

SERVING = """//! Sessions are served.

use crate::wrong::Wrong;
use disk_trait::MemoryDisk;
use lane::{LaneReport, Port};
use pbs_server::{Served, serve};
use port_traits::{FreeGate, MemSink, MemSource, SetClock};
use std::alloc::{AllocError, Global};
use std::sync::Wait;
use std::thread::Threads;
use store_types::Entry;

/// What is asked of the program: a session, or that it makes those of one lane itself.
#[derive(Drop)]
pub struct Asked {
    pub is_made: bool,
    pub session: Vec<u8>,
}

/// What a run left.
#[derive(Drop)]
pub struct Ran {
    pub status: u8,
    /// The datastore was opened.
    pub is_opened: bool,
    pub order: Vec<Entry>,
    pub lanes: Vec<LaneReport>,
    /// What was told into each port.
    pub told: Vec<Vec<u8>>,
    disk: MemoryDisk,
}

/// Where the clock stands.
const STANDING: u64 = 1_600_000_000;

fn words(alloc: Global, all: &[&str]) -> Result<Vec<String>, AllocError> {
    let mut words = Vec::new(alloc);
    for word in all {
        words.push(String::from_str(alloc, word)?)?;
    }
    Ok(words)
}

type MemPort = Port<MemSource, MemSink>;

fn port_of(alloc: Global, sent: &[u8]) -> Result<MemPort, AllocError> {
    Ok(Port {
        source: MemSource::new(sent.to_vec(alloc)?, Vec::new(alloc)),
        sink: MemSink::new(alloc, Vec::new(alloc)),
    })
}

fn told_by(alloc: Global, ports: Vec<MemPort>) -> Result<Vec<Vec<u8>>, AllocError> {
    let mut told = Vec::new(alloc);
    for port in ports {
        told.push(port.sink.into_bytes())?;
    }
    Ok(told)
}

fn left_by(served: Served<MemoryDisk, MemoryDisk>, told: Vec<Vec<u8>>) -> Ran {
    let Served {
        status,
        order,
        report,
        disk,
        remote: _,
    } = served;
    Ran {
        status: status.number(),
        is_opened: !report.lanes.is_empty(),
        order,
        lanes: report.lanes,
        told,
        disk,
    }
}

fn serve_words<R: Threads + Wait + Sync>(
    rt: &R,
    alloc: Global,
    words: &[String],
    mut ports: Vec<MemPort>,
    disk: MemoryDisk,
) -> Result<Ran, AllocError> {
    let clock = SetClock::new(Vec::new(alloc), STANDING);
    let mut journal = MemSink::new(alloc, Vec::new(alloc));
    let served = serve(
        rt,
        alloc,
        words,
        &mut ports,
        disk,
        None::<MemoryDisk>,
        clock,
        &mut journal,
        &FreeGate,
    );
    Ok(left_by(served, told_by(alloc, ports)?))
}

/// Serves what is asked on an empty datastore.
pub fn serve_asked<R: Threads + Wait + Sync>(
    rt: &R,
    alloc: Global,
    asked: &Asked,
) -> Result<Ran, Wrong> {
    let mut ports = Vec::new(alloc);
    if !asked.is_made {
        ports.push(port_of(alloc, &asked.session)?)?;
    }
    let words = if asked.is_made {
        words(alloc, &["gen", "root", "1"])?
    } else {
        words(alloc, &["run", "root", "session"])?
    };
    let disk = MemoryDisk::new(alloc);
    Ok(serve_words(rt, alloc, &words, ports, disk)?)
}

/// Serves a session on what a run left, without what a crash could undo.
pub fn reopened<R: Threads + Wait + Sync>(
    rt: &R,
    alloc: Global,
    ran: Ran,
    sent: &[u8],
) -> Result<Ran, Wrong> {
    let mut ports = Vec::new(alloc);
    ports.push(port_of(alloc, sent)?)?;
    let words = words(alloc, &["run", "root", "session"])?;
    let disk = ran.disk.crashed(alloc, 0)?;
    Ok(serve_words(rt, alloc, &words, ports, disk)?)
}
"""

FITS = """//! How an order fits, by the plain copy of the store.

ghost use Rattle.std.specs.Prelude.{◌≤◌};

use crate::order::read_again;
use crate::serving::{Asked, Ran};
use crate::wrong::Wrong;
use disk_trait::MemoryDisk;
use generator::generate;
use lane::{Ending, LaneReport};
use plain_store::{Misfit, Plain};
use std::alloc::{AllocError, Global};
use store_types::{Bytes, Rows};

/// What a lane was sent.
fn input_of(alloc: Global, asked: &Asked, lane: u32) -> Result<Vec<u8>, AllocError>
    requires { lane ≤ 1 }
{
    if asked.is_made {
        return generate(alloc, 1, lane);
    }
    asked.session.clone()
}

/// What the lanes took of what they were sent.
fn inputs_of(
    alloc: Global,
    asked: &Asked,
    lanes: &[LaneReport],
) -> Result<Vec<Bytes>, AllocError> {
    let mut inputs = Vec::new(alloc);
    for (lane, report) in lanes.iter().enumerate() {
        let mut input = input_of(alloc, asked, if lane == 0 { 0 } else { 1 })?;
        input.truncate(report.taken as usize);
        inputs.push(Bytes::from_vec(input))?;
    }
    Ok(inputs)
}

/// What the plain copy tells each lane in the order of the run. Where a lane did not end cleanly it may have left commands.
pub fn woven(alloc: Global, asked: &Asked, ran: &Ran) -> Result<Rows<Bytes>, Wrong> {
    let inputs = inputs_of(alloc, asked, &ran.lanes)?;
    let mut endings = Vec::new(alloc);
    for report in &ran.lanes {
        let is_clean = report.ending == Ending::Clean;
        endings.push(if is_clean { Ending::Clean } else { Ending::SinkFault })?;
    }
    if inputs.len() > 64 || endings.len() != inputs.len() {
        return Err(Wrong::Report);
    }
    let Some(order) = read_again(alloc, inputs.len() as u32, &ran.order)? else {
        return Err(Wrong::Order);
    };
    let mut disk = MemoryDisk::new(alloc);
    let store = Plain::load(alloc, &mut disk)?;
    match store.weave(alloc, None, &order, &inputs, &endings)? {
        Ok(woven) => Ok(woven.replies),
        Err(Misfit { entry, .. }) => Err(Wrong::Misfit(entry)),
    }
}
"""

FILES = {"main": MAIN, "wrong": WRONG, "serving": SERVING, "fits": FITS, "order": ORDER}
