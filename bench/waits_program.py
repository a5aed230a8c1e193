"""The program that `bench/views` proves and builds: it serves eight sessions on a real folder, and beside them one thread lists by LIST on a lane and
another by a view. It stands here, and not in a crate, so that the gate does not prove it.

Its arguments are how many rows a listing has of which publications are timed, the folder, and the files of the sessions. It prints lines, each a word;
how often that was done; how often it took more than a millisecond; and the nanoseconds of all and of the longest: `list` and `view` beside the
sessions; behind them `finish`, each of a snapshot without files; and `publish`, of a listing with so many rows in memory, which eight views could read.

No type of its store names a lifetime, since a closure that borrows such a value is not proved: so folders are synced one after another.
"""
import os, sys

sys.path.insert(0, os.path.join(os.path.dirname(os.path.dirname(os.path.abspath(__file__))), "tests"))
import views_program

CRATE = "waits_program"
CITES = f"{views_program.CITES} file_disk lane left_right"

MAIN = r"""//! Times lists and publications.
#![tactic(auto)]

mod acts;
mod finishing;
mod folder;
mod lanes;
mod opening;
mod publishing;
mod timing;
mod waiting;

ghost use Rattle.std.specs.Prelude.{◌≡◌, ◌≤◌};
ghost use Rattle.seat_history.specs.Entered.{OwnRises};
ghost use Rattle.shared_store.specs.Comes.{CanAct};
ghost use Rattle.waits_program.specs.Seats.{ComesBackIdle};

use finishing::finishes;
use lanes::{SessionPort, ports_of};
use opening::{Store, StoreSeat, StoreView, end, opened};
use publishing::publications;
use std::alloc::{AllocError, Global};
use std::process::ExitCode;
use std::sync::Wait;
use std::thread::Threads;
use std::{env, io};
use timing::{Timed, Times};
use waiting::waits;

fn tell<P: Print>(rt: &P, word: &str, timed: &Timed) -> io::Result<()> {
    println!(rt;
        "{word} {} {} {} {}",
        timed.count, timed.slow, timed.total, timed.longest
    )
}

/// Lists beside the sessions, where there are eight.
fn lists<R: Threads + Wait + Sync>(
    rt: HostRuntime,
    threads: &R,
    alloc: Global,
    store: &Store,
    seat: &mut StoreSeat,
    looks: &mut StoreView<'_>,
    ports: &mut [SessionPort],
    times: &mut Times,
)
    requires can { CanAct store.now.turn.id seat.old }
    requires rises { OwnRises seat.old }
    requires reach { 16 ≤ seat.old.reach }
    ensures { ComesBackIdle seat.old seat.new }
{
    if ports.len() == 8 {
        waits(
            rt,
            threads,
            alloc,
            store,
            seat,
            looks,
            ports,
            &mut times.list,
            &mut times.view,
        );
    }
}

/// Serves the sessions, and times what is beside them and behind them.
fn serve<R: Threads + Wait + Sync>(
    rt: HostRuntime,
    threads: &R,
    root: &str,
    sessions: &[String],
) -> Result<Times, String> {
    let alloc = rt.alloc();
    let Ok(mut ports) = ports_of(rt, alloc, sessions) else {
        return Err(String::new(alloc));
    };
    let (store, mut seat, mut places) = opened(rt, threads, alloc, root)?;
    let mut times = Times::new();
    if let Some(place) = places.pop() {
        let mut looks = place.view(&store);
        lists(
            rt, threads, alloc, &store, &mut seat, &mut looks, &mut ports, &mut times,
        );
        finishes(rt, threads, alloc, &store, &mut seat, &mut times.finish);
    }
    end(threads, store, seat);
    Ok(times)
}

/// A number in decimal digits.
fn number_of(text: &str) -> u64 {
    let mut number: u64 = 0;
    for digit in text.as_bytes() {
        number = number
            .saturating_mul(10)
            .saturating_add(u64::from(digit.saturating_sub(b'0')));
    }
    number
}

/// The arguments without the program's name.
fn words_of(alloc: Global, args: env::Args) -> Result<Vec<String>, AllocError> {
    let mut words = Vec::new(alloc);
    for word in args.skip(1) {
        words.push(word)?;
    }
    Ok(words)
}

fn run<R: Threads + Wait + Sync>(rt: HostRuntime, threads: &R) -> io::Result<()> {
    let Ok(words) = words_of(rt.alloc(), env::args(&rt)?) else {
        return println!(rt; "WRONG no memory");
    };
    let [rows, root, sessions @ ..] = words.as_slice() else {
        return Ok(());
    };
    match serve(rt, threads, root.as_str(), sessions) {
        Ok(times) => {
            tell(&rt, "list", &times.list)?;
            tell(&rt, "view", &times.view)?;
            tell(&rt, "finish", &times.finish)?;
        }
        Err(_) => println!(rt; "WRONG not opened")?,
    }
    match publications(rt, threads, rt.alloc(), number_of(rows.as_str())) {
        Some(publish) => tell(&rt, "publish", &publish),
        None => println!(rt; "WRONG no memory"),
    }
}

fn main(rt: HostRuntime) -> ExitCode {
    match run(rt, &rt) {
        Ok(()) => ExitCode::SUCCESS,
        Err(_) => ExitCode::from(2),
    }
}
"""

TIMING = """//! How long calls take.

use std::time::Instant;

/// More nanoseconds are long.
const SLOW: u64 = 1_000_000;

#[derive(Drop)]
pub struct Timed {
    pub count: u64,
    /// How many took long.
    pub slow: u64,
    /// In nanoseconds.
    pub total: u64,
    pub longest: u64,
}

/// What is timed.
#[derive(Drop)]
pub struct Times {
    pub list: Timed,
    pub view: Timed,
    pub finish: Timed,
}

impl Times {
    pub fn new() -> Times {
        Times {
            list: Timed::new(),
            view: Timed::new(),
            finish: Timed::new(),
        }
    }
}

impl Timed {
    pub fn new() -> Timed {
        Timed {
            count: 0,
            slow: 0,
            total: 0,
            longest: 0,
        }
    }

    /// Counts what began then, if the clock can be read.
    pub fn since(&mut self, rt: HostRuntime, began: &Option<Instant>) {
        let Some(began) = began else {
            return;
        };
        let Ok(took) = began.elapsed(&rt) else {
            return;
        };
        let nanos = u64::from(took.subsec_nanos());
        let took = took
            .as_secs()
            .saturating_mul(1_000_000_000)
            .saturating_add(nanos);
        self.count = self.count.saturating_add(1);
        self.slow = self.slow.saturating_add(u64::from(took > SLOW));
        self.total = self.total.saturating_add(took);
        self.longest = self.longest.max(took);
    }
}

/// The clock, if it can be read.
pub fn began(rt: HostRuntime) -> Option<Instant> {
    Instant::now(&rt).ok()
}
"""

FOLDER = """//! A real folder.

use disk_trait::Failed;
use file_disk::{FileDisk, SyncFolders, sync_each};
use std::alloc::{AllocError, Global};
use std::fs::OpenFile;

/// Syncs folders one after another.
#[derive(Clone, Copy)]
pub struct OneByOne {
    rt: HostRuntime,
}

impl SyncFolders for OneByOne {
    fn sync_folders(&self, folders: &[String]) -> Result<(), Failed> {
        sync_each(&self.rt, folders)
    }

    fn sync_with<F: OpenFile>(&self, file: &F, folders: &[String]) -> Result<(), Failed> {
        file.sync_all()?;
        sync_each(&self.rt, folders)
    }
}

pub type Folder = FileDisk<HostRuntime, OneByOne>;

pub fn folder_at(rt: HostRuntime, alloc: Global, root: &str) -> Result<Folder, AllocError> {
    FileDisk::alone(rt, OneByOne { rt }, alloc, root)
}
"""

OPENING = """//! A datastore on a real folder.

ghost use Rattle.std.specs.Prelude.{◌≡◌, ◌^◌, false, [], IfOk};
ghost use Rattle.turn_lock.specs.State.{IsNewTurn};

use crate::folder::{Folder, folder_at};
use core_opening::open_on;
use disk_trait::MemoryDisk;
use port_traits::WallClock;
use shared_store::{Seat, Shared, View, WithViews};
use std::alloc::Global;
use std::marker::Brand;
use std::sync::Wait;

type SystemClock = WallClock<HostRuntime>;

pub type Store = Shared<Folder, MemoryDisk, SystemClock, Brand>;

pub type StoreSeat = Seat<Folder, MemoryDisk, SystemClock, Brand>;

pub type StoreView<'a> = View<'a, Folder, MemoryDisk, SystemClock, Brand>;

type Opened = WithViews<Folder, MemoryDisk, SystemClock, Brand>;

/// The store of the disk's folder, its first seat, and a place for a view. The error owns something, so it is moved where it is handed on: what is
/// not would be dropped there as a whole, and a store is not dropped.
fn opened_on(
    rt: HostRuntime,
    threads: &impl Wait,
    alloc: Global,
    disk: Folder,
) -> Result<Opened, String>
    ensures { IfOk result (λ r. IsNewTurn [] (r.0.turn, r.1)) }
{
    let clock = WallClock::new(rt);
    match open_on(alloc, disk, None::<MemoryDisk>, clock) {
        Ok(core) => match Shared::make_with_views(threads, alloc, core, 1) {
            Ok(made) => Ok(made),
            Err(_core) => Err(String::new(alloc)),
        },
        Err(_) => Err(String::new(alloc)),
    }
}

/// The same, of the folder at a root.
pub fn opened(
    rt: HostRuntime,
    threads: &impl Wait,
    alloc: Global,
    root: &str,
) -> Result<Opened, String>
    ensures { IfOk result (λ r. IsNewTurn [] (r.0.turn, r.1)) }
{
    match folder_at(rt, alloc, root) {
        Ok(disk) => opened_on(rt, threads, alloc, disk),
        Err(_) => Err(String::new(alloc)),
    }
}

/// The store is closed, once the seats are one again and no view is left.
pub fn end(threads: &impl Wait, store: Store, seat: StoreSeat)
    requires own { seat.turn ≡ store.turn.id }
    requires idle { seat.holding ≡ false }
    requires whole { seat.reach ≡ 2 ^ 32 }
{
    drop(store.close(threads, seat));
}
"""

LANES = """//! Sessions on lanes of one store, each in a thread of its own.

ghost use Rattle.std.specs.Prelude.{◌≡◌, ◌≤◌, ◌<◌, ◌+◌, length};
ghost use denote.Param.Send.{IsSync};
ghost use Rattle.seat_history.specs.Entered.{OwnRises};
ghost use Rattle.shared_store.specs.Comes.{CanAct};
ghost use Rattle.waits_program.specs.Seats.{ComesBackIdle};

use crate::opening::{Store, StoreSeat};
use lane::{Port, run_with};
use port_traits::{FileSink, FileSource, FreeGate};
use std::alloc::{AllocError, Global};
use std::fs::File;
use std::sync::Wait;
use std::thread::{Threads, join_mut};

/// A session's file, and the file of its replies.
pub type SessionPort = Port<FileSource<HostRuntime>, FileSink<File>>;

fn port_of(rt: HostRuntime, alloc: Global, session: &str) -> Result<SessionPort, AllocError> {
    let mut out = String::from_str(alloc, session)?;
    out.push_str(".out")?;
    Ok(Port {
        source: FileSource::new(rt, String::from_str(alloc, session)?),
        sink: FileSink::create(&rt, out.as_str()),
    })
}

pub fn ports_of(
    rt: HostRuntime,
    alloc: Global,
    sessions: &[String],
) -> Result<Vec<SessionPort>, AllocError> {
    let mut ports = Vec::with_capacity(alloc, sessions.len())?;
    for session in sessions {
        ports.push(port_of(rt, alloc, session.as_str())?)?;
    }
    Ok(ports)
}

/// Serves a session.
fn serve_one<R: Threads + Wait + Sync>(
    rt: &R,
    alloc: Global,
    store: &Store,
    seat: &mut StoreSeat,
    first: u32,
    ports: &mut [SessionPort],
)
    requires can { CanAct store.now.turn.id seat.old }
    requires rises { OwnRises seat.old }
    requires one { length ports.old ≡ 1 }
    requires lanes { first < 8 }
    ensures { ComesBackIdle seat.old seat.new }
{
    let _ = run_with(rt, alloc, store, seat, first, &mut ports[0], &FreeGate);
}
"""

# (A function that called itself would be proved with its closures as one.)
HALVES = """
/// Serves COUNT sessions, all at once, on the lanes from the first on.
VISIBLEfn serve_MANY<R: Threads + Wait + Sync>(
    rt: &R,
    alloc: Global,
    store: &Store,
    seat: &mut StoreSeat,
    first: u32,
    ports: &mut [SessionPort],
)
    requires can { CanAct store.now.turn.id seat.old }
    requires rises { OwnRises seat.old }
    requires count { length ports.old ≡ COUNT }
    requires lanes { first + COUNT ≤ 8 }
    requires reach { COUNT ≤ seat.old.reach }
    ensures { ComesBackIdle seat.old seat.new }
{
    let middle = first + HALF;
    let mut right = store.split_off(seat);
    let (front, back) = ports.split_at_mut(HALF);
    let ((), ()) = join_mut(
        rt,
        &mut || -> ()
            requires { CanAct store.now.turn.id seat.now × OwnRises seat.now × IsSync R.row
                × (length front.now ≡ HALF) × (first + HALF ≤ 8) × (HALF ≤ seat.now.reach) }
            ensures { ComesBackIdle seat.entry.now seat.exit.now }
        { serve_FEWER(rt, alloc, store, seat, first, front) },
        &mut || -> ()
            requires { CanAct store.now.turn.id right × OwnRises right × IsSync R.row
                × (length back.now ≡ HALF) × (middle + HALF ≤ 8) × (HALF ≤ right.reach) }
            ensures { ComesBackIdle right.entry right.exit }
        { serve_FEWER(rt, alloc, store, &mut right, middle, back) },
    );
    store.absorb(seat, right);
}
"""
for many, fewer, count in [("two", "one", 2), ("four", "two", 4), ("eight", "four", 8)]:
    text = HALVES.replace("MANY", many).replace("FEWER", fewer).replace("COUNT", str(count)).replace("HALF", str(count // 2))
    LANES += text.replace("VISIBLE", "pub " if count == 8 else "")

WAITING = """//! A lane that lists, and a view, beside sessions.

ghost use Rattle.std.specs.Prelude.{◌≡◌, ◌≤◌, length};
ghost use denote.Param.Send.{IsSync};
ghost use Rattle.seat_history.specs.Entered.{OwnRises};
ghost use Rattle.shared_store.specs.Comes.{CanAct};
ghost use Rattle.waits_program.specs.Seats.{ComesBackIdle};

use crate::acts::list_act;
use crate::lanes::{SessionPort, serve_eight};
use crate::opening::{Store, StoreSeat, StoreView};
use crate::timing::{Timed, began};
use std::alloc::Global;
use std::sync::Wait;
use std::sync::atomic::AtomicBool;
use std::sync::atomic::Ordering::SeqCst;
use std::thread::{Threads, join_mut, yield_now};
use wire_commands::Reply;

/// The lane that lists.
const LISTS: u32 = 9;

/// More often than it lists.
const MOST: u64 = 1 << 40;

/// Lists by LIST, and counts it where snapshots are told.
fn list_once<R: Wait>(
    rt: HostRuntime,
    threads: &R,
    alloc: Global,
    store: &Store,
    seat: &mut StoreSeat,
    timed: &mut Timed,
)
    requires { CanAct store.now.turn.id seat.old }
    ensures { ComesBackIdle seat.old seat.new }
{
    let act = list_act(alloc);
    let start = began(rt);
    let answer = store.act(threads, alloc, seat, LISTS, act);
    if let Some(Reply::Listing(_)) = &answer.reply {
        timed.since(rt, &start);
    }
}

/// Does so until the sessions are over.
fn list_on_lane<R: Wait>(
    rt: HostRuntime,
    threads: &R,
    alloc: Global,
    store: &Store,
    seat: &mut StoreSeat,
    is_over: &AtomicBool,
    timed: &mut Timed,
)
    requires { CanAct store.now.turn.id seat.old }
    ensures { ComesBackIdle seat.old seat.new }
{
    for _ in 0..MOST {
        if is_over.load(SeqCst) {
            break;
        }
        list_once(rt, threads, alloc, store, seat, timed);
        yield_now();
    }
}

/// Lists by the view until the sessions are over.
fn list_by_view(
    rt: HostRuntime,
    alloc: Global,
    view: &mut StoreView<'_>,
    is_over: &AtomicBool,
    timed: &mut Timed,
) {
    for _ in 0..MOST {
        if is_over.load(SeqCst) {
            break;
        }
        let start = began(rt);
        let listed = view.list(alloc, None);
        if listed.is_ok() {
            timed.since(rt, &start);
        }
        yield_now();
    }
}

/// Serves the sessions, and tells when they are over.
fn serve_then_tell<R: Threads + Wait + Sync>(
    threads: &R,
    alloc: Global,
    store: &Store,
    seat: &mut StoreSeat,
    ports: &mut [SessionPort],
    is_over: &AtomicBool,
)
    requires can { CanAct store.now.turn.id seat.old }
    requires rises { OwnRises seat.old }
    requires eight { length ports.old ≡ 8 }
    requires reach { 8 ≤ seat.old.reach }
    ensures { ComesBackIdle seat.old seat.new }
{
    serve_eight(threads, alloc, store, seat, 0, ports);
    is_over.store(true, SeqCst);
}

/// The sessions, and a lane that lists beside them.
fn lanes<R: Threads + Wait + Sync>(
    rt: HostRuntime,
    threads: &R,
    alloc: Global,
    store: &Store,
    seat: &mut StoreSeat,
    ports: &mut [SessionPort],
    is_over: &AtomicBool,
    timed: &mut Timed,
)
    requires can { CanAct store.now.turn.id seat.old }
    requires rises { OwnRises seat.old }
    requires eight { length ports.old ≡ 8 }
    requires reach { 16 ≤ seat.old.reach }
    ensures { ComesBackIdle seat.old seat.new }
{
    let mut right = store.split_off(seat);
    let ((), ()) = join_mut(
        threads,
        &mut || -> ()
            requires { CanAct store.now.turn.id seat.now × OwnRises seat.now × IsSync R.row
                × (length ports.now ≡ 8) × (8 ≤ seat.now.reach) }
            ensures { ComesBackIdle seat.entry.now seat.exit.now }
        { serve_then_tell(threads, alloc, store, seat, ports, is_over) },
        &mut || -> ()
            requires { CanAct store.now.turn.id right × IsSync R.row }
            ensures { ComesBackIdle right.entry right.exit }
        { list_on_lane(rt, threads, alloc, store, &mut right, is_over, timed) },
    );
    store.absorb(seat, right);
}

/// These, and a view beside all.
pub fn waits<R: Threads + Wait + Sync>(
    rt: HostRuntime,
    threads: &R,
    alloc: Global,
    store: &Store,
    seat: &mut StoreSeat,
    looks: &mut StoreView<'_>,
    ports: &mut [SessionPort],
    list: &mut Timed,
    view: &mut Timed,
)
    requires can { CanAct store.now.turn.id seat.old }
    requires rises { OwnRises seat.old }
    requires eight { length ports.old ≡ 8 }
    requires reach { 16 ≤ seat.old.reach }
    ensures { ComesBackIdle seat.old seat.new }
{
    let is_over = AtomicBool::new(false);
    let ((), ()) = join_mut(
        threads,
        &mut || -> ()
            requires { CanAct store.now.turn.id seat.now × OwnRises seat.now × IsSync R.row
                × (length ports.now ≡ 8) × (16 ≤ seat.now.reach) }
            ensures { ComesBackIdle seat.entry.now seat.exit.now }
        { lanes(rt, threads, alloc, store, seat, ports, &is_over, list) },
        &mut || list_by_view(rt, alloc, looks, &is_over, view),
    );
}
"""

FINISHING = """//! FINISHes with their syncs, one after another.

ghost use Rattle.std.specs.Prelude.{◌<◌};
ghost use Rattle.shared_store.specs.Comes.{CanAct};
ghost use Rattle.waits_program.specs.Seats.{ComesBackIdle};

use crate::acts::{manifest_act, open_act};
use crate::opening::{Store, StoreSeat};
use crate::timing::{Timed, began};
use core_state::Act;
use std::alloc::Global;
use std::sync::Wait;
use wire_commands::{Command, Reply};

/// The lane that finishes.
const FINISHES: u32 = 10;

const ROUNDS: u32 = 100;

/// Finishes a snapshot without files, and counts its FINISH where that is done.
fn finish_once<R: Wait>(
    rt: HostRuntime,
    threads: &R,
    alloc: Global,
    store: &Store,
    seat: &mut StoreSeat,
    number: u32,
    timed: &mut Timed,
)
    requires { CanAct store.now.turn.id seat.old }
    ensures { ComesBackIdle seat.old seat.new }
{
    let _ = store.act(threads, alloc, seat, FINISHES, open_act(alloc, 0, number));
    let _ = store.act(
        threads,
        alloc,
        seat,
        FINISHES,
        manifest_act(alloc, 0, number),
    );
    let start = began(rt);
    let answer = store.act(threads, alloc, seat, FINISHES, Act::Plain(Command::Finish));
    if let Some(Reply::Done) = &answer.reply {
        timed.since(rt, &start);
    }
}

/// Does so again and again.
pub fn finishes<R: Wait>(
    rt: HostRuntime,
    threads: &R,
    alloc: Global,
    store: &Store,
    seat: &mut StoreSeat,
    timed: &mut Timed,
)
    requires { CanAct store.now.turn.id seat.old }
    ensures { ComesBackIdle seat.old seat.new }
{
    for number in 0..ROUNDS {
        finish_once(rt, threads, alloc, store, seat, number, timed);
    }
}
"""

PUBLISHING = """//! Publications of a listing in memory.

ghost use Rattle.std.specs.Prelude.{◌≡◌, []};
ghost use Rattle.left_right.specs.Sides.{view};

use crate::timing::{Timed, began};
use listing_views::{Lawful, Listed, Listing, Poster, Viewer};
use std::alloc::{AllocError, Global};
use std::sync::Wait;
use store_types::{Bytes, Kind, SnapshotKey};

const ROUNDS: u64 = 1_000;

const VIEWS: usize = 8;

/// Any rows may be shown after any history.
struct Any;

impl Lawful for Any {
    ghost is = { λ _ _. Unit {0} };
}

fn row_at(alloc: Global, time: u64) -> Result<Listed, AllocError> {
    Ok(Listed {
        key: SnapshotKey {
            kind: Kind::Host,
            id: Bytes::from_slice(alloc, b"a")?,
            time,
        },
        damaged: false,
        files: 1,
    })
}

fn rows_of(alloc: Global, count: u64) -> Result<Vec<Listed>, AllocError> {
    let mut rows = Vec::new(alloc);
    for time in 0..count {
        rows.push(row_at(alloc, time.saturating_mul(2))?)?;
    }
    Ok(rows)
}

fn viewers_of(alloc: Global, poster: &Poster<Any>) -> Result<Vec<Viewer<Any>>, AllocError> {
    let mut viewers = Vec::new(alloc);
    for _ in 0..VIEWS {
        viewers.push(Viewer::make(poster)?)?;
    }
    Ok(viewers)
}

/// One row more is shown. Where there is no memory for it, nothing is done.
fn publish<R: Wait>(
    rt: HostRuntime,
    threads: &R,
    alloc: Global,
    poster: Poster<Any>,
    time: u64,
    timed: &mut Timed,
) -> Poster<Any>
    requires { view poster.writer.desk.place ≡ [] }
    ensures { view result.writer.desk.place ≡ [] }
{
    let start = began(rt);
    let Ok(row) = row_at(alloc, time) else {
        return poster;
    };
    let Ok(chunks) = poster.shown().with(alloc, row) else {
        return poster;
    };
    let poster = poster.post(threads, Listing { chunks, count: 0 });
    timed.since(rt, &start);
    poster
}

/// Many, one after another.
fn publish_often<R: Wait>(
    rt: HostRuntime,
    threads: &R,
    alloc: Global,
    poster: Poster<Any>,
    timed: &mut Timed,
) -> Poster<Any>
    requires { view poster.writer.desk.place ≡ [] }
{
    let mut poster = poster;
    for half in 0..ROUNDS {
        let time = half.saturating_mul(2).saturating_add(1);
        poster = publish(rt, threads, alloc, poster, time, timed);
    }
    poster
}

/// Of a listing with so many rows. None where there is no memory for it.
pub fn publications<R: Wait>(
    rt: HostRuntime,
    threads: &R,
    alloc: Global,
    count: u64,
) -> Option<Timed> {
    let rows = rows_of(alloc, count).ok()?;
    let poster = Poster::<Any>::make(threads, alloc, rows, VIEWS).ok()?;
    let viewers = viewers_of(alloc, &poster);
    let mut timed = Timed::new();
    let poster = publish_often(rt, threads, alloc, poster, &mut timed);
    poster.end(threads);
    viewers.ok()?;
    Some(timed)
}
"""

FILES = {
    "main": MAIN,
    "acts": views_program.ACTS,
    "finishing": FINISHING,
    "folder": FOLDER,
    "lanes": LANES,
    "opening": OPENING,
    "publishing": PUBLISHING,
    "timing": TIMING,
    "waiting": WAITING,
}


def of_own(text):
    return text.replace(views_program.CRATE, CRATE)


LOOP = """use Rattle.shared_store.specs.Comes.{CanAct}
use Rattle.waits_program.specs.Seats.{ComesBackIdle}
use Rattle.waits_program.proofs.FUNCTION.Given as goal

abbrev pub NAME : goal.NAME
NAME g l = record { can : CanAct l.store.turn.id l.seat; back : ComesBackIdle l.fn.seat l.seat }
"""

PROOFS = {
    "specs/Lib": views_program.PROOFS["specs/Lib"],
    "specs/Seats": views_program.PROOFS["specs/Seats"],
    "proofs/Lib": views_program.PROOFS["proofs/Lib"],
    "proofs/acts/blob_act/Answers": of_own(views_program.PROOFS["proofs/acts/blob_act/Answers"]),
    "proofs/Opened": views_program.PROOFS["proofs/Opened"],
    "proofs/opening/opened_on/Answers": of_own(views_program.PROOFS["proofs/opening/opened/Answers"]).replace("opening.opened", "opening.opened_on"),
    "proofs/waiting/list_on_lane/Invariants": LOOP.replace("FUNCTION", "waiting.list_on_lane").replace("NAME", "invariant-loop"),
    "proofs/finishing/finishes/Invariants": LOOP.replace("FUNCTION", "finishing.finishes").replace("NAME", "invariant-loop-number"),
    "proofs/publishing/publish/Invariants": """use Rattle.std.proofs.Common.{[]}
use Rattle.waits_program.proofs.publishing.publish.Given as goal

abbrev pub ghost-post : goal.ghost-post
ghost-post g a = []
""",
    "proofs/publishing/publish_often/Invariants": """use Rattle.std.proofs.Common.{◌≡◌, []}
use Rattle.left_right.specs.Sides.{view}
use Rattle.waits_program.proofs.publishing.publish_often.Given as goal

abbrev pub invariant-loop-half : goal.invariant-loop-half
invariant-loop-half g l = view l.poster.writer.desk.place ≡ []
""",
}
