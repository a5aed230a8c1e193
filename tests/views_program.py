"""The program that `tests/views` proves and builds: two threads, each with a seat of one datastore in memory and a view of its listing, finish
snapshots, forget them and list them, and look each time whether the view shows what it learnt. It stands here, and not in a crate, so that the
gate does not prove it.

For each argument, whatever it is, it does so on a new datastore, and prints how often it looked, how often the list was refused, and how often it
was wrong.
"""
CRATE = "views_program"
CITES = "crc_core disk_trait port_traits store_types turn_lock blob_codec wire_commands store_history core_state seat_history core_opening listing_views shared_store"

MAIN = """//! Two seats of one store finish and forget, and views look on.
#![tactic(auto)]

mod acts;
mod opening;
mod rounds;
mod sight;

use rounds::play;
use sight::Sight;
use std::process::ExitCode;
use std::sync::Wait;
use std::thread::Threads;
use std::{env, io};

fn tell<P: Print>(rt: &P, sight: &Sight) -> io::Result<()> {
    println!(rt; "looks {} refused {} wrong {}", sight.looks, sight.refused, sight.wrong)
}

fn play_all<R: Threads + Wait + Sync>(rt: HostRuntime, threads: &R) -> io::Result<()> {
    for _ in env::args(&rt)?.skip(1) {
        match play(threads, rt.alloc()) {
            Ok((one, other)) => {
                tell(&rt, &one)?;
                tell(&rt, &other)?;
            }
            Err(_) => println!(rt; "WRONG not opened")?,
        }
    }
    Ok(())
}

fn main(rt: HostRuntime) -> ExitCode {
    match play_all(rt, &rt) {
        Ok(()) => ExitCode::SUCCESS,
        Err(_) => ExitCode::from(2),
    }
}
"""

ACTS = r"""//! What a seat does to finish a snapshot and to forget it. Where there is no memory for an act, the act that tells so.

ghost use Rattle.std.specs.Prelude.{◌≡◌, ◌<◌};
ghost use Rattle.store_history.specs.Acts.{IsWellFormed, check_blob};

use blob_codec::decode;
use core_state::Act;
use crc_core::crc32;
use std::alloc::{AllocError, Global};
use store_types::{Bytes, Refusal};
use wire_commands::Command;

const HOSTS: [&str; 2] = ["a", "b"];

/// An hour's first second, since 1970.
const HOUR: u64 = 1_579_068_000;

/// When the snapshot of this number is taken.
pub fn time_of(number: u32) -> u64 {
    HOUR + u64::from(number)
}

fn snapshot_of(alloc: Global, host: usize, number: u32) -> Result<Bytes, AllocError>
    requires { host < 2 }
{
    let host = HOSTS[host];
    let (minute, second) = (number / 60, number % 60);
    let text = format!(in alloc; "host/{host}/2020-01-15T06:{minute:02}:{second:02}Z")?;
    Ok(Bytes::from_vec(text.into_bytes()))
}

/// The blob of a manifest without files.
fn manifest_of(alloc: Global, host: usize, number: u32) -> Result<Bytes, AllocError>
    requires { host < 2 }
{
    let host = HOSTS[host];
    let time = time_of(number);
    let text = format!(in alloc; "{{\"backup-id\":\"{host}\",\"backup-time\":{time},\"backup-type\":\"host\",\"files\":[]}}")?;
    let mut blob = b"B\xab8\x07\xbe\x83p\xa1".to_vec(alloc)?;
    blob.extend_from_slice(&crc32(text.as_bytes()).to_le_bytes())?;
    blob.extend_from_slice(text.as_bytes())?;
    Ok(Bytes::from_vec(blob))
}

fn check(blob: Bytes) -> Result<Bytes, Refusal>
    ensures { result ≡ check_blob blob }
{
    match decode(blob.as_slice()) {
        Ok(_) => Ok(blob),
        Err(cause) => Err(Refusal::BadBlob(cause)),
    }
}

pub fn open_act(alloc: Global, host: usize, number: u32) -> Act
    requires { host < 2 }
    ensures { IsWellFormed result }
{
    match snapshot_of(alloc, host, number) {
        Ok(snapshot) => Act::Plain(Command::OpenWriter { snapshot }),
        Err(_) => Act::Short,
    }
}

fn blob_act(name: Bytes, blob: Bytes) -> Act
    ensures { IsWellFormed result }
{
    let checked = check(blob);
    Act::Blob { name, checked }
}

pub fn manifest_act(alloc: Global, host: usize, number: u32) -> Act
    requires { host < 2 }
    ensures { IsWellFormed result }
{
    match (Bytes::from_slice(alloc, b"index.json.blob"), manifest_of(alloc, host, number)) {
        (Ok(name), Ok(blob)) => blob_act(name, blob),
        _ => Act::Short,
    }
}

pub fn forget_act(alloc: Global, host: usize, number: u32) -> Act
    requires { host < 2 }
    ensures { IsWellFormed result }
{
    match snapshot_of(alloc, host, number) {
        Ok(snapshot) => Act::Plain(Command::Forget { snapshot }),
        Err(_) => Act::Short,
    }
}

pub fn list_act(alloc: Global) -> Act
    ensures { IsWellFormed result }
{
    match Bytes::from_slice(alloc, b"") {
        Ok(after) => Act::Plain(Command::List { after }),
        Err(_) => Act::Short,
    }
}
"""

OPENING = """//! A datastore in memory.

ghost use Rattle.std.specs.Prelude.{◌≡◌, ◌≤◌, ◌^◌, false, [], IfOk};
ghost use Rattle.turn_lock.specs.State.{IsNewTurn};

use core_opening::open_on;
use disk_trait::MemoryDisk;
use port_traits::SetClock;
use shared_store::{Seat, Shared, View, WithViews};
use std::alloc::Global;
use std::marker::Brand;
use std::sync::Wait;

pub type Store = Shared<MemoryDisk, MemoryDisk, SetClock, Brand>;

pub type StoreSeat = Seat<MemoryDisk, MemoryDisk, SetClock, Brand>;

pub type StoreView<'a> = View<'a, MemoryDisk, MemoryDisk, SetClock, Brand>;

/// An empty one, its first seat, and two places for views. The error owns something, so it is moved where it is handed on: what is not would be
/// dropped there as a whole, and a store is not dropped.
pub fn opened(
    rt: &impl Wait,
    alloc: Global,
) -> Result<WithViews<MemoryDisk, MemoryDisk, SetClock, Brand>, String>
    ensures { IfOk result (λ r. IsNewTurn [] (r.0.turn, r.1)) }
{
    let clock = SetClock::new(Vec::new(alloc), 1_600_000_000);
    let disk = MemoryDisk::new(alloc);
    match open_on(alloc, disk, None::<MemoryDisk>, clock) {
        Ok(core) => match Shared::make_with_views(rt, alloc, core, 2) {
            Ok(made) => Ok(made),
            Err(_core) => Err(String::new(alloc)),
        },
        Err(_) => Err(String::new(alloc)),
    }
}

/// The store is closed, once the seats are one again and no view is left.
pub fn end(rt: &impl Wait, store: Store, seat: StoreSeat)
    requires own { seat.turn ≡ store.turn.id }
    requires idle { seat.holding ≡ false }
    requires whole { seat.reach ≡ 2 ^ 32 }
{
    drop(store.close(rt, seat));
}
"""

SIGHT = """//! What a view shows, beside what it is to show.

use listing_views::Listed;

/// What was looked at of a host's snapshots, which come one after another and go, and of another's.
#[derive(Drop)]
pub struct Sight {
    /// The first byte of the host's name.
    host: u8,
    pub looks: u64,
    pub refused: u64,
    pub wrong: u64,
    /// How many snapshots of the host there are, and when the last was taken.
    count: u64,
    last: u64,
    /// When the last one of the other host was taken that was shown.
    others: u64,
}

fn more(count: u64) -> u64 {
    count.saturating_add(1)
}

impl Sight {
    pub fn new(host: u8) -> Sight {
        Sight {
            host,
            looks: 0,
            refused: 0,
            wrong: 0,
            count: 0,
            last: 0,
            others: 0,
        }
    }

    /// So many snapshots of the host are to be shown, the last of this time.
    pub fn expect(&mut self, count: u64, last: u64) {
        self.count = count;
        self.last = last;
    }

    pub fn refuse(&mut self) {
        self.looks = more(self.looks);
        self.refused = more(self.refused);
    }

    /// A view shows these.
    pub fn take(&mut self, rows: &[Listed]) {
        let mut count = 0;
        let mut last = 0;
        let mut others = 0;
        for row in rows {
            if row.key.id.as_slice().first() == Some(&self.host) {
                count = more(count);
                last = row.key.time;
            } else {
                others = row.key.time;
            }
        }
        self.looks = more(self.looks);
        if count != self.count || last != self.last || others < self.others {
            self.wrong = more(self.wrong);
        }
        self.others = others;
    }
}
"""

ROUNDS = """//! Two seats finish and forget at once, each in a thread of its own and with a view of its own.

ghost use Rattle.std.specs.Prelude.{◌≡◌, ◌≤◌, ◌<◌, false};
ghost use denote.Param.Send.{IsSync};
ghost use Rattle.turn_lock.specs.State.{SeatState};
ghost use Rattle.shared_store.specs.Comes.{CanAct};
ghost use Rattle.views_program.specs.Seats.{ComesBackIdle};

use crate::acts::{forget_act, list_act, manifest_act, open_act, time_of};
use crate::opening::{Store, StoreSeat, StoreView, end, opened};
use crate::sight::Sight;
use core_state::Act;
use std::alloc::Global;
use std::sync::Wait;
use std::thread::{Threads, join_mut};
use wire_commands::Command;

/// How many snapshots a seat finishes, and forgets.
const ROUNDS: u32 = 1_000;

/// How often it lists in a round besides.
const LISTS: u32 = 8;

/// The view learns of the seat, and is looked at.
fn look(alloc: Global, seat: &StoreSeat, view: &mut StoreView<'_>, sight: &mut Sight)
    requires { seat.now.turn ≡ view.old.store.now.turn.id }
    ensures { view.new.store.now ≡ view.old.store.now }
{
    view.learn(seat);
    match view.list(alloc, None) {
        Ok(rows) => sight.take(rows.as_slice()),
        Err(_) => sight.refuse(),
    }
}

/// OPEN_WRITER, BLOB of a manifest, FINISH.
fn back_up<R: Wait>(
    rt: &R,
    alloc: Global,
    store: &Store,
    seat: &mut StoreSeat,
    host: usize,
    number: u32,
)
    requires can { CanAct store.now.turn.id seat.old }
    requires host { host < 2 }
    ensures { ComesBackIdle seat.old seat.new }
{
    let lane = host as u32;
    let _ = store.act(rt, alloc, seat, lane, open_act(alloc, host, number));
    let _ = store.act(rt, alloc, seat, lane, manifest_act(alloc, host, number));
    let _ = store.act(rt, alloc, seat, lane, Act::Plain(Command::Finish));
}

/// LIST, again and again, and the view beside each.
fn list_often<R: Wait>(
    rt: &R,
    alloc: Global,
    store: &Store,
    seat: &mut StoreSeat,
    host: usize,
    view: &mut StoreView<'_>,
    sight: &mut Sight,
)
    requires can { CanAct store.now.turn.id seat.old }
    requires host { host < 2 }
    requires own { seat.old.turn ≡ view.old.store.now.turn.id }
    ensures back { ComesBackIdle seat.old seat.new }
    ensures store { view.new.store.now ≡ view.old.store.now }
{
    for _ in 0..LISTS {
        let _ = store.act(rt, alloc, seat, host as u32, list_act(alloc));
        look(alloc, seat, view, sight);
    }
}

/// A seat finishes snapshots of a host, one after another, and forgets each once the next is there.
fn finish_and_forget<R: Wait>(
    rt: &R,
    alloc: Global,
    store: &Store,
    seat: &mut StoreSeat,
    host: usize,
    view: &mut StoreView<'_>,
    sight: &mut Sight,
)
    requires can { CanAct store.now.turn.id seat.old }
    requires host { host < 2 }
    requires own { seat.old.turn ≡ view.old.store.now.turn.id }
    ensures { ComesBackIdle seat.old seat.new }
{
    for number in 1..=ROUNDS {
        back_up(rt, alloc, store, seat, host, number);
        sight.expect(if number == 1 { 1 } else { 2 }, time_of(number));
        look(alloc, seat, view, sight);
        let forget = forget_act(alloc, host, number.saturating_sub(1));
        let _ = store.act(rt, alloc, seat, host as u32, forget);
        sight.expect(1, time_of(number));
        look(alloc, seat, view, sight);
        list_often(rt, alloc, store, seat, host, view, sight);
    }
}

/// Two seats do so.
fn two_finish_and_forget<R: Threads + Wait + Sync>(
    rt: &R,
    alloc: Global,
    store: &Store,
    seat: &mut StoreSeat,
    views: &mut (StoreView<'_>, StoreView<'_>),
    sights: &mut (Sight, Sight),
)
    requires can { CanAct store.now.turn.id seat.old }
    requires reach { 2 ≤ seat.old.reach }
    requires own { (seat.old.turn ≡ views.old.0.store.now.turn.id)
        × (seat.old.turn ≡ views.old.1.store.now.turn.id) }
    ensures { ComesBackIdle seat.old seat.new }
{
    let (one, other) = views;
    let (one_sight, other_sight) = sights;
    let mut right = store.split_off(seat);
    let ((), ()) = join_mut(
        rt,
        &mut || -> ()
            requires { CanAct store.now.turn.id seat.now × IsSync R.row
                × (seat.now.turn ≡ one.now.store.now.turn.id) }
            ensures { ComesBackIdle seat.entry.now seat.exit.now }
        { finish_and_forget(rt, alloc, store, seat, 0, one, one_sight) },
        &mut || -> ()
            requires { CanAct store.now.turn.id right × IsSync R.row
                × (right.turn ≡ other.now.store.now.turn.id) }
            ensures { ComesBackIdle right.entry right.exit }
        { finish_and_forget(rt, alloc, store, &mut right, 1, other, other_sight) },
    );
    store.absorb(seat, right);
}

/// They do so on a new datastore. What either saw.
pub fn play<R: Threads + Wait + Sync>(rt: &R, alloc: Global) -> Result<(Sight, Sight), String> {
    let (store, mut seat, mut places) = opened(rt, alloc)?;
    let mut sights = (Sight::new(b'a'), Sight::new(b'b'));
    if let (Some(one), Some(other)) = (places.pop(), places.pop()) {
        let mut views = (one.view(&store), other.view(&store));
        two_finish_and_forget(rt, alloc, &store, &mut seat, &mut views, &mut sights);
    }
    end(rt, store, seat);
    Ok(sights)
}
"""

FILES = {"main": MAIN, "acts": ACTS, "opening": OPENING, "rounds": ROUNDS, "sight": SIGHT}

# What the proofs cite, and what is written of them, by their places in the crate.
PROOFS = {
    "specs/Lib": "pub mod Seats\n",
    "specs/Seats": """-- Seats that threads hand on.
use Rattle.std.specs.Prelude.{◌≡◌, false}
use Rattle.turn_lock.specs.State.{SeatState}

-- the seat has no turn, and its reach is as it was
abbrev pub ComesBackIdle : {E : Type 0} → SeatState E → SeatState E → Type 0
ComesBackIdle old new = (new.turn ≡ old.turn) × (new.holding ≡ false) × (new.reach ≡ old.reach)
""",
    "proofs/Lib": "pub mod Opened\n",
    "proofs/acts/blob_act/Answers": """use Rattle.std.proofs.Common.{subst, sym}
use Rattle.store_history.specs.Acts.{IsChecked}
use Rattle.store_history.proofs.Ending.{is_checked}
use Rattle.views_program.proofs.acts.blob_act.Goals as goal

pub returns : goal.returns
returns c = subst IsChecked (sym c.check-checked.ensures) (is_checked c.args.blob)
""",
    "proofs/Opened": """-- A core that was opened is one with which a run begins.
use Rattle.std.proofs.Common.{[], None, refl}
use Rattle.port_traits.specs.declared.clock.Clock as clocks
use Rattle.store_history.specs.History.{Opening}
use Rattle.core_state.specs.declared.state.Core.{Core}
use Rattle.core_state.specs.History.{began}
use Rattle.core_opening.specs.Opening.{RecordsOpened}
use Rattle.shared_store.specs.Comes.{IsFresh}

pub opened_fresh : {D E C : Type 0} (clock : clocks.Ghosts C) (at : C) (core : Core D E C) → RecordsOpened clock.readings at core → IsFresh clock core
opened_fresh clock at core opened =
    let o : Opening = record { snapshots = []; moment = core.last; touches = []; calls = 0; chunks = [] } in
    record { began = began o None (clock.readings at); recorded = opened o None refl; none = refl }
""",
    "proofs/opening/opened/Answers": """use Rattle.std.proofs.Common.{rules}
use Rattle.views_program.proofs.Opened.{opened_fresh}
use Rattle.views_program.proofs.opening.opened.Goals as goal

pub make_with_views-requires : goal.make_with_views-requires
make_with_views-requires g c = record { origin = tt; fresh = opened_fresh _ c.new-clock.result _ c.in-Ok.ensures.records; views = search rules }
""",
    "proofs/rounds/list_often/Invariants": """use Rattle.std.proofs.Common.{◌≡◌}
use Rattle.shared_store.specs.Comes.{CanAct}
use Rattle.views_program.specs.Seats.{ComesBackIdle}
use Rattle.views_program.proofs.rounds.list_often.Given as goal

abbrev pub invariant-loop : goal.invariant-loop
invariant-loop g l = record {
  can : CanAct l.store.turn.id l.seat;
  back : ComesBackIdle l.fn.seat l.seat;
  own : l.seat.turn ≡ l.view.store.now.turn.id;
  store : l.view.store.now ≡ l.fn.view.store.now;
}
""",
    "proofs/rounds/finish_and_forget/Invariants": """use Rattle.std.proofs.Common.{◌≡◌}
use Rattle.shared_store.specs.Comes.{CanAct}
use Rattle.views_program.specs.Seats.{ComesBackIdle}
use Rattle.views_program.proofs.rounds.finish_and_forget.Given as goal

abbrev pub invariant-loop-number : goal.invariant-loop-number
invariant-loop-number g l = record {
  can : CanAct l.store.turn.id l.seat;
  back : ComesBackIdle l.fn.seat l.seat;
  own : l.seat.turn ≡ l.view.store.now.turn.id;
}
""",
}
