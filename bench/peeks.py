#!/usr/bin/env python3
"""How long a pick by a kept delegation takes, of a service with eight replicas, for one to four
threads, with and without a thread that makes about 1,000 changes of another namespace a second; in
a small router, and in one with 4,096 services, 8,192 addresses and a table of 1,024 entries. Beside
it the same look-up in plain Rust, maps behind a lock, where rustc is there. How long changes take
in the large router: of a service's addresses, and of one of the table's entries. And how long
reports take that change nothing: of a success, which takes no lock, and of a failure on an address
that no service has, which takes it.

It wants the toolchain's command rt, by which it proves, builds and runs a small program over the
router and all crates below it, which takes long where these were not built before. Times are
processor times, each the least of several rounds.

usage: bench/peeks.py
"""
import os, shutil, statistics, subprocess, tempfile

from over_crates import output_of

HERE = os.path.dirname(os.path.abspath(__file__))

PROGRAM = r"""//! Times picks by what is kept, reports and changes.
#![tactic(auto)]

ghost use Rattle.std.specs.Prelude.{◌≡◌, ◌<◌, Some, IfSome};
ghost use Rattle.machine.specs.Code.{change_of};
ghost use Rattle.machine.specs.State.{IsSoundChange};
ghost use Rattle.router.specs.Opening.{IsNamedBy, beginning_of};

use addr_book::{Addr, Name, read_addrs};
use choose_core::Limits;
use dtab_table::{Dtab, read_dtab};
use step_count::Steps;
use machine::{Ask, Change, Settings};
use name_tree::read_path;
use router::{Answer, Names, Naming, Opened, Pass, Peek, Router, open};
use std::alloc::Global;
use std::marker::Brand;
use std::process::Abort;
use std::rt::Clock;
use std::sync::Wait;
use std::sync::atomic::{AtomicU32, AtomicU64, Ordering};
use std::sync::ledger::{Blank, Ledger};
use std::thread::Threads;
use std::time::{CpuClock, Duration, Instant};
use std::{io, thread};

/// How many picks, or reports, a thread makes in a round.
const TURNS: u32 = 100_000;

/// How many rounds there are of each kind.
const ROUNDS: u32 = 5;

/// How many passes there are. Those at even places are used, so that no two threads share a line
/// of the processor's cache.
const PASSES: u32 = 10;

/// The place of the pass that writes.
const WRITER: usize = 8;

fn name(alloc: Global, text: &str) -> Option<Name> {
    Name::of(alloc, text.as_bytes()).ok()
}

fn settings(alloc: Global) -> Option<Settings> {
    Some(Settings {
        space: name(alloc, "default")?,
        base: Dtab::empty(alloc),
        limits: Limits {
            failures: 5,
            backoff: 5000,
        },
    })
}

/// An ask for `/svc/web`, whose words draw the first and the fifth of eight replicas.
fn ask(alloc: Global) -> Option<Ask> {
    Some(Ask {
        path: read_path(alloc, b"/svc/web").ok()?,
        local: Dtab::empty(alloc),
        moment: 0,
        words: [0, 0, 1 << 63],
    })
}

/// A table for a namespace.
fn put(alloc: Global, space: &str, table: &str) -> Option<Change>
    ensures { IfSome result (λ change. IsSoundChange (change_of change)) }
{
    let dtab = read_dtab(alloc, table.as_bytes()).ok()?;
    Some(Change::Put {
        name: name(alloc, space)?,
        version: None,
        dtab,
    })
}

/// A new namespace with no entries.
fn create(alloc: Global, space: &str) -> Option<Change>
    ensures { IfSome result (λ change. IsSoundChange (change_of change)) }
{
    let dtab = read_dtab(alloc, b"").ok()?;
    Some(Change::Create {
        name: name(alloc, space)?,
        dtab,
    })
}

/// Addresses for a service.
fn set(alloc: Global, service: &str, addrs: &str) -> Option<Change>
    ensures { IfSome result (λ change. IsSoundChange (change_of change)) }
{
    let list = read_addrs(alloc, addrs.as_bytes()).ok()?;
    Some(Change::SetAddrs {
        service: name(alloc, service)?,
        list,
    })
}

/// The service of this number, with two addresses, or one where it is among the last.
fn service(alloc: Global, at: u32, moved: u32) -> Option<Change>
    ensures { IfSome result (λ change. IsSoundChange (change_of change)) }
{
    let one = format!(in alloc;
        "10.0.{}.{} {}\n",
        at / 256 % 256,
        at % 256,
        1 + moved % 1000
    )
    .ok()?;
    let other = format!(in alloc; "10.1.{}.{} 1\n", at / 256 % 256, at % 256).ok()?;
    let mut addrs = one;
    if at < 4089 {
        addrs.push_str(other.as_str()).ok()?;
    }
    set(
        alloc,
        format!(in alloc; "s{at}").ok()?.as_str(),
        addrs.as_str(),
    )
}

/// A table with so many entries beside the one that the picks use; the first of them has this
/// number in it.
fn table(alloc: Global, entries: u32, turn: u32) -> Option<Change>
    ensures { IfSome result (λ change. IsSoundChange (change_of change)) }
{
    let mut text = String::new(alloc);
    for at in 0..entries {
        let said = if at == 0 { turn } else { 0 };
        text.push_str(format!(in alloc; "/t{at} => /a{said};").ok()?.as_str())
            .ok()?;
    }
    text.push_str("/svc => /#/io.l5d.fs").ok()?;
    put(alloc, "default", text.as_str())
}

/// Makes a change, and gives the processor time that it took, in nanoseconds.
fn timed<J: Naming, R: Wait + CpuClock>(
    rt: &R,
    alloc: Global,
    router: &Router<J>,
    pass: &mut Pass<J>,
    change: Change,
) -> Option<u128>
    requires { IsSoundChange (change_of change) }
{
    let start = rt.thread_cpu_time().ok()?;
    let _reply = router.change(rt, alloc, pass, change).ok()?;
    Some(rt.thread_cpu_time().ok()?.saturating_sub(start).as_nanos())
}

/// Makes the namespaces and the service with eight replicas.
fn fill<J: Naming, R: Wait + CpuClock>(
    rt: &R,
    alloc: Global,
    router: &Router<J>,
    pass: &mut Pass<J>,
) -> Option<()> {
    timed(rt, alloc, router, pass, create(alloc, "default")?)?;
    timed(rt, alloc, router, pass, create(alloc, "other")?)?;
    timed(rt, alloc, router, pass, table(alloc, 0, 0)?)?;
    let web =
        "10.2.0.1 1\n10.2.0.2 1\n10.2.0.3 1\n10.2.0.4 1\n10.2.0.5 1\n10.2.0.6 1\n10.2.0.7 1\n10.2.0.8 1\n";
    timed(rt, alloc, router, pass, set(alloc, "web", web)?)?;
    Some(())
}

/// Makes the other services, and the other entries of the table.
fn grow<J: Naming, R: Wait + CpuClock>(
    rt: &R,
    alloc: Global,
    router: &Router<J>,
    pass: &mut Pass<J>,
    services: u32,
    entries: u32,
) -> Option<()> {
    timed(rt, alloc, router, pass, table(alloc, entries, 0)?)?;
    for at in 0..services {
        timed(rt, alloc, router, pass, service(alloc, at, 0)?)?;
    }
    Some(())
}

/// Has the delegation of the picks' path kept.
fn keep<J: Naming, L: Ledger, R: Wait>(
    rt: &R,
    alloc: Global,
    router: &Router<J>,
    pass: &mut Pass<J>,
    blank: Blank,
) -> Option<()>
    requires { (blank.name ≡ L.name) × (blank.parts ≡ L.parts) × (0 < blank.parts) }
{
    let mut steps = Steps::<L>::start(blank);
    if let Answer::Picked { fresh, .. } = router.pick(alloc, pass, &ask(alloc)?, &mut steps).ok()?
        && let Some(binding) = fresh
    {
        router.remember(rt, alloc, pass, binding).ok()?;
    }
    Some(())
}

/// A round of picks: how many threads pick, whether another one writes, how many threads still
/// pick, and what they count.
#[derive(Drop)]
struct Picking {
    pickers: u32,
    writes: bool,
    left: AtomicU32,
    hits: AtomicU64,
    nanos: AtomicU64,
    changes: AtomicU32,
}

/// Picks so many times: adds the hits, and the processor time.
fn pick_all<J: Naming, R: CpuClock>(
    rt: &R,
    alloc: Global,
    router: &Router<J>,
    pass: &mut Pass<J>,
    round: &Picking,
) -> Option<()> {
    let ask = ask(alloc)?;
    let mut names = Names::room(alloc).ok()?;
    let mut found = 0u32;
    let start = rt.thread_cpu_time().ok()?;
    for _turn in 0..TURNS {
        if let Peek::Hit(_) = router.peek(pass, &ask, &mut names) {
            found = found.wrapping_add(1);
        }
    }
    let took = rt.thread_cpu_time().ok()?.saturating_sub(start).as_nanos();
    let _ = round.nanos.fetch_add(u64::try_from(took).ok()?, Ordering::SeqCst);
    let _ = round.hits.fetch_add(u64::from(found), Ordering::SeqCst);
    Some(())
}

/// Makes a change of another namespace about a thousand times a second, while threads pick.
fn write_all<J: Naming, R: Wait + Clock>(
    rt: &R,
    alloc: Global,
    router: &Router<J>,
    pass: &mut Pass<J>,
    round: &Picking,
) -> Option<()> {
    for _turn in 0..u64::MAX {
        if round.left.load(Ordering::SeqCst) == 0 {
            break;
        }
        let change = put(alloc, "other", "/x => /y")?;
        let _reply = router.change(rt, alloc, pass, change).ok()?;
        let _ = round.changes.fetch_add(1, Ordering::SeqCst);
        thread::sleep(rt, Duration::from_micros(900));
    }
    Some(())
}

/// What the thread with the pass at a place does in a round of picks.
fn pick_or_write<J: Naming, R: Wait + Clock + CpuClock>(
    rt: &R,
    alloc: Global,
    router: &Router<J>,
    at: usize,
    pass: &mut Pass<J>,
    round: &Picking,
) {
    if at == WRITER && round.writes {
        let _ = write_all(rt, alloc, router, pass, round);
    }
    if at % 2 == 0 && at / 2 < round.pickers as usize {
        let _ = pick_all(rt, alloc, router, pass, round);
        let _ = round.left.fetch_sub(1, Ordering::SeqCst);
    }
}

/// So many threads pick, and one writes, or none does: prints what they did.
fn pick_round<J: Naming + Send + Sync, R: Wait + Threads + Clock + CpuClock + Print + Sync>(
    rt: &R,
    alloc: Global,
    router: &Router<J>,
    passes: &mut [Pass<J>],
    pickers: u32,
    writes: bool,
    services: u32,
) -> io::Result<()> {
    let round = Picking {
        pickers,
        writes,
        left: AtomicU32::new(pickers),
        hits: AtomicU64::new(0),
        nanos: AtomicU64::new(0),
        changes: AtomicU32::new(0),
    };
    thread::for_each_mut(
        rt,
        passes,
        PASSES as usize,
        &|at, pass| pick_or_write(rt, alloc, router, at, pass, &round),
    );
    let hits = round.hits.load(Ordering::SeqCst);
    let nanos = round.nanos.load(Ordering::SeqCst);
    let changes = round.changes.load(Ordering::SeqCst);
    println!(rt; "peeks: peek,{services},{pickers},{changes},{hits},{nanos}")
}

/// A round of reports: how many threads report, whether successes, and how long they take.
#[derive(Drop)]
struct Reporting {
    reporters: u32,
    good: bool,
    nanos: AtomicU64,
}

/// Reports so many times on an address: adds the processor time. One of no service has port 0.
fn report_all<J: Naming, R: Wait + CpuClock>(
    rt: &R,
    alloc: Global,
    router: &Router<J>,
    pass: &mut Pass<J>,
    round: &Reporting,
) -> Option<()> {
    let good = round.good;
    let addr = Addr {
        ip: 0x0a02_0001,
        port: u16::from(good),
    };
    let start = rt.thread_cpu_time().ok()?;
    for _turn in 0..TURNS {
        let change = Change::Report {
            addr,
            good,
            moment: 0,
        };
        let _reply = router.change(rt, alloc, pass, change).ok()?;
    }
    let took = rt.thread_cpu_time().ok()?.saturating_sub(start).as_nanos();
    let _ = round.nanos.fetch_add(u64::try_from(took).ok()?, Ordering::SeqCst);
    Some(())
}

/// What the thread with the pass at a place does in a round of reports.
fn report_or_rest<J: Naming, R: Wait + CpuClock>(
    rt: &R,
    alloc: Global,
    router: &Router<J>,
    at: usize,
    pass: &mut Pass<J>,
    round: &Reporting,
) {
    if at % 2 == 0 && at / 2 < round.reporters as usize {
        let _ = report_all(rt, alloc, router, pass, round);
    }
}

/// So many threads report successes, which change nothing, or failures of an address that no
/// service has: prints how long they took.
fn report_round<J: Naming + Send + Sync, R: Wait + Threads + Clock + CpuClock + Print + Sync>(
    rt: &R,
    alloc: Global,
    router: &Router<J>,
    passes: &mut [Pass<J>],
    reporters: u32,
    good: bool,
) -> io::Result<()> {
    let round = Reporting {
        reporters,
        good,
        nanos: AtomicU64::new(0),
    };
    let start = Instant::now(rt)?;
    thread::for_each_mut(
        rt,
        passes,
        PASSES as usize,
        &|at, pass| report_or_rest(rt, alloc, router, at, pass, &round),
    );
    let wall = start.elapsed(rt)?.as_nanos();
    let nanos = round.nanos.load(Ordering::SeqCst);
    println!(rt; "peeks: report,{good},{reporters},{TURNS},{nanos},{wall}")
}

/// One to four threads pick, first without a writer and then beside one.
fn time_picks<J: Naming + Send + Sync, R: Wait + Threads + Clock + CpuClock + Print + Sync>(
    rt: &R,
    alloc: Global,
    router: &Router<J>,
    passes: &mut [Pass<J>],
    services: u32,
) -> Option<()> {
    for writes in [false, true] {
        for pickers in 1..5u32 {
            for _round in 0..ROUNDS {
                pick_round(rt, alloc, router, passes, pickers, writes, services).ok()?;
            }
        }
    }
    Some(())
}

/// One to four threads report.
fn time_reports<J: Naming + Send + Sync, R: Wait + Threads + Clock + CpuClock + Print + Sync>(
    rt: &R,
    alloc: Global,
    router: &Router<J>,
    passes: &mut [Pass<J>],
) -> Option<()> {
    for good in [true, false] {
        for reporters in 1..5u32 {
            for _round in 0..ROUNDS {
                report_round(rt, alloc, router, passes, reporters, good).ok()?;
            }
        }
    }
    Some(())
}

/// How long changes take: of a service, and of one entry of the table.
fn time_changes<J: Naming, R: Wait + CpuClock + Print>(
    rt: &R,
    alloc: Global,
    router: &Router<J>,
    pass: &mut Pass<J>,
    services: u32,
    entries: u32,
) -> Option<()> {
    for turn in 1..51u32 {
        let change = service(alloc, services / 2, turn)?;
        let service = timed(rt, alloc, router, pass, change)?;
        let change = table(alloc, entries, turn)?;
        let table = timed(rt, alloc, router, pass, change)?;
        println!(rt; "peeks: change,{service},{table}").ok()?;
    }
    Some(())
}

/// Measures a small router, and the same one when it is large.
fn measure<J: Naming + Send + Sync, R: Wait + Threads + Clock + CpuClock + Print + Sync>(
    rt: &R,
    alloc: Global,
    router: &Router<J>,
    passes: &mut [Pass<J>],
) -> Option<()> {
    let (services, entries) = (4095, 1023);
    fill(rt, alloc, router, passes.last_mut()?)?;
    keep::<J, Brand, R>(rt, alloc, router, passes.last_mut()?, Blank::new(1))?;
    time_picks(rt, alloc, router, passes, 0)?;
    time_reports(rt, alloc, router, passes)?;
    grow(rt, alloc, router, passes.last_mut()?, services, entries)?;
    time_picks(rt, alloc, router, passes, services)?;
    time_changes(rt, alloc, router, passes.last_mut()?, services, entries)
}

/// Measures a new router, and ends the process: the router is not ended, which would want all
/// passes back.
fn measured<J: Naming + Send + Sync, R: Wait + Threads + Clock + CpuClock + Print + Abort + Sync>(
    rt: &R,
    alloc: Global,
    opened: Opened,
) -> Option<()>
    requires named { IsNamedBy (beginning_of opened) J.Naming.own J.Ledger.own }
{
    let (router, mut passes) = opened.named::<J, R>(rt, alloc).ok()?;
    let status = match measure(rt, alloc, &router, passes.as_mut_slice()) {
        Some(()) => 0,
        None => 1,
    };
    rt.exit(status)
}

fn run<R: Wait + Threads + Clock + CpuClock + Print + Abort + Sync>(
    rt: &R,
    alloc: Global,
) -> Option<()> {
    let opened = open(rt, alloc, settings(alloc)?, PASSES).ok()?;
    measured::<Brand, R>(rt, alloc, opened)
}

fn main(rt: HostRuntime) -> io::Result<()> {
    match run(&rt, rt.alloc()) {
        Some(()) => Ok(()),
        None => println!(rt; "peeks: no memory"),
    }
}
"""

PROOFS = {
    "proofs/run/Invariants.antt": """use Rattle.router.specs.Opening.{beginning_of, naming_of, ledger_of}
use Rattle.peeks.proofs.run.Given as goal

-- the router that was just opened
abbrev pub ghosts-measured-J-Naming : goal.ghosts-measured-J-Naming
ghosts-measured-J-Naming g a = naming_of (beginning_of a.opened)

abbrev pub ghosts-measured-J-Ledger : goal.ghosts-measured-J-Ledger
ghosts-measured-J-Ledger g a = ledger_of (beginning_of a.opened)
""",
    "proofs/measure/Invariants.antt": """use Rattle.peeks.proofs.measure.Given as goal

-- a count of steps of its own
abbrev pub ghosts-keep : goal.ghosts-keep
ghosts-keep g a = record { name = a.blank.name; parts = a.blank.parts }
""",
}

CROSSING = """use mathlib.Core.List.{[], ◌∷◌}
use mir.Syntax.{Sym}
use denote.Exit.{no}
use denote.RattleType.{RattleType}
use denote.Param.Send.{IsSync, arg_send, arg_sync, param_send, param_sync, shr_sync, sendable}
use denote.Param.SendFields.{as_row_sync, declared_sync}
use denote.Struct.Field.{row_field}
use denote.Struct.Tuple.{TupleAt, type_at}
use Rattle.std.proofs.Crossing.{crosses}
use Rattle.std.specs.contracts.alloc.Global as Heap
use Rattle.router.proofs.Crossing.{pass_send, router_sync}
use Rattle.peeks.proofs.SHARED.TheSendSync as shared
use Rattle.peeks.proofs.ROUND.Goals as goal

heap_sync : IsSync Heap.the_row
heap_sync = search (sendable, crosses) depth 20

-- a closure may be shared that captures four things which may
four_sync : (ν : Sym) (A B C D : RattleType) → IsSync A → IsSync B → IsSync C → IsSync D → IsSync (TupleAt ν (A ∷ B ∷ C ∷ D ∷ []))
four_sync ν A B C D a b c d =
    declared_sync (type_at ν (A ∷ B ∷ C ∷ D ∷ [])) (as_row_sync (row_field A) a, (as_row_sync (row_field B) b, (as_row_sync (row_field C) c, (as_row_sync (row_field D) d, tt))))

pub for_each_mut-requires-send-T : goal.for_each_mut-requires-send-T
for_each_mut-requires-send-T g c κs within = param_send 1 _ (arg_send _ no _ (pass_send _ g.J.Naming g.J.Ledger c.type_bounds.send-J))

pub for_each_mut-requires-sync-F : goal.for_each_mut-requires-sync-F
for_each_mut-requires-sync-F g c κs within =
    param_sync 2 _ (arg_sync _ no _ (four_sync _ _ _ _ _
      (shr_sync _ _ _ c.type_bounds.sync-R)
      (shr_sync _ _ _ heap_sync)
      (shr_sync _ _ _ (router_sync _ g.J.Naming g.J.Ledger c.type_bounds.send-J))
      (shr_sync _ _ _ shared.the_sync)))
"""

for ROUND, SHARED in [("pick_round", "Picking"), ("report_round", "Reporting")]:
    PROOFS[f"proofs/{ROUND}/Answers.antt"] = CROSSING.replace("ROUND", ROUND).replace(
        "SHARED", SHARED
    )

LIBRARIES = """
step_count name_tree dtab_table addr_book ns_store choose_core bind_core machine bind_cache
one_history router_log load_words snap_cell router logbook left_right crossbeam_utils
atomic_table
"""


def tell(who, lines):
    picks, reports, services, tables = {}, {}, [], []
    for line in lines.splitlines():
        match line.removeprefix("peeks: ").split(","):
            case ["peek", others, threads, changes, hits, took]:
                size = "large" if int(others) > 0 else "small"
                beside = "beside a writer" if int(changes) > 0 else "no writer"
                picks.setdefault((size, beside, int(threads)), []).append(
                    int(took) / max(int(hits), 1)
                )
            case ["report", good, threads, turns, took, wall]:
                what = (
                    "a success, which changes nothing"
                    if good == "true"
                    else "a failure of no service's address"
                )
                reports.setdefault((what, int(threads)), []).append(
                    (
                        int(took) / int(turns) / int(threads),
                        int(turns) * int(threads) / int(wall) * 1000,
                    )
                )
            case ["change", service, table]:
                services.append(int(service) / 1000)
                tables.append(int(table) / 1000)
    for (size, beside, threads), took in picks.items():
        print(
            f"{who}, {size}, {beside}, {threads} threads: {min(took):.0f} ns a pick, "
            f"middle {statistics.median(took):.0f}"
        )
    for (what, threads), took in reports.items():
        least, middle, most = (
            min(t[0] for t in took),
            statistics.median(t[0] for t in took),
            max(t[1] for t in took),
        )
        print(
            f"{who}, a report of {what}, {threads} threads: {least:.0f} ns, middle {middle:.0f}; "
            f"at most {most:.2f} million a second together"
        )
    for what, took in [("a service's addresses", services), ("an entry of the table", tables)]:
        if took:
            print(
                f"{who}, large, a change of {what}: {min(took):.0f} us, "
                f"middle {statistics.median(took):.0f}"
            )


def main():
    tell("router", output_of("peeks", PROGRAM, LIBRARIES.split(), PROOFS))
    if shutil.which("rustc"):
        with tempfile.TemporaryDirectory() as work:
            program = os.path.join(work, "peeks_beside")
            subprocess.run(
                ["rustc", "-O", "-o", program, os.path.join(HERE, "peeks_beside.rs")], check=True
            )
            tell(
                "plain maps behind a lock",
                subprocess.run([program], check=True, capture_output=True, text=True).stdout,
            )


if __name__ == "__main__":
    main()
