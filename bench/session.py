#!/usr/bin/env python3
"""How long the router's own work on one request takes: a GET with eight header fields whose
delegation is kept, one whose delegation has to be worked out, and a POST of 100 KB; and how many
bytes the room of a server holds.

The two ends are in memory: the client gives one request a read, and the upstream its reply in one
receive. It wants the toolchain's command rt, by which it proves, builds and runs a small program
over the crates of sessions.

usage: bench/session.py
"""
from over_crates import output_of

PROGRAM = r"""//! Times sessions.
#![tactic(auto)]

ghost use Rattle.std.specs.Prelude.{◌≡◌, ◌≤◌, [], length, false, None, Some, List, ℕ, Option};
ghost use Rattle.machine.specs.Code.{change_of};
ghost use Rattle.machine.specs.State.{IsSoundChange};
ghost use Rattle.router.specs.Opening.{IsNamedBy, beginning_of};

use addr_book::{AddrList, Name, read_addrs};
use choose_core::Limits;
use dtab_table::read_dtab;
use exchange_record::NoRecorder;
use http_wire::FieldName;
use identifier::{Kind, Rule};
use line_base::{Dialer, Failed, Gate, Next, Peer, SocketAddress};
use line_doubles::MemClock;
use machine::{Change, Settings};
use name_tree::read_path;
use proxy_session::{Connection, Context, Parts, Room, Server};
use rand_core::SeedableRng;
use rand_pcg::Pcg64;
use router::{Naming, Opened, Pass, Router, open};
use std::alloc::{AllocError, Global};
use std::marker::Brand;
use std::process::Abort;
use std::rt::Runtime;
use std::sync::Wait;
use std::time::Instant;
use std::{fs, io};

/// The requests of a session.
const REQUESTS: u32 = 9_999;

/// The head of a GET. The host's four digits differ from one to the next where its delegation is
/// to be worked out.
const GET: &str = "GET /path/to/page?query=1 HTTP/1.1\r\nHost: h0000\r\nUser-Agent: curl/8.5.0\r\nAccept: */*\r\nAccept-Encoding: gzip, br\r\nAccept-Language: en\r\nCookie: session=0123456789abcdef\r\nReferer: http://example.org/\r\nX-Request-Id: 0123456789abcdef\r\n\r\n";

/// Where the digits stand in it.
const DIGITS: usize = 43;

/// The head of a POST.
const POST: &str = "POST /path HTTP/1.1\r\nHost: h0000\r\nContent-Length: 102400\r\n\r\n";

const REPLY: &str = "HTTP/1.1 200 OK\r\nContent-Type: text/plain\r\nContent-Length: 13\r\nServer: test\r\n\r\nhello, world\n";

/// What is timed.
#[derive(Clone, Copy)]
enum Case {
    Kept,
    WorkedOut,
    Body,
}

/// A client: it gives a request so many times, one a read, and looks at what it is given.
#[derive(Drop)]
struct Client {
    request: Vec<u8>,
    at: usize,
    times: u32,
    varies: bool,
    seen: u64,
    ends: u64,
}

/// Puts the number of a request into its host.
fn vary(request: &mut Vec<u8>, times: u32) {
    let mut number = times;
    for place in 0..4usize {
        let digit = (number % 10) as u8;
        number /= 10;
        if let Some(byte) = request.get_mut(DIGITS + 3 - place) {
            *byte = b'0' + digit;
        }
    }
}

impl Client {
    /// Gives some bytes. 0 is the end, where there is room.
    fn give(&mut self, into: &mut [u8]) -> usize
        ensures within { result ≤ length into.new }
        ensures others { self.new.ends ≡ self.old.ends }
    {
        if self.at >= self.request.len() && self.times > 0 {
            self.times -= 1;
            self.at = 0;
            if self.varies {
                vary(&mut self.request, self.times);
            }
        }
        let start = self.at.min(self.request.len());
        let count = (self.request.len() - start).min(into.len());
        into[..count].copy_from_slice(&self.request.as_slice()[start..start + count]);
        self.at = start + count;
        count
    }
}

impl Peer for Client {
    ghost line = { λ c. record {
      left = None;
      given = None;
      read_faults = 0;
      write_faults = 0;
      ends = c.ends;
      closings = 0;
      quiets = 0;
    } };

    ghost address = { λ c. None };

    fn address(&self) -> Option<SocketAddress> {
        None
    }

    fn read(&mut self, into: &mut [u8]) -> Result<usize, Failed> {
        let count = self.give(into);
        if count == 0 && !into.is_empty() {
            self.ends = self.ends.saturating_add(1);
        }
        Ok(count)
    }

    fn read_next(&mut self, into: &mut [u8]) -> Result<Next, Failed> {
        match self.read(into) {
            Ok(0) => Ok(Next::End),
            Ok(count) => Ok(Next::Bytes(count)),
            Err(failed) => Err(failed),
        }
    }

    fn is_closing(&mut self) -> bool {
        false
    }

    fn write(&mut self, bytes: &[u8]) -> Result<usize, Failed> {
        self.seen = self.seen.wrapping_add(bytes.len() as u64);
        Ok(bytes.len())
    }
}

/// An upstream, which gives its reply in one receive.
#[derive(Drop)]
struct Upstream {
    reply: Vec<u8>,
    at: usize,
    seen: u64,
    open_to: Option<(u32, u16)>,
}

impl Upstream {
    fn give(&mut self, into: &mut [u8]) -> usize
        ensures within { result ≤ length into.new }
        ensures others { self.new.open_to ≡ self.old.open_to }
    {
        let start = self.at.min(self.reply.len());
        let count = (self.reply.len() - start).min(into.len());
        into[..count].copy_from_slice(&self.reply.as_slice()[start..start + count]);
        self.at = start + count;
        count
    }
}

impl Dialer for Upstream {
    ghost upstream = { λ u. record {
      log = None;
      left = None;
      open_to = u.open_to;
      kept = [];
      keeps = false;
      late = false;
      faults = 0;
    } };

    fn keeps(&self) -> bool {
        false
    }

    fn is_late(&self) -> bool {
        false
    }

    fn dial(&mut self, ip: u32, port: u16) -> Result<(), Failed> {
        self.open_to = Some((ip, port));
        self.at = 0;
        Ok(())
    }

    fn resume(&mut self, _ip: u32, _port: u16) -> bool {
        self.open_to = None;
        false
    }

    fn send(&mut self, bytes: &[u8]) -> Result<usize, Failed> {
        self.seen = self.seen.wrapping_add(bytes.len() as u64);
        Ok(bytes.len())
    }

    fn recv(&mut self, into: &mut [u8]) -> Result<usize, Failed> {
        Ok(self.give(into))
    }

    fn hang(&mut self) {
        self.open_to = None;
    }

    fn keep(&mut self) {
        self.open_to = None;
    }

    fn end_idle(&mut self) {}
}

/// A gate that nobody asks.
struct Free;

impl Gate for Free {
    fn begin(&self, _worker: u32) {}

    fn done(&self, _worker: u32) {}
}

/// All that a router is made of.
#[derive(Drop)]
struct Made {
    settings: Settings,
    service: Name,
    list: AddrList,
    rule: Rule,
}

/// A router whose every host is the service `web`, with two addresses.
fn make_parts(alloc: Global) -> Result<Option<Made>, AllocError> {
    let (Ok(space), Ok(service)) = (Name::of(alloc, b"default"), Name::of(alloc, b"web")) else {
        return Ok(None);
    };
    let (Ok(base), Ok(list)) = (
        read_dtab(alloc, b"/svc/* => /#/io.l5d.fs/web"),
        read_addrs(alloc, b"127.0.0.1 9001\n127.0.0.1 9002\n"),
    ) else {
        return Ok(None);
    };
    let Ok(prefix) = read_path(alloc, b"/svc") else {
        return Ok(None);
    };
    Ok(Some(Made {
        settings: Settings {
            space,
            base,
            limits: Limits {
                failures: 5,
                backoff: 5000,
            },
        },
        service,
        list,
        rule: Rule {
            kind: Kind::Token(FieldName::of(Vec::from_slice(alloc, b"Host")?)),
            prefix,
            clears_context: false,
        },
    }))
}

impl Case {
    /// How many requests a session of it has.
    fn requests(self) -> u32 {
        match self {
            Case::Kept | Case::WorkedOut => REQUESTS,
            Case::Body => 999,
        }
    }

    fn name(self) -> &'static str {
        match self {
            Case::Kept => "kept",
            Case::WorkedOut => "worked-out",
            Case::Body => "body",
        }
    }

    fn client(self, alloc: Global) -> Result<Client, AllocError> {
        let mut request = Vec::new(alloc);
        match self {
            Case::Kept | Case::WorkedOut => request.extend_from_slice(GET.as_bytes())?,
            Case::Body => {
                request.extend_from_slice(POST.as_bytes())?;
                request.append(&mut Vec::from_elem(alloc, b'x', 102400)?)?;
            }
        }
        let at = request.len();
        Ok(Client {
            request,
            at,
            times: self.requests(),
            varies: matches!(self, Case::WorkedOut),
            seen: 0,
            ends: 0,
        })
    }
}

/// Serves one client over this pass, and writes how long each of its requests took.
fn time<J: Naming, R: Runtime + Wait>(
    context: &Context<'_, J, R>,
    pass: Pass<J>,
    case: Case,
) -> io::Result<Pass<J>> {
    let (rt, alloc) = (context.rt, context.alloc);
    let parts = Parts {
        pass,
        dialer: Upstream {
            reply: Vec::from_slice(alloc, REPLY.as_bytes())?,
            at: 0,
            seen: 0,
            open_to: None,
        },
        clock: MemClock::of(alloc, vec![in alloc; 1000]?)?,
        words: Pcg64::seed_from_u64(7),
    };
    let None = parts.pass.holds() else {
        return Ok(parts.pass);
    };
    let mut server = Server::of(Room::new(alloc)?, parts);
    let mut connection = Connection::of(case.client(alloc)?);
    let start = Instant::now(rt)?;
    let paused = server.serve_stay(context, &mut connection, &Free, 0, &mut NoRecorder);
    let took = start.elapsed(rt)?.as_nanos() / u128::from(case.requests().max(1));
    let name = case.name();
    let Parts {
        pass,
        dialer,
        clock: _,
        words: _,
    } = server.into_parts();
    let seen = connection.into_peer().seen;
    println!(rt; "session,{name},{took},{paused:?},{seen},{}", dialer.seen)?;
    Ok(pass)
}

/// Times all cases, each some times.
fn time_all<J: Naming, R: Runtime + Wait>(
    context: &Context<'_, J, R>,
    mut pass: Pass<J>,
    change: Change,
) -> io::Result<Pass<J>>
    requires { IsSoundChange (change_of change) }
{
    let _set = context.router.change(context.rt, context.alloc, &mut pass, change)?;
    for _ in 0..5u32 {
        pass = time(context, pass, Case::Kept)?;
        pass = time(context, pass, Case::WorkedOut)?;
        pass = time(context, pass, Case::Body)?;
    }
    Ok(pass)
}

/// Names a router of one pass, times sessions over it and ends it.
fn time_named<J: Naming, R: Runtime + Wait + Abort>(
    rt: &R,
    alloc: Global,
    opened: Opened,
    rule: &Rule,
    change: Change,
) -> io::Result<()>
    requires named { IsNamedBy (beginning_of opened) J.Naming.own J.Ledger.own }
    requires change { IsSoundChange (change_of change) }
{
    let (router, mut passes) = opened.named::<J, R>(rt, alloc)?;
    let Some(pass) = passes.pop() else {
        panic!(rt; "a pass is missing")
    };
    let context = Context {
        rt,
        alloc,
        router: &router,
        rule,
    };
    let Ok(pass) = time_all(&context, pass, change) else {
        panic!(rt; "a session was not timed")
    };
    let Ok(passes) = vec![in alloc; pass] else {
        panic!(rt; "no memory for a pass")
    };
    match router.close(rt, passes) {
        Ok(_place) => Ok(()),
        Err(_back) => panic!(rt; "the router was not closed"),
    }
}

/// The change that gives a service these addresses.
fn set(service: Name, list: AddrList) -> Change
    ensures { IsSoundChange (change_of result) }
{
    Change::SetAddrs { service, list }
}

/// The resident memory of the program, in KiB, as `/proc` tells it.
fn tell_memory(rt: &HostRuntime, what: &str) -> io::Result<()> {
    let status = fs::read_to_string(rt, "/proc/self/status")?;
    for line in status.lines() {
        if line.starts_with("VmRSS:") || line.starts_with("VmData:") {
            println!(rt; "room {what} {line}")?;
        }
    }
    Ok(())
}

/// Sets aside what 10,000 servers do, and writes the memory before and after.
fn time_rooms(rt: &HostRuntime, alloc: Global) -> io::Result<()> {
    let mut rooms = Vec::with_capacity(alloc, 10000)?;
    tell_memory(rt, "before")?;
    for _ in 0..10000u32 {
        rooms.push(Room::new(alloc)?)?;
    }
    tell_memory(rt, "after")
}

fn main(rt: HostRuntime) -> io::Result<()> {
    let alloc = rt.alloc();
    let Some(Made {
        settings,
        service,
        list,
        rule,
    }) = make_parts(alloc)?
    else {
        return Ok(());
    };
    let opened = open(&rt, alloc, settings, 1)?;
    time_named::<Brand, _>(&rt, alloc, opened, &rule, set(service, list))?;
    time_rooms(&rt, alloc)
}
"""

PROOFS = {
    "proofs/main/Invariants.antt": """use Rattle.router.specs.Opening.{beginning_of, naming_of, ledger_of}
use Rattle.session.proofs.main.Given as goal

-- the router that was just opened
abbrev pub ghosts-time_named-J-Naming : goal.ghosts-time_named-J-Naming
ghosts-time_named-J-Naming g a = naming_of (beginning_of a.opened)

abbrev pub ghosts-time_named-J-Ledger : goal.ghosts-time_named-J-Ledger
ghosts-time_named-J-Ledger g a = ledger_of (beginning_of a.opened)
"""
}

LIBRARIES = """
line_base line_doubles step_count name_tree dtab_table addr_book ns_store choose_core bind_core
machine bind_cache one_history router_log load_words snap_cell router http_wire identifier
exchange_record proxy_session rand_core rand_pcg body_wire forward own_reply logbook left_right
crossbeam_utils atomic_table httparse http
"""

CASES = {
    "kept": "a GET with eight header fields, its delegation kept",
    "worked-out": "the same, its delegation worked out and kept",
    "body": "a POST of 102,400 bytes",
}

CONNECTIONS = 10_000


def main():
    least, resident = {}, {}
    for line in output_of("session", PROGRAM, LIBRARIES.split(), PROOFS).splitlines():
        if line.startswith("session,"):
            _, case, nanoseconds, ended, _, _ = line.split(",")
            if ended != "Ended(PeerEnded)":
                raise SystemExit(f"session: {case} ended with {ended}")
            least[case] = min(int(nanoseconds), least.get(case, int(nanoseconds)))
        elif line.startswith("room ") and "VmRSS:" in line:
            _, when, _, kilobytes, _ = line.split()
            resident[when] = int(kilobytes)
    for case, what in CASES.items():
        print(f"{what}: {least[case] / 1000:.1f} us, the least of five rounds")
    bytes_each = (resident["after"] - resident["before"]) * 1024 // CONNECTIONS
    print(f"memory of a worker's room: {bytes_each} bytes")


main()
