//! What bench/peeks.py measures beside the router: the same look-up in maps behind a lock. A map
//! from a path and a request's own table to a service and its names, the service's replicas with
//! their weights, marks and slots, and a load for each slot.
use std::collections::HashMap;
use std::sync::RwLock;
use std::sync::atomic::{AtomicU32, AtomicU64, Ordering::SeqCst};
use std::time::Duration;

const PICKS: u32 = 100_000;

const ROUNDS: u32 = 5;

type Path = Vec<Vec<u8>>;

#[derive(Clone, Copy, PartialEq, Eq, Hash)]
struct Addr {
    ip: u32,
    port: u16,
}

struct Leaf {
    service: Vec<u8>,
    client: Path,
    residual: Path,
}

#[derive(Default)]
struct State {
    kept: HashMap<(Path, Vec<u8>), Leaf>,
    services: HashMap<Vec<u8>, Vec<(Addr, u64)>>,
    slots: HashMap<Addr, u32>,
    marks: HashMap<Addr, (u32, u64)>,
    spaces: HashMap<Vec<u8>, Vec<(Path, Path)>>,
    place: u64,
}

/// The replica, the two loads that were read, and the number of changes before.
type Choice = (Addr, u64, u64, u64);

fn write_path(path: &Path, out: &mut Vec<u8>) {
    out.clear();
    for label in path {
        out.push(b'/');
        for byte in label {
            if byte.is_ascii_alphanumeric() || b"_:-.#$%".contains(byte) {
                out.push(*byte);
            } else {
                out.extend_from_slice(format!("\\x{byte:02x}").as_bytes());
            }
        }
    }
    if path.is_empty() {
        out.push(b'/');
    }
}

/// The replica whose part of the weights the word falls into, passing over one of them.
fn drawn(list: &[(Addr, u64)], word: u64, but: Option<usize>) -> usize {
    let whole: u64 = list
        .iter()
        .enumerate()
        .filter(|(at, _)| Some(*at) != but)
        .map(|(_, replica)| replica.1)
        .sum();
    let mut left = ((word as u128 * whole as u128) >> 64) as u64;
    for (at, replica) in list.iter().enumerate() {
        if Some(at) == but {
            continue;
        }
        if left < replica.1 {
            return at;
        }
        left -= replica.1;
    }
    0
}

fn peek(
    state: &RwLock<State>,
    loads: &[AtomicU64],
    key: &(Path, Vec<u8>),
    words: [u64; 2],
    client: &mut Vec<u8>,
    residual: &mut Vec<u8>,
) -> Option<Choice> {
    let state = state.read().unwrap();
    let leaf = state.kept.get(key)?;
    let list = state.services.get(&leaf.service)?;
    if !state.marks.is_empty()
        && list
            .iter()
            .any(|replica| state.marks.contains_key(&replica.0))
    {
        return None;
    }
    let one = drawn(list, words[0], None);
    let other = if list.len() > 1 {
        drawn(list, words[1], Some(one))
    } else {
        one
    };
    let (one, other) = (list[one], list[other]);
    let first = loads[*state.slots.get(&one.0)? as usize].load(SeqCst);
    let second = loads[*state.slots.get(&other.0)? as usize].load(SeqCst);
    let taken = if first * other.1 <= second * one.1 {
        one
    } else {
        other
    };
    write_path(&leaf.client, client);
    write_path(&leaf.residual, residual);
    Some((taken.0, first, second, state.place))
}

#[repr(C)]
struct Timespec {
    seconds: i64,
    nanos: i64,
}

unsafe extern "C" {
    fn clock_gettime(clock: i32, time: *mut Timespec) -> i32;
}

/// The processor time of this thread, in nanoseconds.
fn processor_time() -> u64 {
    let mut time = Timespec {
        seconds: 0,
        nanos: 0,
    };
    unsafe { clock_gettime(3, &mut time) };
    time.seconds as u64 * 1_000_000_000 + time.nanos as u64
}

fn path(text: &str) -> Path {
    text.split('/')
        .skip(1)
        .map(|label| label.as_bytes().to_vec())
        .collect()
}

fn filled(services: u32) -> State {
    let mut state = State::default();
    let mut slots = 0;
    let mut add = |state: &mut State, service: String, addrs: Vec<Addr>| {
        for addr in &addrs {
            state.slots.insert(*addr, slots);
            slots += 1;
        }
        state.services.insert(
            service.into_bytes(),
            addrs.into_iter().map(|addr| (addr, 1_000_000)).collect(),
        );
    };
    add(
        &mut state,
        "web".into(),
        (1..9)
            .map(|at| Addr {
                ip: 0x0a02_0000 + at,
                port: 1,
            })
            .collect(),
    );
    for at in 0..services {
        let count = if at < 4089 { 2 } else { 1 };
        add(
            &mut state,
            format!("s{at}"),
            (0..count)
                .map(|i| Addr {
                    ip: 0x0a00_0000 + i * 0x10000 + at,
                    port: 1,
                })
                .collect(),
        );
    }
    let leaf = Leaf {
        service: b"web".to_vec(),
        client: path("/#/io.l5d.fs/web"),
        residual: vec![],
    };
    state.kept.insert((path("/svc/web"), vec![]), leaf);
    state
}

fn round(state: &RwLock<State>, loads: &[AtomicU64], services: u32, pickers: u32, writes: bool) {
    let left = AtomicU32::new(pickers);
    let (hits, nanos, changes) = (AtomicU64::new(0), AtomicU64::new(0), AtomicU64::new(0));
    std::thread::scope(|scope| {
        for _ in 0..pickers {
            scope.spawn(|| {
                let key = (path("/svc/web"), vec![]);
                let (mut client, mut residual) =
                    (Vec::with_capacity(2048), Vec::with_capacity(2048));
                let start = processor_time();
                let mut found = 0;
                for _ in 0..PICKS {
                    let choice = peek(
                        state,
                        loads,
                        std::hint::black_box(&key),
                        [0, 1 << 63],
                        &mut client,
                        &mut residual,
                    );
                    if std::hint::black_box(&choice).is_some() {
                        found += 1;
                    }
                }
                nanos.fetch_add(processor_time() - start, SeqCst);
                hits.fetch_add(found, SeqCst);
                left.fetch_sub(1, SeqCst);
            });
        }
        if writes {
            scope.spawn(|| {
                while left.load(SeqCst) > 0 {
                    let table = vec![(path("/x"), path("/y"))];
                    let mut state = state.write().unwrap();
                    state.spaces.insert(b"other".to_vec(), table);
                    state.place += 1;
                    drop(state);
                    changes.fetch_add(1, SeqCst);
                    std::thread::sleep(Duration::from_micros(900));
                }
            });
        }
    });
    println!(
        "peeks: peek,{services},{pickers},{},{},{}",
        changes.load(SeqCst),
        hits.load(SeqCst),
        nanos.load(SeqCst)
    );
}

fn main() {
    let loads: Vec<AtomicU64> = (0..8192).map(|_| AtomicU64::new(0)).collect();
    for services in [0, 4095] {
        let state = RwLock::new(filled(services));
        for writes in [false, true] {
            for pickers in 1..5 {
                for _ in 0..ROUNDS {
                    round(&state, &loads, services, pickers, writes);
                }
            }
        }
    }
}
