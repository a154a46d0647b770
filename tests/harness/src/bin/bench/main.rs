//! The library beside the peer: what a request costs.
//!
//! `bench` prints a table of nanoseconds. `bench rows` prints the worlds and requests, and
//! `bench once WORLD REQUEST SERVER` asks once inside `measured`, for a profiler.

mod clock;
mod worlds;

use clock::processor_time;
use harness::lent::ask;
use harness::server::{Library, Peer, Reply, Server};
use peer::caller::{Call, Caller};
use peer::form::Form;
use std::env;
use std::hint::black_box;
use std::time::Duration;
use worlds::{worlds, World};

const CALL: Call = Call::new(Caller::Exchange, Form::Narrow);
const ROOM: usize = 1 << 20;
const ROUNDS: usize = 51;
const ROUND: Duration = Duration::from_millis(1);

fn main() {
    let words: Vec<String> = env::args().skip(1).collect();
    let words: Vec<&str> = words.iter().map(String::as_str).collect();
    match words[..] {
        [] => table(),
        ["rows"] => rows(),
        ["once", world, request, server] => once(world, request, server),
        _ => panic!("usage: bench [rows | once WORLD REQUEST SERVER]"),
    }
}

/// The world, the request's name and the request of each row.
fn each(mut row: impl FnMut(&World, &'static str, &[u8])) {
    for world in worlds() {
        for (name, request) in &world.requests {
            row(&world, name, request);
        }
    }
}

fn rows() {
    each(|world, name, _| println!("{},{name}", world.name));
}

fn table() {
    for world in worlds() {
        let (directory, permissions) = (world.directory.len(), world.permissions.len());
        println!("{}: directory {directory} bytes, permissions {permissions} bytes", world.name);
    }
    println!();
    println!("| World | Request | Answer, bytes | Library, ns | Peer, ns | Ratio |");
    println!("| --- | --- | ---: | ---: | ---: | ---: |");
    let mut out = vec![0; ROOM];
    each(|world, name, request| {
        let bytes = compared(world, name, request);
        let mut library = Timed::new(&Library, world, request, &mut out);
        let mut peer = Timed::new(&Peer::default(), world, request, &mut out);
        for _ in 0..ROUNDS {
            library.round(&Library, world, request, &mut out);
            peer.round(&Peer::default(), world, request, &mut out);
        }
        let (ours, theirs) = (library.median(), peer.median());
        let ratio = ours / theirs;
        println!("| {} | {name} | {bytes} | {ours:.0} | {theirs:.0} | {ratio:.2} |", world.name);
    });
}

/// Stops unless both servers give the same answer; its length.
fn compared(world: &World, name: &str, request: &[u8]) -> usize {
    let (directory, permissions) = (&world.directory, &world.permissions);
    let asked = |server: &dyn Server| ask(server, CALL, directory, permissions, request, ROOM);
    let (ours, theirs) = (asked(&Library), asked(&Peer::default()));
    let row = format!("{}, {name}", world.name);
    assert!(ours == theirs && ours.is_sound(), "{row}: the servers differ");
    ours.answer().unwrap_or_else(|refusal| panic!("{row}: refused, {refusal}")).len()
}

/// Rounds of one server, each of as many calls as take about `ROUND`.
struct Timed {
    calls: u32,
    rounds: Vec<f64>,
}

impl Timed {
    fn new(server: &dyn Server, world: &World, request: &[u8], out: &mut [u8]) -> Self {
        let start = processor_time();
        let mut calls = 0;
        while processor_time() - start < ROUND {
            measured(server, world, request, out);
            calls += 1;
        }
        Timed { calls, rounds: Vec::new() }
    }

    fn round(&mut self, server: &dyn Server, world: &World, request: &[u8], out: &mut [u8]) {
        let start = processor_time();
        for _ in 0..self.calls {
            measured(server, world, request, out);
        }
        let spent = processor_time() - start;
        self.rounds.push(spent.as_nanos() as f64 / f64::from(self.calls));
    }

    fn median(&mut self) -> f64 {
        self.rounds.sort_by(f64::total_cmp);
        self.rounds[self.rounds.len() / 2]
    }
}

/// Bytes in, bytes out.
#[no_mangle]
#[inline(never)]
fn measured(server: &dyn Server, world: &World, request: &[u8], out: &mut [u8]) -> Reply {
    let (directory, permissions) = (black_box(&world.directory), black_box(&world.permissions));
    black_box(server.serve(CALL, directory, permissions, black_box(request), out))
}

/// One measured call, after one that is not.
fn once(world: &str, request: &str, server: &str) {
    let server: &dyn Server = match server {
        "library" => &Library,
        "peer" => &Peer::default(),
        _ => panic!("the servers are library and peer"),
    };
    let mut out = vec![0; ROOM];
    each(|of, name, bytes| {
        if (of.name, name) == (world, request) {
            server.serve(CALL, &of.directory, &of.permissions, bytes, &mut out);
            measured(server, of, bytes, &mut out);
        }
    });
}
