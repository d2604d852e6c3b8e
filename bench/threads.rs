//! The same calls as those of `ca_bench threads` on a BTreeMap of byte codes behind a RwLock. Built and run by bench/threads.sh; prints a line of
//! comma-separated values for each mix of calls, number of objects and number of threads, with how many thousand calls a second they carry out.
use std::collections::BTreeMap;
use std::hint::black_box;
use std::sync::{Barrier, RwLock};
use std::thread;
use std::time::Instant;

// How many objects a leaf of the tree may have, and how many there are.
const LEAVES: [(u32, u32); 4] = [(12, 10), (24, 20), (60, 45), (120, 90)];
// How often a measure is taken, each time on a new map; the times are added.
const RUNS: u32 = 3;
// How many calls all clients together play in a run.
const CALLS: u32 = 1_000_000;

type Map = RwLock<BTreeMap<Vec<u8>, Vec<u8>>>;

// <<"userN">>
fn key(number: u32) -> Vec<u8> {
    [b"\x80user".as_slice(), number.to_string().as_bytes(), b"\0\0"].concat()
}

// {<<"userN">>,1700000000,[{ip,<<"10.0.0.7">>}]}
fn object(number: u32) -> Vec<u8> {
    let rest = b"\x24\x65\x53\xf1\0\x70\x40\0\0\0\x02\x30ip\0\0\x8010.0.0.7\0\0\x60".as_slice();
    [b"\x40\0\0\0\x03".as_slice(), &key(number), rest].concat()
}

struct Load {
    keys: Vec<Vec<u8>>,
    objects: Vec<Vec<u8>>,
    // How many of them are there from the start on.
    present: u32,
}

// A client, which draws keys and calls in the same order as its namesake in ca_bench.
struct Client {
    drawn: u32,
    into: Vec<u8>,
    good: u32,
}

impl Client {
    fn draw(&mut self) -> u32 {
        self.drawn = (u64::from(self.drawn) * 16_807 % 2_147_483_647) as u32;
        self.drawn
    }

    // Copies the key's object into a buffer.
    fn get(&mut self, map: &Map, key: &[u8]) -> bool {
        self.into.clear();
        match map.read().unwrap().get(key) {
            Some(object) => {
                self.into.extend_from_slice(object);
                true
            }
            None => false,
        }
    }

    fn call(&mut self, mix: &str, map: &Map, load: &Load) -> bool {
        let drawn = self.draw();
        let place = (drawn / 16 % load.present) as usize;
        match (mix, drawn % 4) {
            ("lookups", _) | ("mixed", 0 | 1) => self.get(map, &load.keys[place]),
            ("mixed", 3) => self.come_or_go(map, load, drawn),
            _ => map.write().unwrap().insert(load.keys[place].clone(), load.objects[place].clone()).is_some(),
        }
    }

    // Puts an object that isn't there from the start on, where it is absent, or removes one.
    fn come_or_go(&mut self, map: &Map, load: &Load, drawn: u32) -> bool {
        let place = (load.present + drawn / 16 % (load.keys.len() as u32 - load.present)) as usize;
        if drawn / 4 % 2 == 0 {
            map.write().unwrap().entry(load.keys[place].clone()).or_insert_with(|| load.objects[place].clone());
        } else if let Some(object) = map.write().unwrap().remove(&load.keys[place]) {
            self.into = object;
        }
        true
    }

    fn play(&mut self, mix: &str, map: &Map, load: &Load, calls: u32) {
        for _ in 0..calls {
            let done = self.call(mix, map, load);
            self.good += u32::from(done);
        }
        black_box(&self.into);
    }
}

// One run: the nanoseconds from the first start to the last end.
fn run(mix: &str, load: &Load, threads: u32, calls: u32) -> u128 {
    let pairs = load.keys.iter().cloned().zip(load.objects.iter().cloned());
    let map: Map = RwLock::new(pairs.take(load.present as usize).collect());
    let ready = Barrier::new(threads as usize);
    let times: Vec<(Instant, Instant)> = thread::scope(|scope| {
        let clients: Vec<_> = (1..=threads)
            .map(|number| {
                let (map, ready) = (&map, &ready);
                scope.spawn(move || {
                    let mut client = Client { drawn: number, into: Vec::with_capacity(1_000), good: 0 };
                    ready.wait();
                    let start = Instant::now();
                    client.play(mix, map, load, calls);
                    assert_eq!(client.good, calls);
                    (start, Instant::now())
                })
            })
            .collect();
        clients.into_iter().map(|client| client.join().unwrap()).collect()
    });
    let start = times.iter().map(|time| time.0).min().unwrap();
    let end = times.iter().map(|time| time.1).max().unwrap();
    end.duration_since(start).as_nanos()
}

fn main() {
    for (leaf, count) in LEAVES {
        let load = Load { keys: (0..leaf).map(key).collect(), objects: (0..leaf).map(object).collect(), present: count };
        for mix in ["lookups", "puts", "mixed"] {
            for threads in [1, 2, 4] {
                let calls = CALLS / threads;
                let nanos: u128 = (0..RUNS).map(|_| run(mix, &load, threads, calls)).sum();
                println!("map,{mix},{leaf},{count},{threads},{}", u128::from(calls * threads * RUNS) * 1_000_000 / nanos);
            }
        }
    }
}
