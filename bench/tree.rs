//! The same calls as those of `ca_bench tree` on a BTreeMap of byte codes behind a RwLock. Built and run by bench/tree.sh; prints a line of
//! comma-separated values for each mix of calls, number of objects and number of threads, with how many thousand calls a second they carry out: all
//! lines, or those that begin with its words, such as `map,mixed,10000,4`.
use std::collections::BTreeMap;
use std::hint::black_box;
use std::ops::Bound;
use std::sync::{Barrier, RwLock};
use std::thread;
use std::time::Instant;

// How often a measure is taken, each time on a new map; the times are added.
const RUNS: u32 = 3;
// How many calls all clients together play in a run.
const CALLS: u32 = 400_000;
// How many objects there are where the number of threads grows, and where one client alone plays.
const OBJECTS: u32 = 10_000;
const SIZES: [u32; 5] = [100, 400, 1_000, 4_000, 40_000];
// How many there are in large maps.
const LARGE: [u32; 2] = [100_000, 1_000_000];
const BYTE: u32 = 256;

type Map = RwLock<BTreeMap<Vec<u8>, Vec<u8>>>;

// Which calls are played: lookups, half of them beside puts and removals, additions to so many counters, and lookups, puts, removals and ranges of up to
// so many objects; even draws of keys, or skewed ones, near a spot that moves behind each so many calls of a client; or removals and puts of all objects
// in turns by so many clients, of which each has a share.
#[derive(Clone, Copy)]
enum Mix {
    Lookups(fn(u32, u32) -> u32),
    Mixed(fn(u32, u32) -> u32),
    Counters(u32),
    Ranges(u32),
    Moving(u32),
    Waves(u32),
}

const MIXES: [(&str, Mix); 9] = [
    ("lookups", Mix::Lookups(even)),
    ("mixed", Mix::Mixed(even)),
    ("skewed-lookups", Mix::Lookups(skewed)),
    ("skewed-mixed", Mix::Mixed(skewed)),
    ("counter", Mix::Counters(1)),
    ("counters", Mix::Counters(4)),
    ("ranges-10", Mix::Ranges(10)),
    ("ranges-100", Mix::Ranges(100)),
    ("ranges-1000", Mix::Ranges(1_000)),
];

const SHAPING: [(&str, Mix); 2] = [("moving", Mix::Moving(SPOT_CALLS)), ("waves", Mix::Waves(1))];

// Behind how many calls of all clients together a hot spot moves, how many spots a run has, and how far the next spot and the next key of a wave are.
const SPOT_CALLS: u32 = 100_000;
const SPOTS: u32 = 20;
const STEP: u32 = 7_919;

// How many calls are played of a mix: fewer, where ranges are longer.
fn calls_of(mix: Mix) -> u32 {
    match mix {
        Mix::Ranges(most) => 20_000_000 / (most + 40),
        Mix::Moving(_) => SPOTS * SPOT_CALLS,
        _ => CALLS,
    }
}

// The mix where so many clients play it.
fn shared(mix: Mix, threads: u32) -> Mix {
    match mix {
        Mix::Moving(calls) => Mix::Moving(calls / threads),
        Mix::Waves(_) => Mix::Waves(threads),
        mix => mix,
    }
}

// The code of 2 ^ 24 + number, of which the lower 24 bits count.
fn number_code(number: u32) -> [u8; 5] {
    let [_, high, middle, low] = number.to_be_bytes();
    [0x24, 1, high, middle, low]
}

// The code of {2 ^ 24 + key, 2 ^ 24 + 1, .., 2 ^ 24 + 5, 2 ^ 24 + counter}.
fn object(key: u32, counter: u32) -> [u8; 40] {
    let mut code = [0; 40];
    code[0] = 0x40;
    code[4] = 7;
    for (part, number) in code[5..].as_chunks_mut::<5>().0.iter_mut().zip([key, 1, 2, 3, 4, 5, counter]) {
        *part = number_code(number);
    }
    code
}

// The codes of <<"userN">> and of {<<"userN">>,1700000000,[{ip,<<"10.0.0.7">>}]}.
fn user(number: u32) -> (Vec<u8>, Vec<u8>) {
    let key = [b"\x80user".as_slice(), number.to_string().as_bytes(), b"\0\0"].concat();
    let rest = b"\x24\x65\x53\xf1\0\x70\x40\0\0\0\x02\x30ip\0\0\x8010.0.0.7\0\0\x60".as_slice();
    let object = [b"\x40\0\0\0\x03".as_slice(), &key, rest].concat();
    (key, object)
}

fn counter_of(object: &[u8]) -> u32 {
    object[37..].iter().fold(0, |number, byte| number * BYTE + u32::from(*byte))
}

// A number below the count, all of which come as often.
fn even(drawn: u32, count: u32) -> u32 {
    drawn / 16 % count
}

// A number below the count, of which small ones come far more often.
fn skewed(drawn: u32, count: u32) -> u32 {
    let count = u64::from(count);
    let number = u64::from(drawn / 16) % count;
    let square = number * number / count;
    (square * square / count) as u32
}

// A number near the hot spot of this number far more often than another one.
fn near(drawn: u32, spot: u32, count: u32) -> u32 {
    (spot * STEP % count + skewed(drawn, count)) % count
}

// The next number of an order without pattern.
fn draw(drawn: &mut u32) -> u32 {
    *drawn = (u64::from(*drawn) * 16_807 % 2_147_483_647) as u32;
    *drawn
}

// The numbers below the count in an order without pattern.
fn shuffled(count: u32) -> Vec<u32> {
    let mut numbers = Vec::new();
    let mut drawn = 1;
    for number in 0..count {
        numbers.push(number);
        numbers.swap(number as usize, even(draw(&mut drawn), number + 1) as usize);
    }
    numbers
}

// How many keys there are, half of which are there at the start, and the codes by their numbers; where there are none, a key has an object of numbers.
struct Load {
    keys: u32,
    users: Vec<(Vec<u8>, Vec<u8>)>,
}

impl Load {
    fn pair(&self, key: u32) -> (Vec<u8>, Vec<u8>) {
        match self.users.get(key as usize) {
            Some(pair) => pair.clone(),
            None => (number_code(key).to_vec(), object(key, 0).to_vec()),
        }
    }

    // What becomes of the code of a key.
    fn by_key<T>(&self, key: u32, then: impl FnOnce(&[u8]) -> T) -> T {
        match self.users.get(key as usize) {
            Some((code, _)) => then(code),
            None => then(&number_code(key)),
        }
    }
}

// A client, which draws keys and calls in the same order as its namesake in ca_bench.
struct Client<'m> {
    map: &'m Map,
    load: &'m Load,
    number: u32,
    drawn: u32,
    into: Vec<u8>,
    good: u32,
}

impl Client<'_> {
    fn play(&mut self, mix: Mix, calls: u32) {
        for number in 0..calls {
            let done = self.call(mix, number);
            self.good += u32::from(done);
        }
        black_box(&self.into);
    }

    // The call of this number, from 0 on.
    fn call(&mut self, mix: Mix, number: u32) -> bool {
        let drawn = draw(&mut self.drawn);
        match mix {
            Mix::Lookups(key) => {
                let key = key(drawn, self.load.keys);
                self.get(key) == (key % 2 == 0)
            }
            Mix::Mixed(key) => self.come_or_go(drawn, key(drawn, self.load.keys)),
            Mix::Counters(count) => {
                let apart = self.load.keys / count;
                self.raise(even(drawn, count) * apart + apart / 2)
            }
            Mix::Ranges(most) => self.look_or_range(even(drawn, self.load.keys), most),
            Mix::Moving(calls) => self.come_or_go(drawn, near(drawn, number / calls, self.load.keys)),
            Mix::Waves(clients) => self.roll(number, clients, self.load.keys / 2),
        }
    }

    fn come_or_go(&mut self, drawn: u32, key: u32) -> bool {
        match drawn % 4 {
            0 | 1 => {
                self.get(key);
            }
            2 => self.put(key),
            _ => {
                self.remove(key);
            }
        }
        true
    }

    fn look_or_range(&mut self, key: u32, most: u32) -> bool {
        match even(draw(&mut self.drawn), 100) {
            0..55 => {
                self.get(key);
            }
            55..65 => self.put(key),
            65..75 => {
                self.remove(key);
            }
            _ => {
                let width = 2 * (even(draw(&mut self.drawn), most) + 1);
                return self.range(key, width) <= width + 1;
            }
        }
        true
    }

    fn put(&mut self, key: u32) {
        let (code, object) = self.load.pair(key);
        self.map.write().unwrap().insert(code, object);
    }

    // Whether the key's object was there.
    fn remove(&mut self, key: u32) -> bool {
        let removed = self.load.by_key(key, |code| self.map.write().unwrap().remove(code));
        let found = removed.is_some();
        if let Some(object) = removed {
            self.into = object;
        }
        found
    }

    // A removal or a put of the next object of this client's share, all of which go and come in turns.
    fn roll(&mut self, number: u32, clients: u32, objects: u32) -> bool {
        let share = objects / clients;
        let place = number % share * STEP % share;
        let key = 2 * (place * clients + self.number - 1);
        if number / share % 2 == 0 {
            return self.remove(key);
        }
        self.put(key);
        true
    }

    // Copies the objects of a range of keys into a buffer, one after the other, all of one state: the lock is held.
    fn range(&mut self, from: u32, width: u32) -> u32 {
        let (lo, hi) = (number_code(from), number_code(from + width));
        let bounds = (Bound::Included(lo.as_slice()), Bound::Included(hi.as_slice()));
        let (map, mut count) = (self.map.read().unwrap(), 0);
        for (_, object) in map.range::<[u8], _>(bounds) {
            self.into.clear();
            self.into.extend_from_slice(object);
            black_box(&self.into);
            count += 1;
        }
        count
    }

    // Copies the key's object into a buffer.
    fn get(&mut self, key: u32) -> bool {
        let (map, into) = (self.map, &mut self.into);
        into.clear();
        self.load.by_key(key, |code| match map.read().unwrap().get(code) {
            Some(object) => {
                into.extend_from_slice(object);
                true
            }
            None => false,
        })
    }

    // Adds one to the counter of the key's object, where it stands.
    fn raise(&mut self, key: u32) -> bool {
        match self.map.write().unwrap().get_mut(number_code(key).as_slice()) {
            Some(object) => {
                let next = counter_of(object) + 1;
                object[37..].copy_from_slice(&next.to_be_bytes()[1..]);
                true
            }
            None => false,
        }
    }
}

// Plays on a thread of its own. It answers when it began and ended.
fn time_client(map: &Map, ready: &Barrier, load: &Load, number: u32, mix: Mix, calls: u32) -> (Instant, Instant) {
    let mut client = Client { map, load, number, drawn: number, into: Vec::with_capacity(1_000), good: 0 };
    ready.wait();
    let start = Instant::now();
    client.play(mix, calls);
    assert_eq!(client.good, calls);
    (start, Instant::now())
}

// One run: the nanoseconds from the first start to the last end.
fn run(mix: Mix, load: &Load, numbers: &[u32], threads: u32, calls: u32) -> u128 {
    let map = Map::default();
    for number in numbers {
        let (code, object) = load.pair(2 * number);
        map.write().unwrap().insert(code, object);
    }
    let ready = Barrier::new(threads as usize);
    let times: Vec<(Instant, Instant)> = thread::scope(|scope| {
        let clients: Vec<_> = (1..=threads)
            .map(|number| {
                let (map, ready) = (&map, &ready);
                scope.spawn(move || time_client(map, ready, load, number, mix, calls))
            })
            .collect();
        clients.into_iter().map(|client| client.join().unwrap()).collect()
    });
    if load.users.is_empty() {
        let total: u32 = map.read().unwrap().values().map(|object| counter_of(object)).sum();
        assert_eq!(total, if matches!(mix, Mix::Counters(_)) { calls * threads } else { 0 });
    }
    let start = times.iter().map(|time| time.0).min().unwrap();
    let end = times.iter().map(|time| time.1).max().unwrap();
    end.duration_since(start).as_nanos()
}

// Prints a line, where no words are given, or it begins with one of them.
fn line((name, mix): (&str, Mix), load: &Load, threads: u32, words: &[String]) {
    let objects = load.keys / 2;
    let begin = format!("map,{name},{objects},{threads}");
    if !words.is_empty() && !words.contains(&begin) {
        return;
    }
    let (numbers, calls) = (shuffled(objects), calls_of(mix) / threads);
    let nanos: u128 = (0..RUNS).map(|_| run(shared(mix, threads), load, &numbers, threads, calls)).sum();
    println!("{begin},{},0,0", u128::from(calls * threads * RUNS) * 1_000_000 / nanos);
}

fn numbers_load(objects: u32) -> Load {
    Load { keys: 2 * objects, users: Vec::new() }
}

fn main() {
    let words: Vec<String> = std::env::args().skip(1).collect();
    for mix in MIXES.iter().chain(&SHAPING) {
        for threads in [1, 2, 4] {
            line(*mix, &numbers_load(OBJECTS), threads, &words);
        }
    }
    let users = Load { keys: 2 * OBJECTS, users: (0..2 * OBJECTS).map(user).collect() };
    for mix in [("user-lookups", MIXES[0].1), ("user-mixed", MIXES[1].1)] {
        for threads in [1, 2, 4] {
            line(mix, &users, threads, &words);
        }
    }
    for mix in &MIXES[..2] {
        for objects in SIZES {
            line(*mix, &numbers_load(objects), 1, &words);
        }
        for objects in LARGE {
            for threads in [1, 4] {
                line(*mix, &numbers_load(objects), threads, &words);
            }
        }
    }
}
