//! The same calls as those of `ca_bench point-calls` on a BTreeMap of byte codes: 10,000 objects of the usual load. Built and run by
//! bench/table.sh; prints a line for each kind of call, its name and the nanoseconds of one.
use std::collections::BTreeMap;
use std::hint::black_box;
use std::time::Instant;

const OBJECTS: u32 = 10_000;
const CALLS: u32 = 1_000_000;

// <<"userN">>
fn key(number: u32) -> Vec<u8> {
    [b"\x80user".as_slice(), number.to_string().as_bytes(), b"\0\0"].concat()
}

// {<<"userN">>,1700000000,[{ip,<<"10.0.0.7">>}]}
fn object(number: u32) -> Vec<u8> {
    let rest = b"\x24\x65\x53\xf1\0\x70\x40\0\0\0\x02\x30ip\0\0\x8010.0.0.7\0\0\x60".as_slice();
    [b"\x40\0\0\0\x03".as_slice(), &key(number), rest].concat()
}

// The least time of five runs, in nanoseconds a call.
fn time(name: &str, mut call: impl FnMut(usize) -> bool) {
    let mut least = u128::MAX;
    for _ in 0..5 {
        let start = Instant::now();
        let good = (0..CALLS).filter(|i| call((i.wrapping_mul(7_919) % OBJECTS) as usize)).count();
        least = least.min(start.elapsed().as_nanos());
        assert_eq!(good, CALLS as usize);
    }
    println!("{name} {}", least / u128::from(CALLS));
}

fn main() {
    let keys: Vec<Vec<u8>> = (0..OBJECTS).map(key).collect();
    let objects: Vec<Vec<u8>> = (0..OBJECTS).map(object).collect();
    let mut map: BTreeMap<Vec<u8>, Vec<u8>> = keys.iter().cloned().zip(objects.iter().cloned()).collect();
    time("lookup", |i| black_box(map.get(&keys[i]).cloned()).is_some());
    time("member", |i| black_box(map.contains_key(&keys[i])));
    time("insert", |i| black_box(map.insert(keys[i].clone(), objects[i].clone())).is_some());
    // The digits of the second element, 4 bytes behind its tag.
    time("update_counter", |i| {
        let code = map.get_mut(&keys[i]).unwrap();
        let at = 5 + keys[i].len() + 1;
        let number = u32::from_be_bytes(code[at..at + 4].try_into().unwrap()) + 1;
        code[at..at + 4].copy_from_slice(&number.to_be_bytes());
        black_box(number) > 0
    });
}
