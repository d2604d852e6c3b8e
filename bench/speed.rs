//! How fast codes are written, read and compared: each in nanoseconds a call and against a comparison of the terms.
//! Built and run by bench/speed.sh.

use std::hint::black_box;
use std::time::Instant;

unsafe extern "C" {
    fn ca_exports_encode(code: *const u8, len: usize, rounds: u32) -> u64;
    fn ca_exports_decode(code: *const u8, len: usize, rounds: u32) -> u64;
    fn ca_exports_compare(codes: *const u8, codes_len: usize, len: usize, rounds: u32) -> u64;
}

// {<<"user17">>,1700000000,[{ip,<<"10.0.0.7">>}]}
const OBJECT: &[u8] = b"\x40\0\0\0\x03\x80user17\0\0\x24\x65\x53\xf1\0\x70\x40\0\0\0\x02\x30ip\0\0\x8010.0.0.7\0\0\x60";
const ROUNDS: u32 = 1_920_000;

// The least time of five runs, in nanoseconds a round.
fn nanos(mut run: impl FnMut() -> u64, wanted: u64) -> f64 {
    let mut least = f64::MAX;
    for _ in 0..5 {
        let start = Instant::now();
        let got = black_box(run());
        let time = start.elapsed().as_nanos() as f64 / f64::from(ROUNDS);
        assert_eq!(got, wanted);
        least = least.min(time);
    }
    least
}

// The same walk as that of `ca_exports_compare`, by the bytes of the codes.
fn greater_codes(codes: &[u8], rounds: u32) -> u64 {
    let all: Vec<&[u8]> = codes.chunks(OBJECT.len()).collect();
    let mut greater = 0;
    for _ in 0..rounds {
        for other in &all[1..] {
            greater += u64::from(black_box(*other) > black_box(all[0]));
        }
    }
    greater
}

fn main() {
    assert_eq!(OBJECT.len(), 42);
    let rounds = u64::from(ROUNDS);
    let encode = nanos(|| unsafe { ca_exports_encode(OBJECT.as_ptr(), OBJECT.len(), ROUNDS) }, 42 * rounds);
    let decode = nanos(|| unsafe { ca_exports_decode(OBJECT.as_ptr(), OBJECT.len(), ROUNDS) }, rounds);
    // 65 objects that differ in the last byte of the address, each greater than the first one.
    let mut codes = Vec::new();
    for last in 0..65u8 {
        let mut code = OBJECT.to_vec();
        code[38] = b'0' + last;
        codes.extend_from_slice(&code);
    }
    let compare = nanos(|| unsafe { ca_exports_compare(codes.as_ptr(), codes.len(), OBJECT.len(), ROUNDS / 64) }, rounds);
    let bytes = nanos(|| greater_codes(&codes, ROUNDS / 64), rounds);
    println!("encode  {encode:8.1} ns  {:6.2} of a comparison of terms", encode / compare);
    println!("decode  {decode:8.1} ns  {:6.2} of a comparison of terms", decode / compare);
    println!("compare {compare:8.1} ns  {:6.2} of a comparison of codes", compare / bytes);
    println!("codes   {bytes:8.1} ns");
}
