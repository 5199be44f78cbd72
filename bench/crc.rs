//! Measures the sector check against zlib's `crc32`, both in this one process.
//! First it compares the two on every length from 0 to 1,199 bytes. README.md says how to build and run it.
use std::hint::black_box;
use std::time::Instant;

#[link(name = "z")]
extern "C" {
    fn crc32(crc: std::ffi::c_ulong, bytes: *const u8, len: std::ffi::c_uint) -> std::ffi::c_ulong;
}

#[link(name = "sector", kind = "static")]
extern "C" {
    fn sector_crc32(bytes: *const u8, len: usize) -> u32;
}

type Check = fn(&[u8]) -> u32;

fn zlib(bytes: &[u8]) -> u32 {
    let len = std::ffi::c_uint::try_from(bytes.len()).expect("a short buffer");
    // SAFETY: the pointer and the length are those of one slice.
    unsafe { crc32(0, bytes.as_ptr(), len) as u32 }
}

fn ours(bytes: &[u8]) -> u32 {
    // SAFETY: a `&[u8]` parameter is passed as a pointer and then a length, those of one slice.
    unsafe { sector_crc32(bytes.as_ptr(), bytes.len()) }
}

fn pattern(len: usize) -> Vec<u8> {
    (0..len).map(|i| (i * 7919 + i / 13) as u8).collect()
}

/// Reads a buffer that is larger than the first cache, so that tables have to be fetched again.
fn sweep(buffer: &[u64]) -> u64 {
    buffer.iter().step_by(8).fold(0, |sum, x| sum.wrapping_add(*x))
}

/// Nanoseconds that `turns` calls of `work` take, each.
fn time(turns: u32, mut work: impl FnMut()) -> f64 {
    let start = Instant::now();
    for _ in 0..turns {
        work();
    }
    start.elapsed().as_secs_f64() * 1e9 / f64::from(turns)
}

/// The least of 40 series for each of zlib's check, ours and no check, taken in turn, so that a disturbance hits all alike.
fn best(bytes: &[u8], swept: &[u64], turns: u32) -> [f64; 3] {
    let checks: [Check; 3] = [zlib, ours, |_| 0];
    let mut least = [f64::INFINITY; 3];
    for _ in 0..40 {
        for (slot, check) in least.iter_mut().zip(checks) {
            *slot = slot.min(time(turns, || {
                black_box(sweep(black_box(swept)));
                black_box(check(black_box(bytes)));
            }));
        }
    }
    least
}

fn main() {
    for len in 0..1200 {
        let bytes = pattern(len);
        assert_eq!(ours(&bytes), zlib(&bytes), "{len} bytes");
    }
    println!("equal on all lengths from 0 to 1199 bytes");
    let swept = vec![1_u64; 16 * 1024];
    for (what, len, swept, turns) in [
        ("", 508, &[][..], 8000),
        (", first cache emptied before each", 508, &swept[..], 300),
        ("", 1 << 20, &[][..], 8),
    ] {
        let [zlib, ours, none] = best(&pattern(len), swept, turns);
        let (zlib, ours) = (zlib - none, ours - none);
        println!("{len} bytes{what}: zlib {zlib:.1} ns, ours {ours:.1} ns; zlib takes {:.2} times as long", zlib / ours);
    }
}
