// Times the proved reader and writer of scripts against plain copy loops over the script's bytes.
// Prints nanoseconds, the least of many runs, and the ratios.
use std::hint::black_box;
use std::time::Instant;

extern "C" {
    fn script_read(b: *const u8, b_len: usize, l: *mut u32, l_len: usize) -> u8;
    fn script_write(s: *const u8, s_len: usize, l: *const u32, l_len: usize, count: usize, w: *mut u8, w_len: usize) -> u8;
}

// A plain copy loop. The compiler makes it a call of memcpy, or a loop of whole vectors.
#[inline(never)]
fn copy(from: &[u8], to: &mut [u8]) {
    for i in 0..from.len() {
        to[i] = from[i];
    }
}

// The same loop, held to one byte a turn.
#[inline(never)]
fn copy_by_byte(from: &[u8], to: &mut [u8]) {
    for i in 0..from.len() {
        unsafe { std::ptr::write_volatile(&mut to[i], std::ptr::read_volatile(&from[i])) };
    }
}

fn least<F: FnMut()>(mut f: F) -> u128 {
    let mut best = u128::MAX;
    for _ in 0..2000 {
        let start = Instant::now();
        f();
        best = best.min(start.elapsed().as_nanos());
    }
    best
}

fn main() {
    let path = std::env::args().nth(1).expect("a script's path");
    let script = std::fs::read(path).expect("a script");
    let count = (script.len() - 116) / 12;
    let setup = script[12 * count..12 * count + 104].to_vec();
    let mut list = vec![0u32; 6 * count];
    let mut out = vec![0u8; script.len()];
    let mut answers = (0, 0);
    let read = least(|| {
        answers.0 = unsafe { script_read(black_box(script.as_ptr()), script.len(), list.as_mut_ptr(), list.len()) };
    });
    let write = least(|| {
        answers.1 = unsafe {
            script_write(setup.as_ptr(), setup.len(), black_box(list.as_ptr()), list.len(), count, out.as_mut_ptr(), out.len())
        };
    });
    println!("answers {} {}, {}", answers.0, answers.1, if out == script { "the same bytes" } else { "OTHER BYTES" });
    let plain = least(|| copy(black_box(&script), black_box(&mut out)));
    let bytes = least(|| copy_by_byte(black_box(&script), black_box(&mut out)));
    println!("{} bytes, {} steps: read {read} ns, write {write} ns", script.len(), count);
    println!("plain copy loop {plain} ns: read {:.1} times, write {:.1} times", read as f64 / plain as f64, write as f64 / plain as f64);
    println!("the loop a byte at a time {bytes} ns: read {:.2} times, write {:.2} times", read as f64 / bytes as f64, write as f64 / bytes as f64);
}
