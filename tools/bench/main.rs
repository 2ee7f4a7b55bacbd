//! A hand-written unpacker of constant width and reader of repeated runs, timed as the program of crates/bench is with `full`.
//! Build: rustc --edition 2024 -O -C target-cpu=x86-64 main.rs -o bench

use std::hint::black_box;
use std::time::Instant;

const BATCH: usize = 1024;
const NUMBERS: usize = 16 * 1024 * 1024;

trait Number: Copy + Default {
    fn from_u32(x: u32) -> Self;
}

impl Number for u32 {
    fn from_u32(x: u32) -> u32 {
        x
    }
}

impl Number for i16 {
    fn from_u32(x: u32) -> i16 {
        x as i16
    }
}

impl Number for bool {
    fn from_u32(x: u32) -> bool {
        x != 0
    }
}

/// Eight numbers from each `W` bytes, through words of eight bytes.
fn unpack<T: Number, const W: usize>(bytes: &[u8], out: &mut [T]) {
    let mask = (1u64 << W) - 1;
    let mut rest = bytes;
    for group in out.chunks_exact_mut(8) {
        if rest.len() < W + 8 {
            let mut last = [0u8; 48];
            let n = rest.len().min(48);
            last[..n].copy_from_slice(&rest[..n]);
            for k in 0..8 {
                let j = k * W / 8;
                let x = u64::from_le_bytes(last[j..j + 8].try_into().unwrap()) >> (k * W % 8);
                group[k] = T::from_u32((x & mask) as u32);
            }
        } else {
            for k in 0..8 {
                let j = k * W / 8;
                let x = u64::from_le_bytes(rest[j..j + 8].try_into().unwrap()) >> (k * W % 8);
                group[k] = T::from_u32((x & mask) as u32);
            }
        }
        rest = &rest[W.min(rest.len())..];
    }
}

/// The same at a width of at most 8: one word holds a group.
fn unpack_words<T: Number, const W: usize>(bytes: &[u8], out: &mut [T]) {
    let mask = (1u64 << W) - 1;
    let groups = bytes.len().saturating_sub(8) / W;
    for (g, group) in out.chunks_exact_mut(8).enumerate() {
        let mut last = [0u8; 8];
        let x = if g < groups {
            u64::from_le_bytes(bytes[g * W..g * W + 8].try_into().unwrap())
        } else {
            let rest = &bytes[(g * W).min(bytes.len())..];
            let n = rest.len().min(8);
            last[..n].copy_from_slice(&rest[..n]);
            u64::from_le_bytes(last)
        };
        for k in 0..8 {
            group[k] = T::from_u32(((x >> (k * W)) & mask) as u32);
        }
    }
}

fn time(name: &str, width: usize, mut f: impl FnMut()) {
    f();
    let mut best = u128::MAX;
    for _ in 0..5 {
        let start = Instant::now();
        f();
        best = best.min(start.elapsed().as_nanos());
    }
    println!("{name} width {width}: {} ps each", best * 1000 / NUMBERS as u128);
}

fn packed<T: Number, const W: usize>(name: &str) {
    let bytes = black_box(vec![0x55u8; NUMBERS / 8 * W]);
    let mut out = vec![T::default(); BATCH];
    time(name, W, || {
        for i in 0..NUMBERS / BATCH {
            let part = &bytes[i * (BATCH / 8 * W)..];
            if W <= 8 {
                unpack_words::<T, W>(part, &mut out);
            } else {
                unpack::<T, W>(part, &mut out);
            }
            black_box(&mut out);
        }
    });
}

/// A reader of repeated runs whose values take `V` bytes.
struct Repeated<'a, const V: usize> {
    rest: &'a [u8],
    value: u32,
    left: usize,
}

impl<const V: usize> Repeated<'_, V> {
    fn read<T: Number>(&mut self, out: &mut [T]) -> usize {
        let mut k = 0;
        while k < out.len() {
            if self.left == 0 {
                let (mut header, mut n) = (0u64, 0);
                loop {
                    let Some(b) = self.rest.get(n) else { return k };
                    header |= ((b & 127) as u64) << (7 * n);
                    n += 1;
                    if *b < 128 {
                        break;
                    }
                }
                let Some(value) = self.rest.get(n..n + V) else { return k };
                self.value = value.iter().rev().fold(0, |v, b| v << 8 | *b as u32);
                self.left = (header / 2) as usize;
                self.rest = &self.rest[n + V..];
            }
            let n = self.left.min(out.len() - k);
            out[k..k + n].fill(T::from_u32(self.value));
            self.left -= n;
            k += n;
        }
        k
    }
}

fn repeated<T: Number, const V: usize>(name: &str, width: usize, header: &[u8], runs: usize) {
    let mut bytes = Vec::new();
    for _ in 0..runs {
        bytes.extend_from_slice(header);
        bytes.extend_from_slice(&[1, 0, 0, 0][..V]);
    }
    let bytes = black_box(bytes);
    let mut out = vec![T::default(); BATCH];
    time(name, width, || {
        let mut reader = Repeated::<V> { rest: &bytes, value: 0, left: 0 };
        for _ in 0..NUMBERS / BATCH {
            black_box(reader.read(&mut out));
            black_box(&mut out);
        }
    });
}

fn copied<T: Number>(name: &str) {
    let from = black_box(vec![T::from_u32(1); BATCH]);
    let mut out = vec![T::default(); BATCH];
    time(name, 0, || {
        for _ in 0..NUMBERS / BATCH {
            out.copy_from_slice(&from);
            black_box(&mut out);
        }
    });
}

fn main() {
    packed::<u32, 1>("packed u32");
    packed::<i16, 1>("packed i16");
    packed::<bool, 1>("packed bool");
    packed::<u32, 2>("packed u32");
    packed::<i16, 2>("packed i16");
    packed::<u32, 3>("packed u32");
    packed::<i16, 3>("packed i16");
    packed::<u32, 4>("packed u32");
    packed::<i16, 4>("packed i16");
    packed::<u32, 5>("packed u32");
    packed::<i16, 5>("packed i16");
    packed::<u32, 8>("packed u32");
    packed::<i16, 8>("packed i16");
    packed::<u32, 10>("packed u32");
    packed::<u32, 12>("packed u32");
    packed::<u32, 16>("packed u32");
    packed::<u32, 20>("packed u32");
    packed::<u32, 32>("packed u32");
    let all = [0x80, 0x80, 0x80, 0x10];
    repeated::<u32, 1>("repeated u32", 1, &all, 1);
    repeated::<i16, 1>("repeated i16", 1, &all, 1);
    repeated::<u32, 1>("repeated u32", 3, &all, 1);
    repeated::<i16, 1>("repeated i16", 3, &all, 1);
    repeated::<u32, 1>("repeated u32", 8, &all, 1);
    repeated::<i16, 1>("repeated i16", 8, &all, 1);
    repeated::<u32, 3>("repeated u32", 20, &all, 1);
    repeated::<u32, 1>("repeated u32, runs of 1000,", 1, &[0xd0, 0x0f], NUMBERS / 1000 + 1);
    repeated::<i16, 1>("repeated i16, runs of 1000,", 1, &[0xd0, 0x0f], NUMBERS / 1000 + 1);
    repeated::<i16, 1>("repeated i16, runs of 8,", 1, &[0x10], NUMBERS / 8);
    copied::<u32>("copied u32");
    copied::<i16>("copied i16");
}
