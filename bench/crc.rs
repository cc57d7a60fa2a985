//! `crc32` against the same loop over a table in Rust.
use crate::table::{Line, least};
use firmware_services::checksum;
use std::hint::black_box;

#[link(name = "bench", kind = "static")]
unsafe extern "C" {
    safe fn crc32_of(bytes: *const u8, len: usize) -> u32;
}

const ROUNDS: u32 = 3_000;
const MOST: usize = 59_200;

fn rattle(bytes: &[u8]) -> u32 {
    crc32_of(bytes.as_ptr(), bytes.len())
}

const fn table() -> [u32; 256] {
    let mut table = [0; 256];
    let mut i = 0;
    while i < 256 {
        let mut c = i as u32;
        let mut k = 0;
        while k < 8 {
            c = if c & 1 == 1 { c >> 1 ^ 0xEDB8_8320 } else { c >> 1 };
            k += 1;
        }
        table[i] = c;
        i += 1;
    }
    table
}

static TABLE: [u32; 256] = table();

#[inline(never)]
fn rust(bytes: &[u8]) -> u32 {
    let mut c = !0u32;
    for &byte in bytes {
        c = TABLE[((c ^ byte as u32) & 255) as usize] ^ (c >> 8);
    }
    !c
}

/// xorshift64, from a fixed start, so that every run has the same bytes.
struct Random(u64);

impl Random {
    fn next(&mut self) -> u64 {
        self.0 ^= self.0 << 13;
        self.0 ^= self.0 >> 7;
        self.0 ^= self.0 << 17;
        self.0
    }
}

/// 100,000 random slices of up to 599 bytes, and the check value of V.42.
fn differences(bytes: &[u8], random: &mut Random) -> usize {
    let mut slice = || {
        let from = random.next() as usize % bytes.len();
        let len = (random.next() as usize % 600).min(bytes.len() - from);
        &bytes[from..from + len]
    };
    let alike = |bytes: &[u8]| rattle(bytes) == rust(bytes);
    let known = rattle(b"123456789") == 0xCBF4_3926 && alike(b"123456789");
    (0..100_000).filter(|_| !alike(slice())).count() + usize::from(!known)
}

pub fn lines() -> Result<Vec<Line>, String> {
    let mut random = Random(0x9E37_79B9_7F4A_7C15);
    let bytes: Vec<u8> = (0..MOST).map(|_| random.next() as u8).collect();
    let differences = differences(&bytes, &mut random);
    if differences > 0 {
        return Err(format!("crc32 of {differences} slices"));
    }
    let line = |(size, len): (&str, usize)| {
        let bytes = &bytes[..len];
        let [rattle, rust] = least(
            ROUNDS,
            (MOST / len) as u32,
            [&mut || _ = black_box(rattle(black_box(bytes))), &mut || _ = black_box(rust(black_box(bytes)))],
        );
        let bar = if len == MOST { "1.3" } else { "" };
        Line::new(format!("crc32 of {size} bytes"), rattle, rust, bar)
    };
    Ok([("59,200", MOST), ("475", 475), ("74", 74)].map(line).into())
}

/// What the Rust calls in reading and writing isn't the loop above: how long it takes of that. Its record has a body of 66 bytes.
pub fn stand_in() -> String {
    let time = |len: usize| {
        let bytes = vec![7; len];
        let [time] = least(ROUNDS, 100, [&mut || _ = black_box(checksum::crc32(black_box(&bytes)))]);
        time
    };
    let (file, record) = (time(471), time(66));
    format!(
        "The Rust's crc32, a stand-in of tests/oracle, takes {file:.0} ns of a file above and {record:.0} ns of its record."
    )
}
