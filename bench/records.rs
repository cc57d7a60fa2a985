//! Reading and writing a ride record with all of its fields: by the Rattle one of version 2, 74 bytes, by the Rust its own of version 1,
//! 70 bytes.
use crate::table::{Line, reading_and_writing};
use inputs::records::{SIZE, written};
use std::hint::black_box;
use vana::workout::history::{self, Record, decode, encode};
use vana::workout::model::{Name, Test};
use vana::workout::player::Summary;

#[link(name = "bench", kind = "static")]
unsafe extern "C" {
    safe fn read_record(bytes: *const u8, length: usize, place: u32) -> u32;
    safe fn read_and_write_record(bytes: *const u8, length: usize, out: *mut u8, room: usize) -> u32;
}

const CALLS: u32 = 200;
/// Document 01's number of the refusal of a record.
const REFUSED: u32 = 18;

fn rattle_read(bytes: &[u8], place: u32) -> u32 {
    read_record(black_box(bytes.as_ptr()), bytes.len(), black_box(place))
}

fn rattle_write(bytes: &[u8], out: &mut [u8; SIZE]) -> u32 {
    read_and_write_record(black_box(bytes.as_ptr()), bytes.len(), out.as_mut_ptr(), SIZE)
}

const UNREAD_MS: u64 = 300_000;

fn record() -> Record {
    Record {
        journal: b'i',
        ride_id: 7,
        started_utc_ms: Some(1_700_000_000_000),
        name: Name::new("OVER UNDERS 12 X 475"),
        test: Some(Test::Twenty),
        summary: Summary {
            steps: 82,
            steps_done: 81,
            skipped: 1,
            targeted_ms: 3_600_000,
            in_ms: 3_000_000,
            under_ms: 400_000,
            over_ms: 200_000,
            finished: true,
            ftp: Some(251),
        },
    }
}

/// Each side's own record is the same read and written again, each reads the other's, and with one bit changed both refuse it.
fn alike(bytes: &[u8; SIZE], first: &[u8; history::SIZE]) -> bool {
    let (mut out, mut damaged) = ([0; SIZE], *bytes);
    damaged[40] ^= 1;
    let again = rattle_write(bytes, &mut out) == 0 && out == *bytes && encode(&decode(first).unwrap()) == *first;
    let read = rattle_read(bytes, 0) == 0 && rattle_read(first, 0) == 0 && decode(bytes) == decode(first);
    again && read && rattle_read(&damaged, 0) == REFUSED && decode(&damaged).is_none()
}

pub fn lines() -> Result<Vec<Line>, String> {
    let (bytes, first) = (written(&record(), UNREAD_MS), encode(&record()));
    if !alike(&bytes, &first) {
        return Err("a record as it is read or written".to_string());
    }
    let mut out = [0; SIZE];
    let rust_read = || decode(black_box(&first));
    Ok(reading_and_writing(
        ["record read, 74 bytes (the Rust's 70)", "record write, 74 bytes (the Rust's 70)"],
        "",
        CALLS,
        [
            &mut || _ = black_box(rattle_read(&bytes, 20)),
            &mut || _ = black_box(&rust_read()),
            &mut || _ = black_box(rattle_write(&bytes, &mut out)),
            &mut || _ = black_box(&encode(&rust_read().unwrap())),
        ],
    ))
}
