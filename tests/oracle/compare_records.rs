//! Ride records read by both sides, and written: the Rust's `decode`, with unread by the model of records.rs, and the Rattle's through
//! the static library of crate `compare_records`, on samples, limits, damaged records and random ones, those that the Rust's `encode`
//! writes in version 1 among them. The Rust writes no version 2, so what the Rattle writes is held to the model's bytes: of each record
//! that is read, and of random fields handed in; and the Rust's `decode` of those must show every field it knows at the right value.
//! The reader of tools/record.rs is held to the Rattle's on every record. Words: how many random records, and as many random fields,
//! and the seed. Writes how many were compared, read and refused, and what was met. Fails where an answer or a byte differs, where the
//! Rattle's writer touches a byte behind the record or, lent too few, any byte, and where nothing of a kind was met.
//!
//! The 29 words of an answer: document 01's number of the refusal or 0, journal, ride id, test (0 none, 1 `Twenty`, 2 `Ramp`),
//! the start (1 or 0 for none, its lower and upper 32 bits); steps done, steps, skipped, 1 if finished, FTP (1 or 0 for none, watts);
//! targeted, in, under, over, unread (lower and upper 32 bits each); the name's length and its 20 bytes in five words. A refused record
//! is 0 everywhere else.
extern crate vana;

#[allow(dead_code)]
#[path = "../../tools/record.rs"]
mod tool;

use inputs::Random;
use inputs::records::{
    BODY, BODY_1, SIZE, limit_made, limit_records, random_bytes, random_made, shown, unread_in, written,
};
use tool::Fields;
use vana::workout::history::{self, Record, decode, encode};
use vana::workout::model::Test;

const WORDS: usize = 29;
const REFUSED: u32 = 18;

#[link(name = "compare_records", kind = "static")]
unsafe extern "C" {
    /// Word `place` of the answer. A slice goes as its pointer and its length.
    safe fn record_word(bytes: *const u8, length: usize, place: u32) -> u32;
    /// What is read, written again; the number of the writer's refusal.
    safe fn record_written(bytes: *const u8, length: usize, out: *mut u8, places: usize) -> u32;
    /// A record of the fields handed in, written; the number of the writer's refusal.
    safe fn record_made(input: *const u8, length: usize, out: *mut u8, places: usize) -> u32;
}

fn ours(bytes: &[u8]) -> [u32; WORDS] {
    std::array::from_fn(|place| record_word(bytes.as_ptr(), bytes.len(), place as u32))
}

/// The bytes that were lent never hold this one.
const LENT: u8 = 0xA5;
const NO_ROOM: u32 = 19;
/// One byte too few, and the bytes of a version 1 record.
const TOO_FEW: [usize; 2] = [SIZE - 1, history::SIZE];

/// Written as the model has it, later bytes stay, and lent too few all stay.
fn written_alike(write: impl Fn(&mut [u8]) -> u32, wanted: &[u8; SIZE]) -> bool {
    let stays = |bytes: &[u8]| bytes.iter().all(|&byte| byte == LENT);
    let refuses = |room: usize| {
        let mut short = [LENT; SIZE + 5];
        write(&mut short[..room]) == NO_ROOM && stays(&short)
    };
    let mut out = [LENT; SIZE + 5];
    let mut exact = [LENT; SIZE];
    write(&mut out) == 0
        && out[..SIZE] == wanted[..]
        && stays(&out[SIZE..])
        && write(&mut exact) == 0
        && exact == *wanted
        && TOO_FEW.into_iter().all(refuses)
}

fn halves(number: u64) -> [u32; 2] {
    [number as u32, (number >> 32) as u32]
}

fn test_number(test: Option<Test>) -> u32 {
    match test {
        None => 0,
        Some(Test::Twenty) => 1,
        Some(Test::Ramp) => 2,
    }
}

/// The words of what the Rust read, and of unread.
fn words(record: &Record, unread: u64) -> Vec<u32> {
    let summary = &record.summary;
    let mut words = vec![0, record.journal.into(), record.ride_id, test_number(record.test)];
    words.push(record.started_utc_ms.is_some().into());
    words.extend(halves(record.started_utc_ms.unwrap_or(0)));
    words.extend([summary.steps_done, summary.steps, summary.skipped].map(u32::from));
    words.push(summary.finished.into());
    words.extend([u32::from(summary.ftp.is_some()), summary.ftp.unwrap_or(0).into()]);
    for ms in [summary.targeted_ms, summary.in_ms, summary.under_ms, summary.over_ms, unread] {
        words.extend(halves(ms));
    }
    words.extend(name_words(record.name.as_bytes()));
    words
}

fn name_words(name: &[u8]) -> Vec<u32> {
    let mut text = [0; 20];
    text[..name.len()].copy_from_slice(name);
    let words = text.chunks_exact(4).map(|bytes| u32::from_le_bytes(bytes.try_into().unwrap()));
    [name.len() as u32].into_iter().chain(words).collect()
}

fn refused_words() -> Vec<u32> {
    let mut words = vec![0; WORDS];
    words[0] = REFUSED;
    words
}

/// The words of what tools/record.rs reads.
fn tool_words(read: Result<Fields, String>) -> Vec<u32> {
    let Ok(fields) = read else { return refused_words() };
    let mut words = vec![0, fields.journal.into(), fields.ride_id, fields.test.into()];
    words.push(fields.started_utc_ms.is_some().into());
    words.extend(halves(fields.started_utc_ms.unwrap_or(0)));
    words.extend([fields.steps_done, fields.steps, fields.skipped].map(u32::from));
    words.push(fields.finished.into());
    words.extend([u32::from(fields.ftp.is_some()), fields.ftp.unwrap_or(0).into()]);
    for ms in [fields.targeted_ms, fields.in_ms, fields.under_ms, fields.over_ms, fields.unread_ms] {
        words.extend([ms, 0]);
    }
    words.extend(name_words(fields.name.as_bytes()));
    words
}

/// What `record_made` takes: 21 words, then the name's bytes.
fn input_of(record: &Record, unread: u64, name: &[u8]) -> Vec<u8> {
    let summary = &record.summary;
    let mut words = vec![record.journal.into(), record.ride_id, record.started_utc_ms.is_some().into()];
    words.extend(halves(record.started_utc_ms.unwrap_or(0)));
    words.extend([test_number(record.test), summary.finished.into()]);
    words.push(summary.ftp.map_or(0, |watts| 1 + u32::from(watts)));
    words.extend([summary.steps_done, summary.steps, summary.skipped].map(u32::from));
    for ms in [summary.targeted_ms, summary.in_ms, summary.under_ms, summary.over_ms, unread] {
        words.extend(halves(ms));
    }
    let bytes = words.iter().flat_map(|word: &u32| word.to_le_bytes());
    bytes.chain(name.iter().copied()).collect()
}

/// Differences written out, so many of them.
const SHOWN: u64 = 5;

/// What was compared, and how often each kind was met.
#[derive(Default)]
struct Found {
    read: u64,
    /// Of those: of a version above 2, with a body above version 2's, other flags, later bytes, a name that was mended.
    versions: u64,
    longer: u64,
    flags: u64,
    later: u64,
    mended: u64,
    refused: u64,
    /// Records that the Rust wrote, version 1, and read again; version 1 records in all.
    rust_wrote: u64,
    version_1: u64,
    /// Of those read: with unread above 0, also of a version above 2; not read though place 66 isn't 0, in version 1 with a body of 70 or
    /// more, and in a later version with a body of 66 to 69.
    unread: u64,
    unread_later: u64,
    unread_version_1: u64,
    unread_short: u64,
    /// New records of fields handed in, of which the Rust's `decode` shows what it knows; those with unread, and with another number, that
    /// four bytes can't hold.
    made: u64,
    unread_limited: u64,
    limited: u64,
    different: u64,
}

impl Found {
    /// Counts a difference, and says whether it is to be written out.
    fn differs(&mut self, alike: bool) -> bool {
        self.different += u64::from(!alike);
        !alike && self.different <= SHOWN
    }

    fn count(&mut self, bytes: &[u8], record: &Record, unread: u64) {
        let (version, body) = (bytes[4], usize::from(bytes[5]));
        let name = record.name.as_bytes();
        let stands = bytes[BODY_1..body.min(BODY)].iter().any(|&byte| byte > 0);
        self.read += 1;
        self.versions += u64::from(version > 2);
        self.longer += u64::from(body > BODY);
        self.flags += u64::from(bytes[7] > 7);
        self.later += u64::from(bytes.len() > body + 4);
        self.mended += u64::from(&bytes[21..21 + name.len()] != name);
        self.version_1 += u64::from(version == 1);
        self.rust_wrote += u64::from(version == 1 && bytes == encode(record));
        self.unread += u64::from(unread > 0);
        self.unread_later += u64::from(unread > 0 && version > 2);
        self.unread_version_1 += u64::from(stands && version == 1 && body >= BODY);
        self.unread_short += u64::from(stands && version > 1 && body < BODY);
    }

    /// Reads some bytes by both sides and by the tool, and writes again what was read.
    fn compare(&mut self, bytes: &[u8]) {
        let judged = match decode(bytes) {
            Some(record) => {
                let unread = unread_in(bytes);
                self.count(bytes, &record, unread);
                let write = |out: &mut [u8]| record_written(bytes.as_ptr(), bytes.len(), out.as_mut_ptr(), out.len());
                if self.differs(written_alike(write, &written(&record, unread))) {
                    println!("record {bytes:?} is written otherwise");
                }
                words(&record, unread)
            }
            None => {
                self.refused += 1;
                refused_words()
            }
        };
        let ours = ours(bytes);
        if self.differs(ours[..] == judged[..]) {
            println!("record {bytes:?}\n  Rust   {judged:?}\n  Rattle {ours:?}");
        }
        let tool = tool_words(tool::fields(bytes));
        if self.differs(ours[..] == tool[..]) {
            println!("record {bytes:?}\n  tools/record {tool:?}\n  Rattle {ours:?}");
        }
    }

    /// Writes a record of these fields, and reads it by both sides.
    fn make(&mut self, record: &Record, unread: u64, name: &[u8]) {
        let input = input_of(record, unread, name);
        let summary = &record.summary;
        let past = |ms: u64| ms > u64::from(u32::MAX);
        self.made += 1;
        self.unread_limited += u64::from(past(unread));
        self.limited +=
            u64::from([summary.targeted_ms, summary.in_ms, summary.under_ms, summary.over_ms].into_iter().any(past));
        let write = |out: &mut [u8]| record_made(input.as_ptr(), input.len(), out.as_mut_ptr(), out.len());
        let mut out = [0; SIZE];
        let number = write(&mut out);
        let shows = decode(&out);
        if self.differs(number == 0 && shows == Some(shown(record))) {
            println!("fields {record:?}, unread {unread}: refused {number}, the Rust reads {shows:?}");
        }
        let wanted = written(record, unread);
        if self.differs(written_alike(write, &wanted)) {
            println!("fields {record:?}, unread {unread}\n  model  {wanted:?}\n  Rattle {out:?}");
        }
        self.compare(&out);
    }

    fn met(&self) -> [u64; 15] {
        [
            self.versions,
            self.longer,
            self.flags,
            self.later,
            self.mended,
            self.refused,
            self.rust_wrote,
            self.version_1,
            self.unread,
            self.unread_later,
            self.unread_version_1,
            self.unread_short,
            self.made,
            self.unread_limited,
            self.limited,
        ]
    }
}

fn main() {
    let numbers: Vec<u64> = std::env::args().skip(1).map(|word| word.parse().expect("COUNT SEED")).collect();
    let [count, seed] = numbers[..] else { panic!("COUNT SEED") };
    let mut random = Random(seed);
    let mut found = Found::default();
    limit_records().for_each(|bytes| found.compare(&bytes));
    limit_made().iter().for_each(|(record, unread, name)| found.make(record, *unread, name));
    (0..count).for_each(|_| found.compare(&random_bytes(&mut random)));
    for _ in 0..count {
        let (record, unread, name) = random_made(&mut random);
        found.make(&record, unread, &name);
    }
    println!(
        "records: {} compared, {} read (of a version above 2 {}, with a body above 70 {}, other flags {}, later bytes {}, a mended name {}), {} refused by 18, {} different",
        found.read + found.refused,
        found.read,
        found.versions,
        found.longer,
        found.flags,
        found.later,
        found.mended,
        found.refused,
        found.different
    );
    println!(
        "version 1 records read: {}, {} of them as the Rust's encode writes them",
        found.version_1, found.rust_wrote
    );
    println!(
        "unread above 0: {}, {} of them of a version above 2; not read: {} of version 1 with a body of 70 or more, {} of a later version with a body of 66 to 69",
        found.unread, found.unread_later, found.unread_version_1, found.unread_short
    );
    println!(
        "new records that the Rust decodes: {}, with unread limited {}, another number limited {}",
        found.made, found.unread_limited, found.limited
    );
    let missing = found.met().contains(&0);
    if missing {
        println!("a kind of record wasn't met");
    }
    std::process::exit((found.different > 0 || missing).into());
}
