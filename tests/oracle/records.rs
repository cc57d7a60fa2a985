//! Ride records: a model of their bytes and of what a reader takes as unread, from the Rust's table of version 1 and document 02's
//! request g; and samples, limits, every byte at every value, cuts, and random ones, of version 2, of version 1 as the Rust writes
//! it, damaged or of later versions.
extern crate vana;

use super::Random;
use firmware_services::checksum::crc32;
use vana::workout::history::{Record, encode};
use vana::workout::model::{Name, Test};
use vana::workout::player::Summary;

/// Body bytes of version 1, which every later version has, and of version 2.
pub const BODY_1: usize = 66;
pub const BODY: usize = 70;
const CHECK_BYTES: usize = 4;
/// "question 19 asks 74 bytes for a record"
pub const SIZE: usize = BODY + CHECK_BYTES;
/// The longest body that a record's length byte can say.
const LONGEST: usize = 255;
/// Places in a record.
const VERSION: usize = 4;
const LENGTH: usize = 5;
const NAME_END: usize = 41;
const UNREAD: usize = 66;

/// "limited like the others": milliseconds that 4 bytes can't hold are written as the most that they can.
fn limited(ms: u64) -> u32 {
    ms.min(4_294_967_295) as u32
}

/// "The record is written as version 2, body 70, with unread as a 4-byte number at 66, limited like the others, and the check word
/// at 70." All else is the Rust's table of version 1. The Rust's `Record` has no unread.
pub fn written(record: &Record, unread: u64) -> [u8; SIZE] {
    let summary = &record.summary;
    let finished = u8::from(summary.finished);
    let dated = u8::from(record.started_utc_ms.is_some());
    let measured = u8::from(summary.ftp.is_some());
    let mut bytes = b"VWKO".to_vec();
    bytes.extend([2, 70, record.journal, finished + 2 * dated + 4 * measured]);
    bytes.extend(record.ride_id.to_le_bytes());
    bytes.extend(record.started_utc_ms.unwrap_or(0).to_le_bytes());
    bytes.push(record.name.as_bytes().len() as u8);
    bytes.extend(record.name.as_bytes());
    bytes.resize(NAME_END, 0);
    bytes.push(match record.test {
        None => 0,
        Some(Test::Twenty) => 1,
        Some(Test::Ramp) => 2,
    });
    for steps in [summary.steps_done, summary.steps, summary.skipped] {
        bytes.extend(steps.to_le_bytes());
    }
    for ms in [summary.targeted_ms, summary.in_ms, summary.under_ms, summary.over_ms] {
        bytes.extend(limited(ms).to_le_bytes());
    }
    bytes.extend(summary.ftp.unwrap_or(0).to_le_bytes());
    bytes.extend(limited(unread).to_le_bytes());
    checked(&bytes).try_into().expect("a record has 74 bytes")
}

/// "the Rust's `decode`, given a new record, must show every field it knows at the right value": the record that it must show.
pub fn shown(record: &Record) -> Record {
    let ms = |ms| u64::from(limited(ms));
    let summary = &record.summary;
    let [targeted_ms, in_ms] = [summary.targeted_ms, summary.in_ms].map(ms);
    let [under_ms, over_ms] = [summary.under_ms, summary.over_ms].map(ms);
    Record { summary: Summary { targeted_ms, in_ms, under_ms, over_ms, ..*summary }, ..*record }
}

/// What a reader takes as unread of a record that is read: "A version 1 record reads as unread 0, as does any body shorter than 70."
pub fn unread_in(bytes: &[u8]) -> u64 {
    if bytes[VERSION] < 2 || bytes[LENGTH] < 70 {
        return 0;
    }
    let four = bytes[UNREAD..UNREAD + 4].try_into().expect("unread has 4 bytes");
    u32::from_le_bytes(four).into()
}

/// What a record is made of: journal, id, start and whether it is dated, name, test, the summary that the Rust knows, and unread.
pub struct Ride {
    pub journal: u8,
    pub id: u32,
    pub start: u64,
    pub dated: bool,
    pub name: &'static str,
    pub test: Option<Test>,
    pub summary: Summary,
    pub unread: u64,
}

impl Ride {
    /// As it is written.
    pub fn bytes(&self) -> [u8; SIZE] {
        written(&self.record(), self.unread)
    }

    pub fn record(&self) -> Record {
        Record {
            journal: self.journal,
            ride_id: self.id,
            started_utc_ms: self.dated.then_some(self.start),
            name: Name::new(self.name),
            test: self.test,
            summary: self.summary,
        }
    }
}

/// Steps done, steps, skipped; targeted, in, under, over.
fn summary(steps: [u16; 3], ms: [u64; 4], finished: bool, ftp: Option<u16>) -> Summary {
    let [steps_done, steps, skipped] = steps;
    let [targeted_ms, in_ms, under_ms, over_ms] = ms;
    Summary { steps_done, steps, skipped, targeted_ms, in_ms, under_ms, over_ms, finished, ftp }
}

/// The rides that the definition of a record's bytes is held against: both sides of 4,294,967,295 ms, of unread too and with the
/// others limited or not, dated or not, with and without an FTP, each flag alone, each test, names of 0, 1, 19 and 20 bytes, and all
/// bytes of each number different.
pub fn samples() -> Vec<Ride> {
    const LIMIT: u64 = 4_294_967_295;
    let ride = |journal, id, start, dated, name, test, summary, unread| Ride {
        journal,
        id,
        start,
        dated,
        name,
        test,
        summary,
        unread,
    };
    let none = summary([0; 3], [0; 4], false, None);
    vec![
        ride(0, 0, 0, false, "", None, none, 0),
        ride(
            b'i',
            7,
            1_700_000_000_000,
            true,
            "OVER UNDERS 12 X 475",
            Some(Test::Twenty),
            summary([12, 12, 1], [3_600_000, 3_000_000, 400_000, 200_000], true, Some(250)),
            1_234_567,
        ),
        ride(
            b'b',
            u32::MAX,
            u64::MAX,
            true,
            "RAMP",
            Some(Test::Ramp),
            summary([65_535; 3], [LIMIT + 1, u64::MAX, LIMIT, LIMIT + 2], false, None),
            77_000,
        ),
        ride(b'b', 1, 0, true, "~", None, summary([0, 1, 0], [LIMIT - 1, 1, 2, 3], false, Some(0)), LIMIT + 1),
        ride(b'i', 2, 77, false, "4X4", None, summary([96; 3], [1, 0, 0, 1], true, Some(65_535)), u64::MAX),
        ride(b'i', 3, 0, false, "", None, summary([1, 1, 0], [0; 4], true, None), LIMIT),
        ride(b'i', 4, 1, true, "", None, none, 1),
        ride(b'i', 5, 0, false, "", Some(Test::Ramp), summary([0, 1, 0], [0; 4], false, Some(50)), LIMIT - 1),
        ride(
            255,
            0x0403_0201,
            0x0C0B_0A09_0807_0605,
            true,
            "ABCDEFGHIJKLMNOPQRS",
            Some(Test::Twenty),
            summary([0x0E0D, 0x100F, 0x1211], [0x1615_1413, 0x1A19_1817, 0x1E1D_1C1B, 0x2221_201F], true, Some(0x2423)),
            0x2827_2625,
        ),
        ride(
            b'b',
            256,
            256,
            false,
            "SWEET SPOT 90%, @`",
            Some(Test::Ramp),
            summary([2, 5, 1], [600_000, 100_000, 200_000, 300_000], false, Some(600)),
            400_000,
        ),
    ]
}

/// Bytes that the definition of reading is held against: of version 3 with a longer body and later bytes; with other flags, a
/// start and an FTP that the flags don't say, and a name that is mended; then version 0, a body of 65 bytes, a wrong check word, a
/// name of 21 bytes, test 3, a check word that isn't whole, and five bytes. Then for unread: what the Rust wrote, of version 1;
/// version 2 as it is written; version 1 with a body of 70; version 2 with a body of 69; and the check word where version 1 has it,
/// before unread.
pub fn read_samples() -> Vec<Vec<u8>> {
    let ride = &samples()[1];
    let whole = ride.bytes().to_vec();
    let with = |values: &[(usize, u8)]| {
        let mut bytes = whole.clone();
        values.iter().for_each(|&(at, value)| bytes[at] = value);
        mend(&mut bytes);
        bytes
    };
    let mut later = with_body(&with(&[(VERSION, 3)]), 74, || 165);
    later.extend([1, 2, 3]);
    let other = with(&[(7, 0xF9), (21, b'o'), (23, 0), (24, 127), (25, b'z'), (26, b'{'), (27, 200), (28, b'`')]);
    let mut unchecked = whole.clone();
    unchecked[BODY] ^= 1;
    vec![
        later,
        other,
        with(&[(VERSION, 0)]),
        with(&[(LENGTH, 65)]),
        unchecked,
        with(&[(20, 21)]),
        with(&[(NAME_END, 3)]),
        whole[..SIZE - 1].to_vec(),
        whole[..5].to_vec(),
        encode(&ride.record()).to_vec(),
        samples()[8].bytes().to_vec(),
        with(&[(VERSION, 1)]),
        with_body(&whole, BODY - 1, || 0),
        old_check(&whole),
    ]
}

/// A body with its check word.
fn checked(body: &[u8]) -> Vec<u8> {
    [body, &crc32(body).to_le_bytes()].concat()
}

/// A record with one byte of it set, as it is and with the check word mended where the record says that it stands.
fn with_byte(record: &[u8], at: usize, value: u8) -> [Vec<u8>; 2] {
    let mut set = record.to_vec();
    set[at] = value;
    let mut mended = set.clone();
    mend(&mut mended);
    [set, mended]
}

/// The check word put where the length byte says, if that is within the bytes.
fn mend(bytes: &mut [u8]) {
    let Some(&body) = bytes.get(5) else { return };
    let body = usize::from(body);
    if bytes.len() >= body + CHECK_BYTES {
        let check = crc32(&bytes[..body]).to_le_bytes();
        bytes[body..body + CHECK_BYTES].copy_from_slice(&check);
    }
}

/// The record with a body of so many bytes: its own first ones, those past them are given, and the check word is right.
fn with_body(record: &[u8], body: usize, later: impl FnMut() -> u8) -> Vec<u8> {
    let own = usize::from(record[LENGTH]);
    let mut bytes = record[..own.min(body)].to_vec();
    bytes.resize_with(body, later);
    bytes[LENGTH] = body as u8;
    checked(&bytes)
}

/// The check word at version 1's place, of the bytes before it, and unread behind it; the length byte as it was.
fn old_check(record: &[u8]) -> Vec<u8> {
    [&checked(&record[..BODY_1])[..], &record[BODY_1..BODY]].concat()
}

/// The samples as they are, as the Rust writes them in version 1, and with the check word at version 1's place. Then the first three:
/// as the Rust writes them cut at every place; of version 2 cut at every place, with later bytes, with bodies of every length from
/// version 1's on in versions 1, 2, 3 and 255, and with each byte at every value, the check word as it was and mended.
pub fn limit_records() -> impl Iterator<Item = Vec<u8>> {
    let plain = samples().into_iter().flat_map(|ride| {
        let whole = ride.bytes().to_vec();
        [old_check(&whole), whole, encode(&ride.record()).to_vec()]
    });
    plain.chain(samples().into_iter().take(3).flat_map(|ride| {
        let (record, first) = (ride.bytes(), encode(&ride.record()));
        let mut records: Vec<Vec<u8>> = (0..first.len()).map(|len| first[..len].to_vec()).collect();
        records.extend((0..=record.len()).map(|len| record[..len].to_vec()));
        records.extend((0..=230).map(|more| [&record[..], &vec![more as u8; more]].concat()));
        for version in [1, 2, 3, 255] {
            let mut of_version = record;
            of_version[VERSION] = version;
            for body in BODY_1..=LONGEST {
                let long = with_body(&of_version, body, || 165);
                records.push(long[..long.len() - 1].to_vec());
                records.push([&long[..], &[1, 2, 3]].concat());
                records.push(long);
            }
        }
        for at in 0..record.len() {
            records.extend((0..=255).flat_map(|value| with_byte(&record, at, value)));
        }
        records
    }))
}

/// A record, its unread, and the bytes that its name is made of.
pub type Made = (Record, u64, Vec<u8>);

/// Fields to write a record of: the samples; in one of them every byte and each length of a name; and the five numbers of milliseconds
/// at each of four values, all together.
pub fn limit_made() -> Vec<Made> {
    const MS: [u64; 4] = [0, 4_294_967_295, 4_294_967_296, u64::MAX];
    let mut made: Vec<Made> =
        samples().iter().map(|ride| (ride.record(), ride.unread, ride.name.as_bytes().to_vec())).collect();
    let (record, unread, name) = made[8].clone();
    let texts = (0..16).map(|part| (16 * part..=16 * part + 15).collect());
    let lengths = [0, 1, 19, 20, 21, 40].map(|len| vec![b'a'; len]);
    let named =
        texts.chain(lengths).map(|text: Vec<u8>| (Record { name: Name::from_bytes(&text), ..record }, unread, text));
    made.extend(named);
    for i in 0..MS.len().pow(5) {
        let [targeted_ms, in_ms, under_ms, over_ms, unread] =
            [0, 1, 2, 3, 4].map(|place| MS[i / 4usize.pow(place) % 4]);
        let summary = Summary { targeted_ms, in_ms, under_ms, over_ms, ..record.summary };
        made.push((Record { summary, ..record }, unread, name.clone()));
    }
    made
}

impl Random {
    fn ms(&mut self) -> u64 {
        match self.below(8) {
            0 => self.next(),
            1 => 4_294_967_290 + u64::from(self.below(12)),
            2 => 0,
            3 => u64::MAX,
            _ => u64::from(self.below(604_800_001)),
        }
    }

    fn small(&mut self) -> u16 {
        if self.once_in(2) { self.below(65_536) as u16 } else { self.below(98) as u16 }
    }

    /// Any record with any unread, so past what a player counts too, now and then of a longer text than a name takes.
    fn record(&mut self) -> Made {
        let length = if self.once_in(16) { self.below(41) } else { self.below(21) };
        let text: Vec<u8> = (0..length).map(|_| self.below(256) as u8).collect();
        let record = Record {
            journal: if self.once_in(2) { b'i' } else { self.below(256) as u8 },
            ride_id: self.next() as u32,
            started_utc_ms: (!self.once_in(2)).then(|| self.next()),
            name: Name::from_bytes(&text),
            test: match self.below(3) {
                0 => None,
                1 => Some(Test::Twenty),
                _ => Some(Test::Ramp),
            },
            summary: summary(
                [self.small(), self.small(), self.small()],
                [self.ms(), self.ms(), self.ms(), self.ms()],
                self.once_in(2),
                (!self.once_in(2)).then(|| self.small()),
            ),
        };
        (record, self.ms(), text)
    }
}

/// Fields to write a record of, any that there are.
pub fn random_made(random: &mut Random) -> Made {
    random.record()
}

/// Random bytes: a record as it is written; as the Rust writes it, version 1; of any version with a body of 66 bytes or more, other
/// flags and any bytes in its name; with some bytes set and the check word mended or not, or at version 1's place; cut or with
/// later bytes; or any bytes, 0 to 300 of them.
pub fn random_bytes(random: &mut Random) -> Vec<u8> {
    let (record, unread, _) = random.record();
    let mut bytes = written(&record, unread).to_vec();
    match random.below(12) {
        0 => {}
        1 => {
            for _ in 0..random.within(1, 3) {
                let at = random.below(bytes.len() as u32) as usize;
                bytes[at] = random.below(256) as u8;
            }
        }
        2 => {
            let len = random.below(301) as usize;
            bytes = (0..len).map(|_| random.below(256) as u8).collect();
            if random.once_in(2) {
                let start = [b'V', b'W', b'K', b'O', 1 + random.below(255) as u8, random.within(60, 255) as u8];
                let n = len.min(start.len());
                bytes[..n].copy_from_slice(&start[..n]);
                mend(&mut bytes);
            }
        }
        3 => bytes = encode(&record).to_vec(),
        4 => bytes = old_check(&bytes),
        _ => {
            let body = match random.below(4) {
                0 => random.within(66, 255) as usize,
                1 => random.within(66, 71) as usize,
                _ => BODY,
            };
            bytes = with_body(&bytes, body, || random.below(256) as u8);
            bytes[VERSION] = random.one_of(&[0, 1, 1, 2, 2, 2, 3, 255]) as u8;
            if random.once_in(2) {
                bytes[7] = random.below(256) as u8;
            }
            if random.once_in(2) {
                bytes[20] = random.one_of(&[0, 1, 5, 19, 20, 20, 21, 255]) as u8;
                (21..NAME_END).for_each(|at| bytes[at] = random.below(256) as u8);
            }
            if random.once_in(4) {
                bytes[NAME_END] = random.below(5) as u8;
            }
            if random.once_in(4) {
                let at = random.below(bytes.len() as u32) as usize;
                bytes[at] = random.below(256) as u8;
            }
            if random.once_in(8) {
                bytes[LENGTH] = random.one_of(&[0, 65, 66, 67, 69, 70, 71, 74, 254, 255]) as u8;
            }
            mend(&mut bytes);
            if random.once_in(4) {
                let len = random.below(301) as usize;
                bytes.resize(len, random.below(256) as u8);
            }
        }
    }
    bytes
}
