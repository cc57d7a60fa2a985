//! Whole replays of 4,096 acts by the C call of crate `console`, against the Rust: `decode` of the same file, the player's calls from
//! the same sheet bytes, its record by `encode`, of version 1. The Rust is asked no questions, and counts nothing unread.
use crate::table::{Line, least};
use inputs::records::SIZE;
use replays::{Act, MAX_ACTS, Met, answer, replay_of, sheet_of};
use std::hint::black_box;
use vana::ride::log::Sample;
use vana::ride::zones::TrainingProfile;
use vana::workout::history::{self, Record, decode, encode};
use vana::workout::model::{Block, Intensity, Length, MAX_PLAYED, Name, Step, Target, Test, Workout};
use vana::workout::{codec, player::Player};

#[repr(C)]
struct Replayed {
    refusal: u32,
    act: u32,
}

#[link(name = "console", kind = "static")]
unsafe extern "C" {
    safe fn replay(
        workout: *const u8,
        workout_len: usize,
        sheet: *const u8,
        sheet_len: usize,
        journal: u8,
        id: u32,
        start: u64,
        dated: u32,
        out: *mut u8,
        out_len: usize,
    ) -> Replayed;
}

const ROUNDS: u32 = 60;
const JOURNAL: u8 = b'i';
const ID: u32 = 7;
const START: u64 = 1_700_000_000_000;

fn rattle(file: &[u8], sheet: &[u8], out: &mut [u8; SIZE]) -> Replayed {
    let (file_at, sheet_at) = (black_box(file.as_ptr()), black_box(sheet.as_ptr()));
    replay(file_at, file.len(), sheet_at, sheet.len(), JOURNAL, ID, START, 1, out.as_mut_ptr(), SIZE)
}

fn half(bytes: &[u8], at: usize) -> u16 {
    u16::from_le_bytes([bytes[at], bytes[at + 1]])
}

fn word(bytes: &[u8], at: usize) -> u64 {
    u32::from_le_bytes([bytes[at], bytes[at + 1], bytes[at + 2], bytes[at + 3]]).into()
}

/// The same calls on the Rust's player. Ride is its loop over `until_end` and `ride_part`, since `add` reads anew.
fn rust(file: &[u8], sheet: &[u8]) -> [u8; history::SIZE] {
    let mut player = Player::new(codec::decode(black_box(file)).unwrap());
    let sheet = black_box(sheet);
    let (kinds, values) = sheet[2..].split_at(half(sheet, 0).into());
    let mut profile = TrainingProfile { ftp_watts: 0, lthr_bpm: 0 };
    let mut sample = Sample::default();
    for (kind, value) in kinds.iter().zip(values.chunks_exact(8)) {
        match kind {
            0 => profile = TrainingProfile { ftp_watts: half(value, 0), lthr_bpm: half(value, 2) },
            1 => {
                let flags = half(value, 6);
                let reading = |flag: u16, at: usize| (flags & flag != 0).then(|| half(value, at));
                sample = Sample { power_watts: reading(1, 0), heart_bpm: reading(2, 2), cadence_tenths: reading(4, 4) };
                player.read(&sample);
            }
            2 => {
                let (mut ms, mut mm) = (word(value, 0), word(value, 4));
                for _ in 0..=MAX_PLAYED {
                    if player.done() || ms == 0 {
                        break;
                    }
                    let (part_ms, part_mm) = player.until_end(ms, mm);
                    ms -= part_ms;
                    mm -= part_mm;
                    black_box(player.ride_part(part_ms, part_mm, &sample, &profile));
                }
            }
            3 => _ = black_box(player.skip()),
            _ => _ = black_box(player.extend()),
        }
    }
    let workout = player.workout();
    encode(&Record {
        journal: JOURNAL,
        ride_id: ID,
        started_utc_ms: Some(START),
        name: workout.name,
        test: workout.test,
        summary: player.summary(),
    })
}

fn step(intensity: Intensity, length: Length, target: Target) -> Step {
    Step { note: Name::new("HIGH CADENCE, LOW HR"), ..Step::new(intensity, length, target) }
}

fn file(name: &str, steps: &[Step], blocks: &[Block], test: Option<Test>) -> Vec<u8> {
    let workout = Workout::new(name, steps, blocks, test);
    assert!(workout.validate().is_ok());
    codec::encode(&workout).to_vec()
}

/// Twelve steps with notes of 20 bytes and six blocks, 82 played: each target but the ramps, time and distance.
fn full() -> Vec<u8> {
    let steps: Vec<Step> = (0..12u8)
        .map(|i| {
            let target = match i % 6 {
                0 => Target::Free,
                1 => Target::Ftp { low: 50 + i, high: 90 + i },
                2 => Target::Watts { low: 100, high: 180 },
                3 => Target::HeartZone(2),
                4 => Target::Lthr { low: 70, high: 95 },
                _ => Target::Cadence { low: 80, high: 95 },
            };
            let length = if i % 4 == 3 { Length::Distance(100) } else { Length::Time(7 + u16::from(i)) };
            step(Intensity::Work, length, target)
        })
        .collect();
    // 12 steps, and 14 more for each of the first five blocks.
    let blocks: Vec<Block> = (0..6).map(|i| Block { first: 2 * i, len: 2, count: if i < 5 { 8 } else { 1 } }).collect();
    let file = file("OVER UNDERS 12 X 475", &steps, &blocks, None);
    let workout = codec::decode(&file).unwrap();
    assert_eq!((workout.steps().len(), workout.blocks().len(), workout.played_len()), (12, 6, 82));
    file
}

fn test(test: Test, length: Length, target: Target) -> Vec<u8> {
    let warmup = step(Intensity::Warmup, Length::Time(60), Target::Ftp { low: 40, high: 60 });
    let cooldown = step(Intensity::Cooldown, Length::Time(1_200), Target::HeartZone(1));
    file("A TEST", &[warmup, step(Intensity::Test, length, target), cooldown], &[], Some(test))
}

/// A profile, then a reading and a ride by turns, with a skip for each 97th act and an extend of kind 4, which is the Rust's, for each
/// 61st where `touched`.
fn sheet(ms: u32, touched: bool, watts: impl Fn(usize) -> usize) -> Vec<u8> {
    let act = |i: usize| match i {
        0 => Act::Profile(250, 165),
        _ if touched && i % 97 == 0 => Act::Skip,
        _ if touched && i % 61 == 0 => Act::ExtendLong,
        _ if i % 2 == 1 => Act::Read(Sample {
            power_watts: Some(watts(i) as u16),
            heart_bpm: (i % 16 != 1).then_some(120 + (i % 50) as u16),
            cadence_tenths: Some(780 + (i % 190) as u16),
        }),
        _ => Act::Ride(ms, 8 * ms + (i % 100) as u32),
    };
    sheet_of(&(0..MAX_ACTS).map(act).collect::<Vec<Act>>())
}

/// What is replayed: a name, the workout file and the sheet.
fn inputs() -> [(&'static str, Vec<u8>, Vec<u8>); 4] {
    let uneven = |i: usize| 90 + i * 37 % 120;
    // A ride is every second act, so a minute of the ramp is 480 acts of 250 ms: the rider stays a little over its stage, and
    // gives up near the end.
    let rising = |i: usize| if i < 3_900 { 100 + 20 * (i.saturating_sub(480) / 480) + i % 9 } else { 60 };
    let ramp = Target::Ramp { start: 100, step: 20, every: 60 };
    [
        ("mixed, rides of 250 ms", full(), sheet(250, true, uneven)),
        ("mixed, rides of 1,000 ms", full(), sheet(1_000, true, uneven)),
        ("ramp test, rides of 250 ms", test(Test::Ramp, Length::Open, ramp), sheet(250, false, rising)),
        (
            "twenty test, rides of 1,000 ms",
            test(Test::Twenty, Length::Time(1_200), Target::Free),
            sheet(1_000, false, uneven),
        ),
    ]
}

pub fn lines() -> Result<Vec<Line>, String> {
    let mut lines = Vec::new();
    for (name, file, sheet) in &inputs() {
        let mut out = [0; SIZE];
        let given = rattle(file, sheet, &mut out);
        if given.refusal != 0 {
            return Err(format!("replay {name}: refused {} at act {}", given.refusal, given.act));
        }
        // All that the Rust's record has, and the bytes of the model, which has unread too.
        let judged = answer(&replay_of(file.clone(), sheet.clone()), &mut Met::default()).record;
        if decode(&out) != decode(&rust(file, sheet)) || out != judged {
            return Err(format!("replay {name}: Rattle {out:?}, model {judged:?}, Rust {:?}", rust(file, sheet)));
        }
        let [rattle, rust] = least(
            ROUNDS,
            1,
            [&mut || _ = black_box(rattle(file, sheet, &mut out)), &mut || _ = black_box(rust(file, sheet))],
        );
        lines.push(Line::new(format!("replay of 4,096 acts, {name}"), rattle, rust, "1.0"));
    }
    Ok(lines)
}
