//! What the Rust is asked, and its answers. A question is a number (its place in `NAMES`) with bytes as its input; the answer
//! is 32-bit words. Input bytes are little-endian 32-bit words, 0 past the end, except where a question takes text or a
//! file. Numbers wider than what the Rust takes lose their upper bits. Crates `compare` and `compare_files` answer the same
//! questions.
//!
//! | question | input | answer |
//! | --- | --- | --- |
//! | percent | base, pct | what `band` gives for `Ftp` (at most 65,535), what `ramp` gives for `FtpRamp` (lower 16 bits) |
//! | power_zone, heart_zone | FTP, LTHR, reading | zone |
//! | power_range, heart_range | FTP, LTHR, zone | where it begins, where the next begins |
//! | band | FTP, LTHR, seconds, target | 1 or 0 for none, metric (0 power, 1 heart, 2 cadence), low, high |
//! | ramp | FTP, LTHR, target | 1 or 0 for none, start, step, every |
//! | stage | start, step, every, seconds, stage | stage at the seconds, watts of the stage, watts at the seconds |
//! | name | text | length, then 20 bytes |
//! | validate | workout | 0, or document 01's number |
//! | order | workout | played length, planned seconds, 1 if a step is untimed, then a word for each position and one past the last |
//! | file | workout file | document 01's number of the refusal, or 0 and what was read: test, step count, block count, name, steps, blocks, then as `order` |
//! | written | workout file | how many bytes writing what was read gives, then those bytes and the two words behind them |
//!
//! The private `percent` of zones.rs isn't reached with any percentage but through `band` and `ramp`, which cut it; uncut it
//! shows in the ranges. A target is kind, a, b, c, as in the file. A workout is test, step count, block count, then for each
//! step intensity, length kind, value, target, then for each block first, len, count. A word of the order is
//! 2^24 + 2^16 × index + 2^8 × repetition + of, and 0 where nothing is played. `order` is asked of workouts that pass
//! `validate`; of others it has no answer. In the answers on files a name is its length and its 20 bytes in five words, a step
//! intensity, length kind, value, target (kind, a, b, c) and note, a block 2^16 × count + 2^8 × len + first. `written` is asked
//! of files that are accepted, over `LENT` bytes of `FILL`: those past the file stay.
use vana::ride::zones::TrainingProfile;
use vana::workout::codec::{self, DecodeError};
use vana::workout::model::{
    Band, Block, Intensity, Invalid, Length, MAX_BLOCKS, MAX_STEPS, Metric, Name, Played, Ramp, Step, Target, Test,
    Workout,
};

pub const NAMES: [&str; 13] = [
    "percent",
    "power_zone",
    "heart_zone",
    "power_range",
    "heart_range",
    "band",
    "ramp",
    "stage",
    "name",
    "validate",
    "order",
    "file",
    "written",
];
pub const PERCENT: usize = 0;
pub const POWER_ZONE: usize = 1;
pub const HEART_ZONE: usize = 2;
pub const POWER_RANGE: usize = 3;
pub const HEART_RANGE: usize = 4;
pub const BAND: usize = 5;
pub const RAMP: usize = 6;
pub const STAGE: usize = 7;
pub const NAME: usize = 8;
pub const VALIDATE: usize = 9;
pub const ORDER: usize = 10;
pub const FILE: usize = 11;
pub const WRITTEN: usize = 12;

/// What the writer is lent, and the byte that stands in each place of it.
pub const LENT: usize = 484;
pub const FILL: u8 = 165;

/// The input of a question is bytes as they are, not 32-bit words.
pub fn takes_bytes(question: usize) -> bool {
    matches!(question, NAME | FILE | WRITTEN)
}

pub fn bytes_of(words: &[u32]) -> Vec<u8> {
    words.iter().flat_map(|word| word.to_le_bytes()).collect()
}

fn word(input: &[u8], place: usize) -> u32 {
    input.get(4 * place..4 * place + 4).map_or(0, |bytes| u32::from_le_bytes(bytes.try_into().unwrap()))
}

fn profile(input: &[u8]) -> TrainingProfile {
    TrainingProfile { ftp_watts: word(input, 0) as u16, lthr_bpm: word(input, 1) as u16 }
}

fn target(kind: u32, a: u32, b: u32, c: u32) -> Target {
    match kind {
        0 => Target::Free,
        1 => Target::Ftp { low: a as u8, high: b as u8 },
        2 => Target::Watts { low: a as u16, high: b as u16 },
        3 => Target::HeartZone(a as u8),
        4 => Target::Lthr { low: a as u8, high: b as u8 },
        5 => Target::Cadence { low: a as u8, high: b as u8 },
        6 => Target::Ramp { start: a as u16, step: b as u16, every: c as u16 },
        _ => Target::FtpRamp { start: a as u8, step: b as u8, every: c as u16 },
    }
}

fn target_at(input: &[u8], place: usize) -> Target {
    target(word(input, place), word(input, place + 1), word(input, place + 2), word(input, place + 3))
}

fn step_at(input: &[u8], place: usize) -> Step {
    let intensity = match word(input, place) {
        0 => Intensity::Warmup,
        1 => Intensity::Work,
        2 => Intensity::Recovery,
        3 => Intensity::Cooldown,
        _ => Intensity::Test,
    };
    let value = word(input, place + 2);
    let length = match word(input, place + 1) {
        0 => Length::Time(value as u16),
        1 => Length::Distance(value),
        _ => Length::Open,
    };
    Step::new(intensity, length, target_at(input, place + 3))
}

fn block_at(input: &[u8], place: usize) -> Block {
    Block { first: word(input, place) as u8, len: word(input, place + 1) as u8, count: word(input, place + 2) as u8 }
}

pub fn workout(input: &[u8]) -> Workout {
    let test = match word(input, 0) {
        0 => None,
        1 => Some(Test::Twenty),
        _ => Some(Test::Ramp),
    };
    let step_count = (word(input, 1) as usize).min(MAX_STEPS);
    let block_count = (word(input, 2) as usize).min(MAX_BLOCKS);
    let steps: Vec<Step> = (0..step_count).map(|i| step_at(input, 3 + 7 * i)).collect();
    let blocks: Vec<Block> = (0..block_count).map(|i| block_at(input, 3 + 7 * step_count + 3 * i)).collect();
    Workout::new("", &steps, &blocks, test)
}

fn invalid_number(invalid: Invalid) -> u32 {
    match invalid {
        Invalid::NoSteps => 6,
        Invalid::Block => 7,
        Invalid::Step => 8,
        Invalid::TooLong => 9,
        // `Workout` holds no more than it has places for.
        Invalid::TooManySteps | Invalid::TooManyBlocks => unreachable!(),
    }
}

fn refusal(workout: &Workout) -> u32 {
    workout.validate().map_or_else(invalid_number, |()| 0)
}

fn decode_number(error: DecodeError) -> u32 {
    match error {
        DecodeError::Length => 1,
        DecodeError::Magic => 2,
        DecodeError::Version => 3,
        DecodeError::Checksum => 4,
        DecodeError::Field => 5,
        DecodeError::Invalid(invalid) => invalid_number(invalid),
    }
}

fn order(workout: &Workout) -> Vec<u32> {
    if refusal(workout) != 0 {
        return Vec::new();
    }
    let mut words = vec![workout.played_len() as u32, workout.planned_secs(), u32::from(workout.has_untimed_steps())];
    words.extend(workout.played().map(|played| played_word(&played)));
    words.push(0);
    words
}

pub fn played_word(played: &Played) -> u32 {
    1 << 24 | u32::from(played.index) << 16 | u32::from(played.repetition) << 8 | u32::from(played.of)
}

pub fn band_words(band: Option<Band>) -> [u32; 4] {
    let Some(band) = band else {
        return [0; 4];
    };
    let metric = match band.metric {
        Metric::Power => 0,
        Metric::Heart => 1,
        Metric::Cadence => 2,
    };
    [1, metric, band.low.into(), band.high.into()]
}

fn name_words(name: &Name) -> Vec<u32> {
    let mut bytes = [0; 20];
    bytes[..name.as_bytes().len()].copy_from_slice(name.as_bytes());
    let mut words = vec![name.as_bytes().len() as u32];
    words.extend((0..5).map(|place| word(&bytes, place)));
    words
}

pub fn step_words(step: &Step) -> Vec<u32> {
    let intensity = match step.intensity {
        Intensity::Warmup => 0,
        Intensity::Work => 1,
        Intensity::Recovery => 2,
        Intensity::Cooldown => 3,
        Intensity::Test => 4,
    };
    let length = match step.length {
        Length::Time(secs) => [0, secs.into()],
        Length::Distance(metres) => [1, metres],
        Length::Open => [2, 0],
    };
    let target = match step.target {
        Target::Free => [0, 0, 0, 0],
        Target::Ftp { low, high } => [1, low.into(), high.into(), 0],
        Target::Watts { low, high } => [2, low.into(), high.into(), 0],
        Target::HeartZone(zone) => [3, zone.into(), 0, 0],
        Target::Lthr { low, high } => [4, low.into(), high.into(), 0],
        Target::Cadence { low, high } => [5, low.into(), high.into(), 0],
        Target::Ramp { start, step, every } => [6, start.into(), step.into(), every.into()],
        Target::FtpRamp { start, step, every } => [7, start.into(), step.into(), every.into()],
    };
    [&[intensity], &length[..], &target, &name_words(&step.note)].concat()
}

fn file_words(file: &[u8]) -> Vec<u32> {
    let workout = match codec::decode(file) {
        Ok(workout) => workout,
        Err(error) => return vec![decode_number(error)],
    };
    let test = match workout.test {
        None => 0,
        Some(Test::Twenty) => 1,
        Some(Test::Ramp) => 2,
    };
    let mut words = vec![0, test, workout.steps().len() as u32, workout.blocks().len() as u32];
    words.extend(name_words(&workout.name));
    words.extend(workout.steps().iter().flat_map(step_words));
    words.extend(workout.blocks().iter().map(|block| word(&[block.first, block.len, block.count, 0], 0)));
    words.extend(order(&workout));
    words
}

fn written_words(file: &[u8]) -> Vec<u32> {
    let Ok(workout) = codec::decode(file) else {
        return Vec::new();
    };
    let written = codec::encode(&workout);
    let mut out = [FILL; LENT];
    out[..written.len()].copy_from_slice(&written);
    written_answer(written.len() as u32, &out)
}

/// The answer to `written` from its length and the bytes lent.
pub fn written_answer(size: u32, out: &[u8; LENT]) -> Vec<u32> {
    let mut words = vec![size];
    let last = ((size as usize).div_ceil(4) + 2).min(LENT / 4);
    words.extend((0..last).map(|place| word(out, place)));
    words
}

pub fn answer(question: usize, input: &[u8]) -> Vec<u32> {
    let at = |place| word(input, place);
    match question {
        PERCENT => {
            let profile = TrainingProfile { ftp_watts: at(0) as u16, lthr_bpm: 0 };
            let pct = at(1) as u8;
            let band = Target::Ftp { low: pct, high: pct }.band(&profile, 0).unwrap();
            let ramp = Target::FtpRamp { start: pct, step: 1, every: 1 }.ramp(&profile).unwrap();
            vec![band.low.into(), ramp.start.into()]
        }
        POWER_ZONE => vec![profile(input).power_zone(at(2) as u16).into()],
        HEART_ZONE => vec![profile(input).heart_zone(at(2) as u16).into()],
        POWER_RANGE => {
            let (low, next) = profile(input).power_range(at(2) as u8);
            vec![low, next]
        }
        HEART_RANGE => {
            let (low, next) = profile(input).heart_range(at(2) as u8);
            vec![low, next]
        }
        BAND => band_words(target_at(input, 3).band(&profile(input), at(2))).to_vec(),
        RAMP => match target_at(input, 2).ramp(&profile(input)) {
            None => vec![0, 0, 0, 0],
            Some(ramp) => vec![1, ramp.start.into(), ramp.step.into(), ramp.every.into()],
        },
        STAGE => {
            let ramp = Ramp { start: at(0) as u16, step: at(1) as u16, every: at(2) as u16 };
            vec![ramp.stage(at(3)), ramp.stage_watts(at(4)).into(), ramp.watts(at(3)).into()]
        }
        VALIDATE => vec![refusal(&workout(input))],
        ORDER => order(&workout(input)),
        NAME => {
            let name = Name::from_bytes(input);
            let mut words = vec![0; 21];
            words[0] = name.as_bytes().len() as u32;
            for (word, &byte) in words[1..].iter_mut().zip(name.as_bytes()) {
                *word = byte.into();
            }
            words
        }
        FILE => file_words(input),
        WRITTEN => written_words(input),
        _ => panic!("there is no question {question}"),
    }
}
