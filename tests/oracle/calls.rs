//! Workouts to play, and lists of calls for them.
use super::{
    CADENCE, FREE, FTP, FTP_RAMP, HEART_ZONE_TARGET, LTHR, PLAIN_STEP, RAMP_TARGET, Random, StepWords, Target, WATTS,
    WorkoutWords, files, limits, sound_target, sound_workout,
};
use played::{ADD, Call, EXTEND_WITH, READ, RIDE, SKIP};
use players::LONG;

/// A workout file and the calls to play on it.
pub struct Play {
    pub file: Vec<u8>,
    pub calls: Vec<Call>,
}

const DAY_MS: u32 = 86_400_000;

/// A target near what `sample` reads.
fn near_target(random: &mut Random, kind: u32) -> Target {
    let pair = |random: &mut Random, low: u32, wide: u32| {
        let low = low + random.below(wide);
        [kind, low, low + random.below(wide), 0]
    };
    match kind {
        FTP => pair(random, 40, 80),
        WATTS => pair(random, 50, 250),
        LTHR => pair(random, 50, 60),
        CADENCE => pair(random, 50, 60),
        RAMP_TARGET => [kind, random.within(30, 300), random.within(1, 60), random.within(1, 90)],
        FTP_RAMP => [kind, random.within(20, 120), random.within(1, 40), random.within(1, 90)],
        _ => sound_target(random, kind),
    }
}

/// A step that ends soon, often of a test.
fn short_step(random: &mut Random) -> StepWords {
    let kind = random.below(8);
    let length = if kind >= RAMP_TARGET {
        [2, 0]
    } else {
        match random.below(8) {
            0 | 1 => [1, random.within(100, 600)],
            2 => [2, 0],
            3 | 4 => [0, random.one_of(&[1, 2, 3, 4, 5, 10, 59, 60, 61, 1_200])],
            _ => [0, random.within(1, 120)],
        }
    };
    let intensity = if random.once_in(2) { 4 } else { random.below(5) };
    StepWords { intensity, length, target: near_target(random, kind) }
}

/// A workout for playing: one with steps that end soon, or any sound one.
fn workout(random: &mut Random) -> WorkoutWords {
    if random.once_in(6) {
        return sound_workout(random);
    }
    let count = random.within(1, 12);
    let steps = (0..count).map(|_| short_step(random)).collect();
    let mut workout = WorkoutWords { test: random.below(3), steps, blocks: Vec::new() };
    if !random.once_in(3) {
        let first = random.below(count);
        let len = random.within(1, count - first);
        let most = 1 + (96 - count) / len;
        let runs = if random.once_in(3) { most } else { random.within(1, most.min(9)) };
        workout.blocks.push([first, len, runs]);
    }
    if random.once_in(3) {
        keep_one_test(random, &mut workout);
    }
    workout
}

/// Leaves one test step, played once and soon: such a workout is compared with the unchanged Rust for FTP too.
fn keep_one_test(random: &mut Random, workout: &mut WorkoutWords) {
    let kept = random.below(3.min(workout.steps.len() as u32));
    workout.test = random.within(1, 2);
    for (i, step) in workout.steps.iter_mut().enumerate() {
        match (i == kept as usize, step.intensity) {
            (true, _) => step.intensity = 4,
            (false, 4) => step.intensity = 1,
            _ => {}
        }
    }
    for [first, len, runs] in &mut workout.blocks {
        if (*first..*first + *len).contains(&kept) {
            *runs = 1;
        }
    }
}

/// How a list is ridden: about so many watts, updates of some length, each reading absent once in so many.
#[derive(Clone, Copy)]
struct Rider {
    watts: u32,
    pace: u32,
    absent: u32,
}

/// One in four has loose straps: there the average of three comes and goes too.
fn rider(random: &mut Random) -> Rider {
    Rider { watts: random.within(20, 500), pace: random.below(6), absent: if random.once_in(4) { 2 } else { 10 } }
}

/// Readings of one rider, now and then absent or anything.
fn sample(random: &mut Random, rider: Rider, call: &mut Call) {
    let present = |random: &mut Random, value: u32| match random.below(10) {
        _ if random.once_in(rider.absent) => 0,
        0 => 1 + random.one_of(&[0, 1, 65_530, 65_535]),
        _ => 1 + value,
    };
    let base = rider.watts;
    let (power, heart, cadence) = (base + random.below(60), random.within(80, 190), random.within(400, 1_200));
    call.power = present(random, power);
    call.heart = present(random, heart);
    call.cadence = present(random, cadence);
}

/// How long updates are: the same for a whole list, so that its steps end.
fn update(random: &mut Random, pace: u32, call: &mut Call) {
    call.ms = match pace {
        0 => random.within(1, 1_500),
        1 => random.within(1, 20_000),
        2 => random.within(1, 120_000),
        3 => random.one_of(&[0, 1, 250, 999, 1_000, 3_000, 59_999, 60_000, 61_000, 1_200_000]),
        4 => random.within(1, 3_000_000),
        _ => random.one_of(&[1, 1_000, 3_600_000, DAY_MS - 1, DAY_MS]),
    };
    call.mm = match random.below(8) {
        0 | 1 => 0,
        2 => random.below(600_000),
        3 => random.one_of(&[1, 99_999, 100_000, 1_000_000_000]),
        _ => call.ms / 1_000 * random.within(1_000, 12_000),
    };
    call.mm = call.mm.min(1_000_000_000);
    if random.once_in(300) {
        call.ms = random.one_of(&[DAY_MS + 1, u32::MAX]);
    }
    if random.once_in(300) {
        call.mm = random.one_of(&[1_000_000_001, u32::MAX]);
    }
}

fn call(random: &mut Random, profile: (u32, u32), rider: Rider) -> Call {
    let kind = match random.below(24) {
        0 => SKIP,
        1 | 2 => EXTEND_WITH,
        3..=9 => READ,
        10..=16 => RIDE,
        _ => ADD,
    };
    let mut call = Call { kind, ftp: profile.0, lthr: profile.1, ..Call::default() };
    sample(random, rider, &mut call);
    update(random, rider.pace, &mut call);
    if random.once_in(200) {
        call.ftp = random.one_of(&[0, 49, 50, 600, 601, 65_535]);
    }
    if random.once_in(200) {
        call.lthr = random.one_of(&[0, 1, 255, 256, 65_535]);
    }
    // The Rust's own amount, so that the list is the unchanged Rust's.
    if kind == EXTEND_WITH { call.extending(LONG) } else { call }
}

/// A random workout with a random list of calls; now and then a file of any content.
pub fn random_play(random: &mut Random) -> Play {
    let file = if random.once_in(200) {
        files::random_file(random)
    } else {
        let workout = workout(random);
        files::sound_file(random, &workout)
    };
    let profile = (random.within(50, 600), random.within(1, 255));
    let rider = rider(random);
    let count = random.within(1, 160);
    let calls = (0..count).map(|_| call(random, profile, rider)).collect();
    Play { file, calls }
}

fn repeated(call: Call, count: usize) -> Vec<Call> {
    vec![call; count]
}

/// Lists at limits: touches up to question 15 and past it, of time and of way; totals up to question 13 and past it; the most
/// events of one update; a ramp test that is ridden to its best minute and failed; two lines of the bench sheet: 1 ms with
/// 500,000 mm in a step of 100 m, and 59,999 ms of a ramp test. Then those of `limits`.
pub fn limit_plays() -> Vec<Play> {
    let base = Call { ftp: 250, lthr: 160, power: 1 + 300, heart: 1 + 140, cadence: 1 + 900, ..Call::default() };
    let touch = base.extending(LONG);
    let read = Call { kind: READ, ..base };
    let ride = |ms, mm| Call { kind: RIDE, ms, mm, ..base };
    let add = |ms, mm| Call { kind: ADD, ms, mm, ..base };
    let skip = Call { kind: SKIP, ..base };
    let one = |step: StepWords, test: u32, blocks: &[[u32; 3]]| {
        let mut workout = WorkoutWords::plain(1, blocks);
        workout.test = test;
        workout.steps[0] = step;
        files::without_notes(&workout)
    };
    let timed = one(PLAIN_STEP, 0, &[[0, 1, 2]]);
    let distance = one(StepWords { length: [1, 100], ..PLAIN_STEP }, 0, &[[0, 1, 2]]);
    let tests = one(StepWords { intensity: 4, length: [0, 61], target: [0; 4] }, 2, &[[0, 1, 96]]);
    let twenty = one(StepWords { intensity: 4, length: [0, 1_200], target: [0; 4] }, 1, &[]);
    let ramp = one(StepWords { intensity: 4, length: [2, 0], target: [RAMP_TARGET, 100, 20, 60] }, 2, &[[0, 1, 2]]);
    let zone = one(StepWords { target: [HEART_ZONE_TARGET, 3, 0, 0], ..PLAIN_STEP }, 0, &[]);
    let free = one(StepWords { length: [2, 0], target: [FREE, 0, 0, 0], ..PLAIN_STEP }, 0, &[]);
    let weak = Call { power: 1 + 20, ..read };
    let mut plays = vec![
        Play { file: timed.clone(), calls: [repeated(touch, 1_442), vec![skip], repeated(touch, 2)].concat() },
        Play { file: distance.clone(), calls: vec![ride(1, 500_000)] },
        Play { file: tests.clone(), calls: vec![read, ride(59_999, 0), ride(1, 0)] },
        Play { file: distance, calls: [repeated(touch, 2_002), vec![ride(1_000, 5_000_000), skip, touch]].concat() },
        Play { file: timed, calls: [vec![read], repeated(ride(DAY_MS, 1_000_000_000), 8), vec![ride(0, 0)]].concat() },
        Play {
            file: tests.clone(),
            calls: vec![read, ride(60_000, 0), ride(1_000 + 94 * 61_000 + 60_000, 0), add(1_000, 0)],
        },
        Play { file: tests, calls: vec![add(60_000, 0), add(DAY_MS, 1_000), add(1, 0), skip, touch] },
        Play { file: twenty, calls: vec![add(1_199_999, 0), touch, add(60_000, 0), add(2, 0)] },
        Play {
            file: ramp,
            calls: [repeated(add(30_000, 0), 10), vec![weak; 3], repeated(ride(5_000, 0), 4), vec![skip]].concat(),
        },
        Play { file: zone, calls: repeated(add(3_333, 100), 5) },
        Play { file: free, calls: [repeated(add(DAY_MS, 1), 8), vec![skip]].concat() },
    ];
    plays.extend(limits::plays());
    plays
}

/// 10 s, 100 m and an open step, each played once, without targets or notes.
pub fn fields_file() -> Vec<u8> {
    let mut workout = WorkoutWords::plain(3, &[]);
    workout.steps[1].length = [1, 100];
    workout.steps[2].length = [2, 0];
    files::without_notes(&workout)
}
