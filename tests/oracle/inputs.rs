//! Inputs for each question, and lists of calls on a player: limits, and random ones from a seed.
pub mod calls;
pub mod files;
pub mod limits;
pub mod records;

use questions::*;

/// SplitMix64.
pub struct Random(pub u64);

impl Random {
    fn next(&mut self) -> u64 {
        self.0 = self.0.wrapping_add(0x9E37_79B9_7F4A_7C15);
        let mut z = self.0;
        z = (z ^ (z >> 30)).wrapping_mul(0xBF58_476D_1CE4_E5B9);
        z = (z ^ (z >> 27)).wrapping_mul(0x94D0_49BB_1331_11EB);
        z ^ (z >> 31)
    }

    pub fn below(&mut self, n: u32) -> u32 {
        (self.next() % u64::from(n)) as u32
    }

    fn within(&mut self, low: u32, high: u32) -> u32 {
        low + self.below(high - low + 1)
    }

    fn one_of(&mut self, values: &[u32]) -> u32 {
        values[self.below(values.len() as u32) as usize]
    }

    fn once_in(&mut self, n: u32) -> bool {
        self.below(n) == 0
    }

    /// Any 16-bit number, or one within the limits, or one at or beside a limit.
    fn number(&mut self, low: u32, high: u32) -> u32 {
        match self.below(4) {
            0 => self.below(65_536),
            1 => {
                self.one_of(&[
                    0,
                    1,
                    low.saturating_sub(1),
                    low,
                    low + 1,
                    high - 1,
                    high,
                    high + 1,
                    32_768,
                    65_534,
                    65_535,
                ]) & 0xFFFF
            }
            _ => self.within(low, high),
        }
    }

    fn ftp(&mut self) -> u32 {
        self.number(50, 600)
    }

    fn lthr(&mut self) -> u32 {
        self.number(1, 255)
    }

    /// A reading: any, or one beside a percentage of `base` that bounds a zone.
    fn reading(&mut self, base: u32, bounds: &[u32]) -> u32 {
        if self.once_in(3) {
            return self.below(65_536);
        }
        let bound = (base * self.one_of(bounds) + 50) / 100;
        (bound + self.below(3)).saturating_sub(1) & 0xFFFF
    }

    fn seconds(&mut self) -> u32 {
        match self.below(4) {
            0 => self.next() as u32,
            1 => self.one_of(&[0, 1, 59, 60, 61, 65_535, 65_536, 86_400, u32::MAX]),
            _ => self.below(7_200),
        }
    }
}

pub const POWER_BOUNDS: [u32; 7] = [55, 75, 90, 105, 120, 150, 200];
pub const HEART_BOUNDS: [u32; 6] = [65, 81, 90, 94, 100, 110];

const FREE: u32 = 0;
const FTP: u32 = 1;
const WATTS: u32 = 2;
const HEART_ZONE_TARGET: u32 = 3;
const LTHR: u32 = 4;
const CADENCE: u32 = 5;
const RAMP_TARGET: u32 = 6;
const FTP_RAMP: u32 = 7;

type Target = [u32; 4];

fn sound_target(random: &mut Random, kind: u32) -> Target {
    let pair = |random: &mut Random, high: u32| {
        let a = if random.once_in(4) { random.one_of(&[1, high]) } else { random.within(1, high) };
        let b = if random.once_in(4) { random.one_of(&[a, high]) } else { random.within(a, high) };
        [kind, a, b, 0]
    };
    match kind {
        FREE => [kind, 0, 0, 0],
        FTP | LTHR => pair(random, 250),
        WATTS => pair(random, 2_000),
        HEART_ZONE_TARGET => [kind, random.within(1, 5), 0, 0],
        CADENCE => pair(random, 255),
        RAMP_TARGET => [kind, random.within(1, 65_535), random.within(1, 65_535), random.within(1, 65_535)],
        _ => [kind, random.within(1, 250), random.within(1, 255), random.within(1, 65_535)],
    }
}

/// A target of any kind: sound, or with any numbers that its kind holds, or beside its limits.
fn target(random: &mut Random) -> Target {
    let kind = random.below(8);
    match random.below(3) {
        0 => sound_target(random, kind),
        1 => [kind, random.below(65_536), random.below(65_536), random.below(65_536)],
        _ => {
            const VALUES: [u32; 14] = [0, 1, 2, 5, 6, 249, 250, 251, 254, 255, 1_999, 2_000, 2_001, 65_535];
            [kind, random.one_of(&VALUES), random.one_of(&VALUES), random.one_of(&VALUES)]
        }
    }
}

#[derive(Clone, Copy)]
pub struct StepWords {
    intensity: u32,
    length: [u32; 2],
    target: Target,
}

pub const PLAIN_STEP: StepWords = StepWords { intensity: 1, length: [0, 10], target: [0; 4] };

#[derive(Clone)]
pub struct WorkoutWords {
    test: u32,
    steps: Vec<StepWords>,
    blocks: Vec<[u32; 3]>,
}

impl WorkoutWords {
    fn plain(steps: usize, blocks: &[[u32; 3]]) -> Self {
        Self { test: 0, steps: vec![PLAIN_STEP; steps], blocks: blocks.to_vec() }
    }

    fn words(&self) -> Vec<u32> {
        let mut words = vec![self.test, self.steps.len() as u32, self.blocks.len() as u32];
        for step in &self.steps {
            words.push(step.intensity);
            words.extend(step.length);
            words.extend(step.target);
        }
        for block in &self.blocks {
            words.extend(block);
        }
        words
    }

    fn played_len(&self) -> u32 {
        self.steps.len() as u32 + self.blocks.iter().map(|block| block[1] * block[2].saturating_sub(1)).sum::<u32>()
    }
}

fn sound_step(random: &mut Random) -> StepWords {
    let kind = random.below(8);
    let length = if kind >= RAMP_TARGET {
        [2, 0]
    } else {
        match random.below(4) {
            0 => {
                [1, if random.once_in(2) { random.one_of(&[100, 101, u32::MAX]) } else { random.within(100, 100_000) }]
            }
            1 => [2, 0],
            _ => [0, if random.once_in(4) { random.one_of(&[1, 65_535]) } else { random.within(1, 65_535) }],
        }
    };
    StepWords { intensity: random.below(5), length, target: sound_target(random, kind) }
}

/// A workout that passes `validate`, now and then but for its played length.
fn sound_workout(random: &mut Random) -> WorkoutWords {
    let count = if random.once_in(4) { random.one_of(&[1, 2, 11, 12]) } else { random.within(1, 12) };
    let steps = (0..count).map(|_| sound_step(random)).collect();
    let mut blocks = Vec::new();
    let mut first = 0;
    while first < count && blocks.len() < 8 {
        let len = random.within(1, (count - first).min(4));
        if !random.once_in(3) {
            blocks.push([first, len, if random.once_in(8) { random.within(1, 96) } else { random.within(1, 9) }]);
        }
        first += len;
    }
    for i in (1..blocks.len()).rev() {
        blocks.swap(i, random.below(i as u32 + 1) as usize);
    }
    let mut workout = WorkoutWords { test: random.below(3), steps, blocks };
    // Runs are taken off until 96 are played, or 97 now and then.
    let most = 96 + u32::from(random.once_in(16));
    while workout.played_len() > most {
        let at = random.below(workout.blocks.len() as u32) as usize;
        let block = &mut workout.blocks[at];
        block[2] = (block[2] - 1).max(1);
    }
    workout
}

/// One thing of a workout made other than it was: often unsound, not always.
fn altered(random: &mut Random, workout: &mut WorkoutWords) {
    let step = random.below(workout.steps.len().max(1) as u32) as usize;
    let block = random.below(workout.blocks.len().max(1) as u32) as usize;
    match random.below(8) {
        0 => workout.steps.clear(),
        1 if workout.blocks.len() < 8 => {
            let count = workout.steps.len() as u32;
            workout.blocks.push([random.below(count + 1), random.below(count + 2), random.below(12)]);
        }
        2 | 3 if !workout.blocks.is_empty() => {
            let value = if random.once_in(3) { random.one_of(&[0, 1, 12, 13, 128, 255]) } else { random.below(14) };
            workout.blocks[block][random.below(3) as usize] = value;
        }
        4 if !workout.steps.is_empty() => {
            workout.steps[step].length = random.one_of_lengths();
        }
        5 | 6 if !workout.steps.is_empty() => workout.steps[step].target = target(random),
        _ if !workout.steps.is_empty() => {
            workout.steps.pop();
        }
        _ => {}
    }
}

impl Random {
    fn one_of_lengths(&mut self) -> [u32; 2] {
        const LENGTHS: [[u32; 2]; 8] = [[0, 0], [0, 1], [0, 65_535], [1, 0], [1, 99], [1, 100], [1, u32::MAX], [2, 0]];
        LENGTHS[self.below(8) as usize]
    }

    fn any_workout(&mut self) -> WorkoutWords {
        let block =
            |random: &mut Random| [0; 3].map(|_| if random.once_in(3) { random.below(256) } else { random.below(14) });
        let step = |random: &mut Random| StepWords {
            intensity: random.below(5),
            length: if random.once_in(2) { random.one_of_lengths() } else { [random.below(3), random.below(65_536)] },
            target: target(random),
        };
        WorkoutWords {
            test: self.below(3),
            steps: (0..self.below(13)).map(|_| step(self)).collect(),
            blocks: (0..self.below(9)).map(|_| block(self)).collect(),
        }
    }
}

fn text(random: &mut Random) -> Vec<u8> {
    let len = if random.once_in(3) { random.one_of(&[0, 1, 19, 20, 21, 40]) } else { random.below(30) };
    (0..len)
        .map(|_| {
            if random.once_in(2) {
                random.within(32, 126) as u8
            } else if random.once_in(2) {
                random.one_of(&[0, 31, 32, 64, 65, 90, 91, 96, 97, 122, 123, 126, 127, 128, 225, 255]) as u8
            } else {
                random.below(256) as u8
            }
        })
        .collect()
}

/// A random input of `question`.
pub fn random_input(random: &mut Random, question: usize) -> Vec<u8> {
    let (ftp, lthr) = (random.ftp(), random.lthr());
    bytes_of(&match question {
        PERCENT => vec![ftp, random.below(256)],
        POWER_ZONE => vec![ftp, lthr, random.reading(ftp, &POWER_BOUNDS)],
        HEART_ZONE => vec![ftp, lthr, random.reading(lthr, &HEART_BOUNDS)],
        POWER_RANGE | HEART_RANGE => {
            vec![ftp, lthr, if random.once_in(4) { random.below(256) } else { random.below(9) }]
        }
        BAND => {
            let seconds = random.seconds();
            [&[ftp, lthr, seconds], &target(random)[..]].concat()
        }
        RAMP => [&[ftp, lthr], &target(random)[..]].concat(),
        STAGE => {
            let every = if random.once_in(4) { random.below(4) } else { random.below(65_536) };
            vec![random.number(1, 2_000), random.number(1, 100), every, random.seconds(), random.seconds()]
        }
        VALIDATE => match random.below(4) {
            0 => sound_workout(random).words(),
            1 => random.any_workout().words(),
            _ => {
                let mut workout = sound_workout(random);
                for _ in 0..random.within(1, 3) {
                    altered(random, &mut workout);
                }
                workout.words()
            }
        },
        ORDER => sound_workout(random).words(),
        NAME => return text(random),
        FILE | WRITTEN => return files::random_file(random),
        _ => panic!("there is no question {question}"),
    })
}

/// Each input at the limits of `question`.
pub fn limit_inputs(question: usize) -> Vec<Vec<u8>> {
    // 81 % of 129 is 104.49.
    const PROFILES: [[u32; 2]; 7] = [[50, 1], [50, 255], [600, 129], [600, 255], [250, 160], [0, 0], [65_535, 65_535]];
    let mut words: Vec<Vec<u32>> = Vec::new();
    match question {
        PERCENT => {
            for base in [0, 1, 50, 250, 600, 26_214, 26_215, 65_535] {
                for pct in [0, 1, 49, 50, 51, 95, 99, 100, 101, 110, 249, 250, 251, 255] {
                    words.push(vec![base, pct]);
                }
            }
        }
        POWER_ZONE | HEART_ZONE => {
            let bounds: &[u32] = if question == POWER_ZONE { &POWER_BOUNDS } else { &HEART_BOUNDS };
            for [ftp, lthr] in PROFILES {
                let base = if question == POWER_ZONE { ftp } else { lthr };
                for bound in bounds {
                    let at = (base * bound + 50) / 100;
                    for reading in [at.saturating_sub(1), at, at + 1] {
                        words.push(vec![ftp, lthr, reading & 0xFFFF]);
                    }
                }
                words.push(vec![ftp, lthr, 0]);
                words.push(vec![ftp, lthr, 65_535]);
            }
        }
        POWER_RANGE | HEART_RANGE => {
            for [ftp, lthr] in PROFILES {
                for zone in [0, 1, 2, 3, 4, 5, 6, 7, 8, 255] {
                    words.push(vec![ftp, lthr, zone]);
                }
            }
        }
        BAND | RAMP => {
            let ends = |high: u32| {
                [[0, 1], [1, 0], [1, 1], [1, high], [high, high], [high, 1], [high, high + 1], [high + 1, high + 1]]
            };
            let mut targets: Vec<Target> = vec![[FREE, 0, 0, 0]];
            for (kind, high) in [(FTP, 250), (WATTS, 2_000), (LTHR, 250), (CADENCE, 254)] {
                targets.extend(ends(high).map(|[a, b]| [kind, a, b, 0]));
            }
            targets.extend([0, 1, 2, 3, 4, 5, 6, 255].map(|zone| [HEART_ZONE_TARGET, zone, 0, 0]));
            for every in [0, 1, 60, 65_535] {
                for (start, step) in [(0, 0), (1, 1), (250, 255), (65_535, 65_535)] {
                    targets.push([RAMP_TARGET, start, step, every]);
                    targets.push([FTP_RAMP, start & 255, step & 255, every]);
                }
            }
            for [ftp, lthr] in [[50, 1], [600, 255], [65_535, 65_535]] {
                for target in &targets {
                    if question == RAMP {
                        words.push([&[ftp, lthr], &target[..]].concat());
                        continue;
                    }
                    let ramp = target[0] >= RAMP_TARGET;
                    for seconds in if ramp { &[0, 60, 100_000, u32::MAX][..] } else { &[0][..] } {
                        words.push([&[ftp, lthr, *seconds], &target[..]].concat());
                    }
                }
            }
        }
        STAGE => {
            for (start, step) in [(0, 0), (1, 1), (100, 20), (65_534, 1), (65_535, 65_535), (65_535, 0)] {
                for every in [0, 1, 60, 65_535] {
                    for seconds in [0, 59, 60, 3_272, u32::MAX] {
                        words.push(vec![start, step, every, seconds, seconds / 2]);
                    }
                }
            }
        }
        VALIDATE => words.extend(limit_workouts().iter().map(WorkoutWords::words)),
        ORDER => {
            words.extend(
                limit_workouts()
                    .iter()
                    .map(WorkoutWords::words)
                    .filter(|words| !answer(ORDER, &bytes_of(words)).is_empty()),
            );
        }
        NAME => {
            // Each byte once, and the lengths.
            let mut texts: Vec<Vec<u8>> = (0..16).map(|part| (16 * part..=16 * part + 15).collect()).collect();
            texts.extend([0, 1, 19, 20, 21, 40].map(|len| vec![b'a'; len]));
            return texts;
        }
        FILE | WRITTEN => return files::limit_files(),
        _ => panic!("there is no question {question}"),
    }
    words.iter().map(|words| bytes_of(words)).collect()
}

fn limit_workouts() -> Vec<WorkoutWords> {
    let mut workouts = vec![WorkoutWords::plain(0, &[]), WorkoutWords::plain(0, &[[0, 1, 1]])];
    for steps in [1, 2, 3, 11, 12] {
        workouts.push(WorkoutWords::plain(steps, &[]));
    }
    // Blocks in order, unsorted, touching, overlapping, past the steps, empty, repeating nothing.
    for blocks in [
        &[[0, 2, 3]][..],
        &[[0, 3, 1]],
        &[[2, 1, 255]],
        &[[0, 1, 96]],
        &[[1, 1, 2], [0, 1, 2]],
        &[[2, 1, 2], [0, 2, 2]],
        &[[0, 2, 2], [2, 1, 2]],
        &[[0, 2, 2], [1, 2, 2]],
        &[[1, 2, 2], [0, 2, 2]],
        &[[0, 2, 2], [0, 2, 2]],
        &[[0, 3, 2], [1, 1, 2]],
        &[[0, 4, 1]],
        &[[2, 2, 1]],
        &[[3, 1, 1]],
        &[[255, 255, 1]],
        &[[254, 2, 1]],
        &[[1, 255, 1]],
        &[[0, 0, 2]],
        &[[3, 0, 2]],
        &[[0, 2, 0]],
        &[[0, 1, 1], [1, 1, 0]],
        &[[0, 1, 1], [0, 0, 1]],
        &[[2, 1, 3], [1, 1, 2], [0, 1, 4]],
    ] {
        workouts.push(WorkoutWords::plain(3, blocks));
    }
    // 96 and 97 played; 12 steps by 8 and by 9.
    workouts.push(WorkoutWords::plain(12, &[[0, 12, 8]]));
    workouts.push(WorkoutWords::plain(12, &[[0, 12, 9]]));
    workouts.push(WorkoutWords::plain(1, &[[0, 1, 96]]));
    workouts.push(WorkoutWords::plain(1, &[[0, 1, 97]]));
    workouts.push(WorkoutWords::plain(2, &[[1, 1, 95]]));
    workouts.push(WorkoutWords::plain(2, &[[1, 1, 96]]));
    let eight: Vec<[u32; 3]> = (0..8).rev().map(|first| [first, 1, 12]).collect();
    workouts.push(WorkoutWords::plain(8, &eight));
    let mut longer = eight.clone();
    longer[0][2] = 13;
    workouts.push(WorkoutWords::plain(8, &longer));
    workouts.push(WorkoutWords::plain(12, &eight.iter().map(|block| [block[0], 1, 11]).collect::<Vec<_>>()));
    let twelve: Vec<[u32; 3]> = (0..4).map(|part| [9 - 3 * part, 3, 8]).collect();
    workouts.push(WorkoutWords::plain(12, &twelve));
    // Lengths and targets at their limits, in each of the lengths where it matters.
    let mut steps = Vec::new();
    for length in [[0, 0], [0, 1], [0, 65_535], [1, 0], [1, 99], [1, 100], [1, u32::MAX], [2, 0]] {
        steps.push(StepWords { length, ..PLAIN_STEP });
        for target in [[RAMP_TARGET, 1, 1, 1], [FTP_RAMP, 250, 255, 65_535]] {
            steps.push(StepWords { length, target, ..PLAIN_STEP });
        }
    }
    let open = |target| StepWords { length: [2, 0], target, ..PLAIN_STEP };
    for (kind, high, most) in [(FTP, 250, 255), (WATTS, 2_000, 65_535), (LTHR, 250, 255), (CADENCE, 255, 255)] {
        for [a, b] in
            [[0, 0], [0, 1], [1, 1], [1, high], [high, high], [2, 1], [high, high - 1], [1, most], [most, most]]
        {
            steps.push(open([kind, a, b, 0]));
        }
        if high < most {
            steps.push(open([kind, 1, high + 1, 0]));
            steps.push(open([kind, high + 1, high + 1, 0]));
        }
    }
    steps.extend([0, 1, 2, 3, 4, 5, 6, 7, 255].map(|zone| open([HEART_ZONE_TARGET, zone, 0, 0])));
    for [a, b, c] in [
        [0, 1, 1],
        [1, 0, 1],
        [1, 1, 0],
        [1, 1, 1],
        [250, 255, 65_535],
        [251, 1, 1],
        [255, 255, 1],
        [65_535, 65_535, 65_535],
    ] {
        steps.push(open([RAMP_TARGET, a, b, c]));
        steps.push(open([FTP_RAMP, a & 255, b & 255, c]));
    }
    for (i, step) in steps.iter().enumerate() {
        let mut workout = WorkoutWords::plain(1 + i % 3, &[]);
        workout.steps[i % 3] = StepWords { intensity: i as u32 % 5, ..*step };
        workout.test = i as u32 % 3;
        workouts.push(workout);
    }
    workouts
}
