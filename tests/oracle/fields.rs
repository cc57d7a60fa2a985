//! Players that no list of calls reaches: fields of ours set to their limits, one past them, and to anything; those without a
//! limit too. The Rust isn't asked. `Model::stands` has document 01's paragraph 'Standing' with unread of document 02's request g; a
//! player that doesn't stand is refused 20 by every call and every report, and one that does is played and stands after each call,
//! its targeted and unread milliseconds as they were set, since no step here has a target. A field is its number in `compare_fields`.
use inputs::Random;
use inputs::calls::fields_file;
use played::{ADD, Call, EXTEND, READ, RIDE, SET, SKIP, WORDS};
use players::{Amount, LONG};

const POSITION: usize = 0;
const STEPS: usize = 1;
const TOTAL_MS: usize = 2;
const TOTAL_MM: usize = 3;
const DONE: usize = 4;
const STEP_MS: usize = 16;
const STEP_MM: usize = 17;
const EXTRA_S: usize = 18;
const EXTRA_M: usize = 19;
const TEST_MJ: usize = 32;
const TEST_MS: usize = 33;
const REST_MS: usize = 34;
const LOW_MS: usize = 35;
const RING_AT: usize = 36;
const RING_LEN: usize = 37;
const BEST_MINUTE: usize = 38;
const TARGETED: usize = 48;
const IN: usize = 49;
const UNDER: usize = 50;
const OVER: usize = 51;
const STEPS_DONE: usize = 52;
const SUMMARY_STEPS: usize = 53;
const SKIPPED: usize = 54;
const FINISHED: usize = 55;
const UNREAD: usize = 56;
const FTP: usize = 57;
const INDEX: usize = 64;
const REPETITION: usize = 65;
const OF: usize = 66;
const TIME: usize = 67;
const DISTANCE: usize = 68;
const OPEN: usize = 69;
const WARMUP: usize = 70;
const HEART_ZONE: usize = 71;
const CADENCE: usize = 80;
const PLACE: usize = 81;
const HEART: usize = 82;
const POWER: usize = 83;
/// The average's places: their watts, present from 65,536 on.
const AVERAGE_1: usize = 84;
const AVERAGE_2: usize = 85;
const AVERAGE_0: usize = 86;
const STEP_COUNT: usize = 96;
const BLOCK_COUNT: usize = 97;
const NOTE_LEN: usize = 112;
/// The ring's watts at its first place, in its middle and at its last.
const RING_0: usize = 180;
const RING_30: usize = 210;
const RING_59: usize = 239;
const NUMBERS: usize = 240;

/// The steps of `fields_file`: 10 s, 100 m, open. Each plays once, so the order's places are the steps'.
const LENGTHS: [(usize, u64); 3] = [(TIME, 10), (DISTANCE, 100), (OPEN, 0)];

/// Each field with the number of its bits, and values at and past its limits. The last ten have none in 'Standing': they stand at
/// any value.
const FIELDS: [(usize, u32, &[u64]); 47] = [
    (POSITION, 64, &[0, 1, 2, 3, 4, 95, 96, 97]),
    (STEPS, 64, &[0, 1, 2, 3, 4, 96, 97]),
    (TOTAL_MS, 64, &[0, 4_999, 5_000, 49_999, 50_000, 604_800_000, 604_800_001]),
    (TOTAL_MM, 64, &[0, 49_999, 50_000, 7_000_000_000, 7_000_000_001]),
    (DONE, 1, &[0, 1]),
    (STEP_MS, 64, &[0, 9_999, 10_000, 99_999, 100_000, 100_001, 129_999, 130_000, 604_800_000]),
    (STEP_MM, 64, &[0, 99_999, 100_000, 599_999, 600_000, 5_000_000, 5_000_001]),
    (EXTRA_S, 32, &[0, 1, 86_399, 86_400, 86_401]),
    (EXTRA_M, 32, &[0, 1, 999_999, 1_000_000, 1_000_001]),
    (TEST_MJ, 64, &[0, 65_535 * 50_000, 65_535 * 50_000 + 1]),
    (TEST_MS, 64, &[0, 15, 16, 100_000, 100_001]),
    (REST_MS, 64, &[0, 999, 1_000]),
    (LOW_MS, 64, &[0, 100_000, 100_001]),
    (RING_AT, 8, &[0, 59, 60]),
    (RING_LEN, 8, &[0, 59, 60, 61]),
    (TARGETED, 64, &[0, 59, 60, 61, 100_000, 100_001]),
    (IN, 64, &[0, 29, 30, 31]),
    (UNDER, 64, &[0, 19, 20, 21]),
    (OVER, 64, &[0, 9, 10, 11]),
    // With 60 ms targeted the last two sums are 0 and 1 where they wrap.
    (UNREAD, 64, &[0, 1, 99_939, 99_940, 99_941, 100_000, u64::MAX - 60, u64::MAX - 59, u64::MAX - 58]),
    (STEPS_DONE, 16, &[0, 1, 2, 3, 4]),
    (SUMMARY_STEPS, 16, &[0, 2, 3, 4]),
    (SKIPPED, 16, &[0, 1, 2, 3, 4]),
    (FINISHED, 1, &[0, 1]),
    (INDEX, 8, &[0, 1, 2, 3]),
    (REPETITION, 8, &[0, 1]),
    (OF, 8, &[0, 1, 2]),
    (TIME, 16, &[0, 9, 10, 11]),
    (DISTANCE, 32, &[0, 99, 100, 101]),
    (OPEN, 64, &[0]),
    (WARMUP, 64, &[0]),
    (HEART_ZONE, 8, &[0, 1, 5, 6]),
    (CADENCE, 16, &[0, 65_530, 65_531]),
    (PLACE, 8, &[0, 2, 3]),
    (STEP_COUNT, 8, &[0, 1, 2, 3, 4, 12, 13]),
    (BLOCK_COUNT, 8, &[0, 1, 8, 9]),
    (NOTE_LEN, 8, &[0, 1, 20, 21]),
    (FTP, 16, &[0, 1, 49, 50, 600, 601, 65_534]),
    (BEST_MINUTE, 16, &[0, 1, 65, 66, 800, 801, 65_534]),
    (HEART, 16, &[0, 1, 255, 256, 65_534]),
    (POWER, 16, &[0, 1, 2_000, 2_001, 65_534]),
    (AVERAGE_0, 17, &AVERAGES),
    (AVERAGE_1, 17, &AVERAGES),
    (AVERAGE_2, 17, &AVERAGES),
    (RING_0, 16, &[0, 1, 2_000, 2_001, 65_534]),
    (RING_30, 16, &[0, 1, 2_000, 2_001, 65_534]),
    (RING_59, 16, &[0, 1, 2_000, 2_001, 65_534]),
];

/// Absent with watts or without, present with none, some and the most.
const AVERAGES: [u64; 6] = [0, 1, 65_536, 65_537, 67_537, 131_071];

/// Values that any field may be set to: half of 64 bits, and the greatest of each width.
const ANY: [u64; 6] = [1 << 63, u64::MAX, u32::MAX as u64, 65_535, 255, 7];

#[derive(Clone, Copy)]
struct Model {
    /// By the field's number; of the step on now a length is kept beside.
    values: [u64; NUMBERS],
    length: (usize, u64),
    /// The step's own intensity and target.
    own: bool,
}

impl Model {
    /// A player that stands after `skips` skips, with something in every field, and the calls that make it.
    fn base(skips: usize) -> (Self, Vec<Call>) {
        let done = skips == LENGTHS.len();
        let mut values = [0; NUMBERS];
        let on = skips.min(LENGTHS.len() - 1);
        for field in [POSITION, STEPS_DONE, SKIPPED] {
            values[field] = skips as u64;
        }
        for field in [STEPS, SUMMARY_STEPS, STEP_COUNT] {
            values[field] = LENGTHS.len() as u64;
        }
        for field in [DONE, FINISHED] {
            values[field] = done.into();
        }
        values[INDEX] = on as u64;
        values[OF] = 1;
        let mut model = Model { values, length: LENGTHS[on], own: true };
        let mut calls = vec![Call { kind: SKIP, ..call() }; skips];
        let rest = [
            (TOTAL_MS, 100_000),
            (TOTAL_MM, 5_000_000),
            (TEST_MJ, 1_000_000),
            (TEST_MS, 50_000),
            (REST_MS, 500),
            (LOW_MS, 1_000),
            (RING_AT, 30),
            (RING_LEN, 60),
            (TARGETED, 60),
            (IN, 30),
            (UNDER, 20),
            (OVER, 10),
            (UNREAD, 40),
            (CADENCE, 900),
            (PLACE, 1),
            (FTP, 250),
            (BEST_MINUTE, 300),
            (HEART, 140),
            (POWER, 200),
            (AVERAGE_1, 65_536 + 200),
            (RING_30, 200),
        ];
        let lap = [(STEP_MS, 5_000), (STEP_MM, 50_000), (EXTRA_S, 120), (EXTRA_M, 500)];
        for (field, value) in rest.into_iter().chain(lap.into_iter().filter(|_| !done)) {
            calls.push(model.set(field, value));
        }
        (model, calls)
    }

    /// A field set, in the model and by a call.
    fn set(&mut self, field: usize, value: u64) -> Call {
        let bits = FIELDS.iter().find(|(number, ..)| *number == field).unwrap().1;
        let kept = match bits {
            64 => value,
            1 => u64::from(value != 0),
            _ => value % (1 << bits),
        };
        self.values[field] = kept;
        match field {
            TIME | DISTANCE => self.length = (field, kept),
            OPEN => self.length = (OPEN, 0),
            WARMUP | HEART_ZONE => self.own = false,
            _ => {}
        }
        Call { kind: SET, ms: field as u32, mm: value as u32, power: (value >> 32) as u32, ..call() }
    }

    fn at(&self, field: usize) -> u128 {
        self.values[field].into()
    }

    /// "Workout passes 5 to 9": the slots behind the steps are open steps without a target, those of blocks aren't sound.
    fn workout_passes(&self) -> bool {
        (3..=12).contains(&self.values[STEP_COUNT]) && self.values[BLOCK_COUNT] == 0
    }

    /// "`played` is that position's or, done, the last", its note too.
    fn played_is(&self) -> bool {
        let place = self.at(POSITION).saturating_sub(self.at(DONE));
        let length = LENGTHS.get(place.min(12) as usize).copied().unwrap_or((OPEN, 0));
        let on = [self.at(INDEX), self.at(REPETITION), self.at(OF)];
        on == [place, 0, 1] && self.length == length && self.own && self.values[NOTE_LEN] == 0
    }

    fn counts_agree(&self) -> bool {
        let steps = self.at(STEP_COUNT);
        let position = self.at(POSITION);
        self.at(STEPS) == steps
            && self.at(SUMMARY_STEPS) == steps
            && position == self.at(STEPS_DONE)
            && self.at(SKIPPED) <= position
            && position <= steps
            && (self.at(DONE) == 1) == (position == steps)
            && self.at(DONE) == self.at(FINISHED)
    }

    fn step_within(&self) -> bool {
        if self.at(DONE) == 1 {
            return [STEP_MS, STEP_MM, EXTRA_S, EXTRA_M].iter().all(|&field| self.at(field) == 0);
        }
        let below = match self.length {
            (TIME, secs) => self.at(STEP_MS) < (u128::from(secs) + self.at(EXTRA_S)) * 1_000,
            (DISTANCE, metres) => {
                self.at(STEP_MM) < (u128::from(metres) + self.at(EXTRA_M)).min(u32::MAX.into()) * 1_000
            }
            _ => true,
        };
        below && self.at(EXTRA_S) <= 86_400 && self.at(EXTRA_M) <= 1_000_000
    }

    fn amounts_within(&self) -> bool {
        let total = self.at(TOTAL_MS);
        total <= 604_800_000
            && self.at(TOTAL_MM) <= 7_000_000_000
            && self.at(STEP_MS) <= total
            && self.at(STEP_MM) <= self.at(TOTAL_MM)
            && self.at(IN) + self.at(UNDER) + self.at(OVER) == self.at(TARGETED)
            && self.at(TARGETED) + self.at(UNREAD) <= total
            && self.at(TEST_MS) <= total
            && self.at(LOW_MS) <= total
            && self.at(TEST_MJ) <= 65_535 * self.at(TEST_MS)
    }

    fn stands(&self) -> bool {
        self.workout_passes()
            && self.counts_agree()
            && self.played_is()
            && self.step_within()
            && self.amounts_within()
            && self.at(RING_AT) < 60
            && self.at(RING_LEN) <= 60
            && self.at(REST_MS) < 1_000
            && self.at(PLACE) < 3
            && self.at(CADENCE) <= 65_530
    }
}

fn call() -> Call {
    Call { ftp: 250, lthr: 160, power: 1 + 200, heart: 1 + 140, cadence: 1 + 900, ..Call::default() }
}

/// The calls that a player is tried by.
fn tried() -> [Call; 8] {
    let of = |kind, ms, mm| Call { kind, ms, mm, ..call() };
    [
        of(READ, 0, 0),
        of(RIDE, 1_000, 1_000),
        of(EXTEND, 0, 0),
        call().extending(LONG),
        call().extending(Amount { secs: u32::MAX, metres: u32::MAX }),
        of(ADD, 70_000, 1_000_000),
        of(SKIP, 0, 0),
        of(RIDE, 86_400_000, 1_000_000_000),
    ]
}

/// How many players stood and were played, how many were refused, and of how many the model says something else.
#[derive(Default)]
pub struct Tally {
    pub played: u64,
    pub refused: u64,
    pub wrong: u64,
}

type Ours = fn(&[u8], &[Call]) -> Vec<u32>;

fn try_player(ours: Ours, file: &[u8], skips: usize, sets: &[(usize, u64)], tally: &mut Tally) {
    let (mut model, mut calls) = Model::base(skips);
    calls.extend(sets.iter().map(|&(field, value)| model.set(field, value)));
    let before = calls.len();
    calls.extend(tried());
    let words = ours(file, &calls);
    let stands = model.stands();
    // The refusals after the sets: of the summary, of what remains, of the distance, of the part and of the screen.
    let reports = |block: usize| [5, 17, 20, 22, 32].map(|place| words[WORDS * block + place]);
    let tallies = |block: usize| [6, 16].map(|place| words[WORDS * block + place]);
    let set = [TARGETED, UNREAD].map(|field| model.values[field] as u32);
    let right = (before + 1..=calls.len()).all(|block| {
        let number = words[WORDS * block];
        if stands {
            number != 20 && reports(block) == [0; 5] && tallies(block) == set
        } else {
            number == 20 && reports(block) == [20; 5] && tallies(block) == [0; 2]
        }
    });
    tally.played += u64::from(stands);
    tally.refused += u64::from(!stands);
    if !right {
        tally.wrong += 1;
        println!("after {skips} skips and {sets:?}: the model says {stands}");
    }
}

/// Each field at each of its values, in every step and after the last; sums that wrap; then random fields together.
pub fn try_fields(ours: Ours, count: u64, random: &mut Random) -> Tally {
    let file = fields_file();
    let mut tally = Tally::default();
    for skips in 0..=LENGTHS.len() {
        for (field, _, values) in FIELDS {
            for value in values.iter().chain(&ANY) {
                try_player(ours, &file, skips, &[(field, *value)], &mut tally);
            }
        }
        let half = 1 << 63;
        try_player(ours, &file, skips, &[(IN, half), (UNDER, half), (OVER, 0), (TARGETED, 0)], &mut tally);
        let targeted = |ms| [(IN, ms), (UNDER, 0), (OVER, 0), (TARGETED, ms)];
        let unread = [
            (half, half),
            (u64::MAX, 1),
            (1, u64::MAX),
            (u64::MAX, u64::MAX),
            (0, 100_000),
            (0, 100_001),
            (100_000, 0),
            (100_000, 1),
            (99_999, 1),
            (50_000, 50_000),
            (50_000, 50_001),
        ];
        for (ms, unread) in unread {
            try_player(ours, &file, skips, &[&targeted(ms)[..], &[(UNREAD, unread)]].concat(), &mut tally);
        }
        // All of a week, and 1 ms more.
        for ms in [604_799_940, 604_799_941] {
            try_player(ours, &file, skips, &[(TOTAL_MS, 604_800_000), (UNREAD, ms)], &mut tally);
        }
        try_player(ours, &file, skips, &[(TEST_MJ, u64::MAX), (TEST_MS, u64::MAX)], &mut tally);
        try_player(ours, &file, skips, &[(STEP_COUNT, 4), (STEPS, 4), (SUMMARY_STEPS, 4)], &mut tally);
        // Those without a limit together, at 0 and at their greatest.
        for value in [0, u64::MAX] {
            let sets: Vec<(usize, u64)> =
                FIELDS[FIELDS.len() - 10..].iter().map(|&(field, ..)| (field, value)).collect();
            try_player(ours, &file, skips, &sets, &mut tally);
        }
    }
    for _ in 0..count {
        let sets: Vec<(usize, u64)> = (0..1 + random.below(3))
            .map(|_| {
                let (field, _, values) = FIELDS[random.below(FIELDS.len() as u32) as usize];
                let any = random.below(8) == 0;
                let values = if any { &ANY[..] } else { values };
                (field, values[random.below(values.len() as u32) as usize])
            })
            .collect();
        try_player(ours, &file, random.below(4) as usize, &sets, &mut tally);
    }
    tally
}
