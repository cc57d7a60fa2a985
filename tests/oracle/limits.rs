//! Plays by hand: each limit of the player at one below, at it and one above; and what is unread. The numbers are the Rust's constants:
//! its public ones, and the private ones as they stand in the text of player.rs; those that the Rust hasn't are document 01's.
use super::calls::Play;
use super::{
    CADENCE, FREE, FTP, FTP_RAMP, HEART_ZONE_TARGET, LTHR, RAMP_TARGET, StepWords, Target, WATTS, WorkoutWords, files,
};
use played::{ADD, Call, READ, RIDE, SKIP};
use players::LONG;
use vana::ride::zones::TrainingProfile;
use vana::workout::player::{COUNTDOWN_S, EXTEND_M, EXTEND_S};

/// A constant of player.rs, by the line that gives it.
fn constant(name: &str) -> u32 {
    let text = include_str!("../../target/oracle/src/apps/vana/src/workout/player.rs");
    let line = text.lines().find(|line| line.contains(&format!("const {name}: "))).expect(name);
    let number: String = line.split('=').next_back().unwrap().chars().filter(char::is_ascii_digit).collect();
    number.parse().expect(name)
}

/// A test of document 01: its number in the file, and the share of its watts that is the FTP.
struct Test {
    number: u32,
    pct: u32,
}

const TWENTY: Test = Test { number: 1, pct: 95 };
const RAMP: Test = Test { number: 2, pct: 75 };

impl Test {
    fn ftp(&self, watts: u32) -> u32 {
        (watts * self.pct + 50) / 100
    }

    /// Watts about the least and about the greatest FTP that is kept, and about a half that is rounded up.
    fn watts(&self) -> Vec<u32> {
        let [least, greatest] = [TrainingProfile::FTP_WATTS.start(), TrainingProfile::FTP_WATTS.end()];
        let first = |ftp: u16| (0..).find(|&watts| self.ftp(watts) >= ftp.into()).unwrap();
        let half = (100..).find(|watts| watts * self.pct % 100 == 50).unwrap();
        [first(*least), first(*greatest + 1), half].into_iter().flat_map(|at| [at - 1, at, at + 1]).collect()
    }
}

const PROFILE: TrainingProfile = TrainingProfile { ftp_watts: 250, lthr_bpm: 160 };
/// No reading is present.
const BASE: Call = Call {
    kind: READ,
    ftp: PROFILE.ftp_watts as u32,
    lthr: PROFILE.lthr_bpm as u32,
    ms: 0,
    mm: 0,
    power: 0,
    heart: 0,
    cadence: 0,
};
const ABSENT: Call = BASE;
const PRESS: Call = Call { kind: SKIP, ..BASE };
const TOUCH: Call = BASE.extending(LONG);
/// Watts that no ramp or band is met with, and that none is.
const WEAK: u32 = 1;
const STRONG: u32 = 900;

const DAY_MS: u32 = 86_400_000;
const WAY_MM: u32 = 1_000_000_000;
const MOST_TENTHS: u32 = 65_530;

fn power(watts: u32) -> Call {
    Call { power: 1 + watts, ..BASE }
}

fn heart(bpm: u32) -> Call {
    Call { heart: 1 + bpm, ..BASE }
}

fn cadence(tenths: u32) -> Call {
    Call { cadence: 1 + tenths, ..BASE }
}

/// A reading and a second's ride in one call.
fn add(reading: Call) -> Call {
    Call { kind: ADD, ms: 1_000, ..reading }
}

fn ride(ms: u32) -> Call {
    way(ms, 0)
}

fn way(ms: u32, mm: u32) -> Call {
    Call { kind: RIDE, ms, mm, ..BASE }
}

/// Rides that stand at each of these times, one after the other.
fn rides_to(times: &[u32]) -> Vec<Call> {
    let starts = [0].iter().chain(times);
    starts.zip(times).map(|(start, end)| ride(end - start)).collect()
}

const WORK_STEP: u32 = 1;
const TEST_STEP: u32 = 4;
const OPEN: [u32; 2] = [2, 0];
const NO_TARGET: Target = [FREE, 0, 0, 0];

fn time(secs: u32) -> [u32; 2] {
    [0, secs]
}

fn distance(metres: u32) -> [u32; 2] {
    [1, metres]
}

fn step(intensity: u32, length: [u32; 2], target: Target) -> StepWords {
    StepWords { intensity, length, target }
}

/// The steps, played twice, so that an end shows as a start; no test is 0.
fn play(test: u32, steps: &[StepWords], calls: &[Call]) -> Play {
    let workout = WorkoutWords { test, steps: steps.to_vec(), blocks: vec![[0, steps.len() as u32, 2]] };
    Play { file: files::without_notes(&workout), calls: calls.to_vec() }
}

/// The steps, played once, and an open one after them: with one test step it is compared with the unchanged Rust for FTP too.
fn once(test: u32, steps: &[StepWords], calls: &[Call]) -> Play {
    let steps = [steps, &[step(WORK_STEP, OPEN, NO_TARGET)]].concat();
    let workout = WorkoutWords { test, steps, blocks: Vec::new() };
    Play { file: files::without_notes(&workout), calls: calls.to_vec() }
}

/// When a ramp gives up: the time under it, its share of the watts, its first stage, absent readings, what comes between.
fn ramps() -> Vec<Play> {
    let (fail_ms, pct) = (constant("RAMP_FAIL_MS"), constant("RAMP_FAIL_PCT"));
    let weak = power(WEAK);
    let test = |target, calls: &[Call]| play(RAMP.number, &[step(TEST_STEP, OPEN, target)], calls);
    let early = [RAMP_TARGET, 200, 20, 1];
    let mut plays = vec![
        test(early, &[weak, ride(fail_ms - 1), ride(1), ride(1)]),
        test(early, &[weak, ride(fail_ms)]),
        test(early, &[weak, ride(fail_ms + 1)]),
        // Absent readings neither count nor clear.
        test(early, &[weak, ride(fail_ms - 1), ABSENT, ABSENT, ABSENT, ride(fail_ms), weak, ride(1)]),
        test(early, &[weak, ABSENT, ride(fail_ms - 1), ride(1)]),
        // One reading that holds the ramp clears.
        test(early, &[weak, ride(fail_ms - 1), power(STRONG), ride(1), weak, weak, weak, ride(fail_ms - 1), ride(1)]),
    ];
    // The first stage: a second longer than the time under it, and shorter. The watts of 206 are no whole ones at 90 %.
    let long = fail_ms / 1_000 + 2;
    for (kind, start, rise, watts) in [(RAMP_TARGET, 200, 20, 200), (RAMP_TARGET, 206, 20, 206), (FTP_RAMP, 80, 8, 200)]
    {
        let held = (watts * pct).div_ceil(100);
        for watts in [held - 1, held, held + 1] {
            let times = [1_000 * long - 1, 1_000 * long, 1_000 * long + 1];
            plays.push(test([kind, start, rise, long], &[vec![power(watts)], rides_to(&times)].concat()));
        }
    }
    let held = 200 * pct / 100;
    let short = [RAMP_TARGET, 200, 20, 5];
    plays.push(test(
        short,
        &[&[power(held)][..], &rides_to(&[4_999, 5_000, 5_001, 4_998 + fail_ms, 4_999 + fail_ms])].concat(),
    ));
    plays.push(test(short, &[power(held), ride(5_000)]));
    plays.push(test(short, &[power(held), ride(5_001)]));
    // The time under a ramp runs on to the next step, as no other number of a test does, and counts in a `Test` step of a ramp test
    // alone.
    let ramp = |intensity, every| step(intensity, OPEN, [RAMP_TARGET, 200, 20, every]);
    plays.push(play(
        RAMP.number,
        &[ramp(TEST_STEP, 60), ramp(WORK_STEP, 2)],
        &[weak, ride(fail_ms), PRESS, ride(1_999), ride(1)],
    ));
    plays.push(play(RAMP.number, &[ramp(WORK_STEP, 1)], &[weak, ride(fail_ms), ride(1)]));
    plays.push(play(0, &[ramp(TEST_STEP, 1)], &[weak, ride(fail_ms), ride(1)]));
    plays.push(play(TWENTY.number, &[ramp(TEST_STEP, 1)], &[weak, ride(fail_ms), ride(1)]));
    plays
}

/// A `Twenty` test of 10 s: its FTP, its mean, ridden 1 ms short, skipped, touched; then two of them.
fn twenties() -> Vec<Play> {
    let timed = step(TEST_STEP, time(10), NO_TARGET);
    let test = |calls: &[Call]| once(TWENTY.number, &[timed], calls);
    let two = |calls: &[Call]| play(TWENTY.number, &[timed], calls);
    let mut plays: Vec<Play> = TWENTY.watts().iter().map(|&watts| test(&[power(watts), ride(10_000)])).collect();
    let hard = power(250);
    let touched = 9_999 + 1_000 * EXTEND_S;
    // Half a watt rounds up, on screen too.
    let even = [power(100), ride(2_500), power(101), ride(2_500)];
    plays.extend([
        test(&[even, even].concat()),
        test(&[power(100), ride(5_001), power(101), ride(4_999)]),
        test(&[hard, ride(9_999), ride(1), PRESS]),
        test(&[hard, ride(9_999), PRESS]),
        test(&[hard, TOUCH, ride(touched), ride(1)]),
        test(&[hard, ride(5_000), ABSENT, ride(5_000)]),
        once(TWENTY.number, &[step(TEST_STEP, OPEN, NO_TARGET)], &[hard, ride(10_000), PRESS]),
        once(TWENTY.number, &[step(WORK_STEP, time(10), NO_TARGET), timed], &[hard, ride(10_000), ride(10_000)]),
        // Each has the mean of its own step, after a whole one and after a skipped one; 1 ms short it has none.
        two(&[hard, ride(10_000), power(100), ride(1), ride(9_999)]),
        two(&[hard, ride(9_999), PRESS, power(100), TOUCH, ride(touched), ride(1)]),
        two(&[hard, ride(10_000), power(100), ride(9_999), PRESS]),
    ]);
    plays
}

/// The best minute of a `Ramp` test: its FTP, its mean, its seconds, the greatest of two; then of two tests.
fn minutes() -> Vec<Play> {
    let minute = constant("MINUTE");
    let ms = 1_000 * minute;
    let open = step(TEST_STEP, OPEN, NO_TARGET);
    let test = |calls: &[Call]| once(RAMP.number, &[open], calls);
    let two = |calls: &[Call]| play(RAMP.number, &[open], calls);
    let mut plays: Vec<Play> = RAMP.watts().iter().map(|&watts| test(&[power(watts), ride(ms), PRESS])).collect();
    let half = 1_000 * (minute / 2);
    let hard = power(300);
    plays.extend([
        test(&[&[hard][..], &rides_to(&[ms - 1, ms, ms + 1]), &[PRESS, PRESS]].concat()),
        test(&[power(101), ride(half), power(100), ride(ms - half), PRESS]),
        test(&[power(101), ride(half - 1_000), power(100), ride(ms - half + 1_000), PRESS]),
        // A second has the watts that it ends with.
        test(&[power(100), ride(999), hard, ride(1), ride(ms - 1_001), ride(1)]),
        test(&[power(100), ride(1_000), hard, ride(ms - 1_000)]),
        test(&[hard, ride(ms), power(100), ride(ms + 1_000)]),
        test(&[power(100), ride(ms), hard, ride(999), ride(1)]),
        // Each has the best minute of its own step, a lower one too. In less than a minute there is none, and the first's isn't
        // given again. Seconds and the rest of one don't count in the next.
        two(&[hard, ride(ms), PRESS, power(100), ride(ms), PRESS]),
        two(&[hard, ride(ms), PRESS, ride(ms - 1), PRESS]),
        two(&[hard, ride(ms - 500), PRESS, power(100), ride(ms - 1), ride(1), PRESS]),
        play(
            RAMP.number,
            &[step(TEST_STEP, time(minute - 1), NO_TARGET), step(WORK_STEP, time(10), NO_TARGET)],
            &[hard, ride(ms - 1_000), ride(10_000), ride(999), ride(1), PRESS],
        ),
    ]);
    plays
}

/// Timed steps: the countdown's marks, the end, steps shorter than the countdown, a touch after the first mark.
fn ends() -> Vec<Play> {
    let timed = |secs| step(WORK_STEP, time(secs), NO_TARGET);
    let ten = |calls: &[Call]| play(0, &[timed(10)], calls);
    let marks: Vec<u32> = (1..=COUNTDOWN_S).rev().map(|n| 10_000 - 1_000 * n).collect();
    let about = |at: &[u32]| -> Vec<u32> { at.iter().flat_map(|at| [at - 1, *at, at + 1]).collect() };
    let touched = 1_000 * EXTEND_S;
    let secs: Vec<StepWords> = (1..=COUNTDOWN_S + 1).map(timed).collect();
    vec![
        ten(&rides_to(&about(&marks))),
        ten(&rides_to(&[&marks[..], &[10_000, 10_001]].concat())),
        ten(&rides_to(&[marks[0] - 1_000, 9_999, 10_000])),
        ten(&[ride(10_000)]),
        ten(&[ride(10_001)]),
        ten(&[ride(20_000), ride(1)]),
        ten(&[&[TOUCH][..], &rides_to(&about(&[marks[0] + touched, 10_000 + touched]))].concat()),
        ten(&[ride(9_500), TOUCH, ride(marks[0] + touched - 9_501), ride(1)]),
        play(0, &secs, &(1..=COUNTDOWN_S + 1).flat_map(|secs| [ride(1_000 * secs - 1), ride(1)]).collect::<Vec<_>>()),
    ]
}

/// Distance steps: 1 mm short, the time that rounds up; a timed step's way, which rounds down; a touch.
fn ways() -> Vec<Play> {
    let hundred = step(WORK_STEP, distance(100), NO_TARGET);
    let test = |calls: &[Call]| play(0, &[hundred], calls);
    let mut plays: Vec<Play> = [(1_000, 99_999), (1_000, 100_000), (1_000, 100_001), (1, 500_000)]
        .into_iter()
        .chain([149_999, 150_000, 150_001].map(|mm| (3_000, mm)))
        .map(|(ms, mm)| test(&[way(ms, mm), way(1, 1)]))
        .collect();
    let long = 1_000 * (100 + EXTEND_M);
    plays.extend([
        test(&[TOUCH, way(1_000, long - 1), way(1, 1)]),
        test(&[TOUCH, way(1_000, long + 1)]),
        play(0, &[step(WORK_STEP, distance(u32::MAX), NO_TARGET)], &[TOUCH]),
    ]);
    // Half of the way is in the timed step: what is left of it ends the distance step, or is 1 mm short.
    let both = [step(WORK_STEP, time(10), NO_TARGET), hundred];
    plays.extend([199_997, 199_998, 199_999].map(|mm| play(0, &both, &[way(20_000, mm)])));
    plays
}

/// Readings at both ends of a band: power, heart rate, heart zones, cadence and its rounding; the average; the percentage.
fn bands() -> Vec<Play> {
    let open = |target, calls: &[Call]| play(0, &[step(WORK_STEP, OPEN, target)], calls);
    let about = |low: u32, high: u32| [low - 1, low, low + 1, high - 1, high, high + 1];
    let (ftp, lthr): (u32, u32) = (PROFILE.ftp_watts.into(), PROFILE.lthr_bpm.into());
    let share = |base: u32, pct: u32| (base * pct + 50) / 100;
    let mut plays = Vec::new();
    let powers = [
        ([WATTS, 100, 200, 0], 100, 200),
        ([FTP, 90, 95, 0], share(ftp, 90), share(ftp, 95)),
        ([RAMP_TARGET, 200, 20, 60], share(200, 95), share(200, 110)),
    ];
    for (target, low, high) in powers {
        plays.extend(about(low, high).map(|watts| open(target, &[add(power(watts))])));
    }
    let beats = about(share(lthr, 50), share(lthr, 100)).map(|bpm| add(heart(bpm)));
    plays.push(open([LTHR, 50, 100, 0], &beats));
    for zone in 1..=5 {
        let (low, next) = PROFILE.heart_range(zone);
        let beats = [low - 1, low, next - 1, next, 90].map(|bpm| add(heart(bpm)));
        plays.push(open([HEART_ZONE_TARGET, zone.into(), 0, 0], &beats));
    }
    // 59.4 turns are 59, 59.5 are 60; 90.4 are 90, 90.5 are 91.
    let turns = [594, 595, 596, 904, 905, 906].map(|tenths| add(cadence(tenths)));
    plays.push(open([CADENCE, 60, 90, 0], &turns));
    // The average of one, two and three; of two and one beside absent ones; of none.
    let three = [Some(100), Some(101), Some(101), Some(100), Some(100), None, None, None];
    plays.push(open(NO_TARGET, &three.map(|watts| watts.map_or(ABSENT, power))));
    // 1 ms of 199, 200 and 201: half a percent rounds up.
    plays.push(open([WATTS, 100, 200, 0], &[power(150), ride(1), power(STRONG), ride(198), ride(1), ride(1)]));
    plays
}

/// Questions 10 to 13 at their limits, and 0 ms. 15 is in `calls::limit_plays`, 14 in cutting.rs.
fn asked() -> Vec<Play> {
    let open = |target, calls: &[Call]| play(0, &[step(WORK_STEP, OPEN, target)], calls);
    let [least, greatest] =
        [TrainingProfile::FTP_WATTS.start(), TrainingProfile::FTP_WATTS.end()].map(|&ftp| u32::from(ftp));
    let ftps = [least - 1, least, greatest, greatest + 1].map(|ftp| Call { ftp, ..ride(1) });
    let lthrs = [0, 1, 255, 256].map(|lthr| Call { lthr, ..ride(1) });
    let refused = [Call { ftp: least - 1, ..add(power(100)) }, Call { lthr: 256, ..add(power(100)) }];
    let tenths = [MOST_TENTHS - 1, MOST_TENTHS, MOST_TENTHS + 1];
    let rides = [(DAY_MS, 0), (DAY_MS + 1, 0), (1, WAY_MM), (1, WAY_MM + 1), (0, WAY_MM + 1), (DAY_MS - 1, WAY_MM - 1)];
    let added = [(DAY_MS + 1, 0), (0, WAY_MM + 1)].map(|(ms, mm)| Call { ms, mm, ..add(ABSENT) });
    let days = [ride(DAY_MS), ride(DAY_MS), ride(DAY_MS), ride(DAY_MS), ride(DAY_MS), ride(DAY_MS)];
    let far = days.map(|_| way(1, WAY_MM));
    vec![
        open([FTP, 90, 95, 0], &[&ftps[..], &lthrs, &refused].concat()),
        open(
            [CADENCE, 60, 90, 0],
            &tenths.map(cadence).into_iter().chain(tenths.map(|t| add(cadence(t)))).collect::<Vec<_>>(),
        ),
        open(NO_TARGET, &rides.map(|(ms, mm)| way(ms, mm)).into_iter().chain(added).collect::<Vec<_>>()),
        open(
            NO_TARGET,
            &[&days[..], &[ride(DAY_MS - 1), ride(1), ride(1), ride(0), Call { ms: 1, ..add(ABSENT) }]].concat(),
        ),
        open(NO_TARGET, &[&far[..], &[way(1, WAY_MM - 1), way(1, 1), way(1, 1), way(0, 1), way(1, 0)]].concat()),
        open(NO_TARGET, &[power(100), Call { ms: 0, ..add(power(STRONG)) }, ride(0), ride(1)]),
    ]
}

/// Document 02's request g: plays with the targeted and unread milliseconds after the last call, as they follow from its sentences.
pub fn unread() -> Vec<(Play, [u32; 2])> {
    const WATTS_BAND: Target = [WATTS, 100, 200, 0];
    const HEART_BAND: Target = [LTHR, 50, 100, 0];
    const ZONE: Target = [HEART_ZONE_TARGET, 3, 0, 0];
    const TURNS: Target = [CADENCE, 60, 90, 0];
    let open = |target, calls: &[Call]| play(0, &[step(WORK_STEP, OPEN, target)], calls);
    let timed = |target| step(WORK_STEP, time(10), target);
    let fading = [ABSENT, ride(30), ABSENT, ride(40), ABSENT, ride(50)];
    let mut plays = vec![
        // No band: neither.
        (open(NO_TARGET, &[ride(1_000), power(150), ride(1_000)]), [0, 0]),
        // The average is there as long as one of the last three readings is. A reading of 0 is one.
        (
            open(WATTS_BAND, &[&[ride(10), power(150), ride(20)], &fading[..], &[power(150), ride(60)]].concat()),
            [150, 60],
        ),
        (open(WATTS_BAND, &[ABSENT, ride(5), ABSENT, ABSENT, ABSENT, ride(6), power(0), ride(7)]), [7, 11]),
        (open(HEART_BAND, &[heart(0), ride(8), ABSENT, ride(9)]), [8, 9]),
        (open(TURNS, &[cadence(0), ride(8), ABSENT, ride(9)]), [8, 9]),
        // A call with its reading; with 0 ms it reads nothing.
        (open(HEART_BAND, &[add(heart(120)), add(ABSENT), add(heart(120))]), [2_000, 1_000]),
        (open(HEART_BAND, &[Call { ms: 0, ..add(heart(120)) }, ride(5)]), [0, 5]),
        (open(HEART_BAND, &[heart(120), Call { ms: 0, ..add(ABSENT) }, ride(5)]), [5, 0]),
        // A distance step: 2,000 ms of the update are in it. Stages of a ramp, which absent readings don't end.
        (once(0, &[step(WORK_STEP, distance(100), TURNS)], &[way(3_000, 150_000)]), [0, 2_000]),
        (play(0, &[step(WORK_STEP, distance(100), TURNS)], &[way(3_000, 150_000)]), [0, 3_000]),
        (
            once(
                RAMP.number,
                &[step(TEST_STEP, OPEN, [RAMP_TARGET, 200, 20, 1])],
                &[ride(30_000), power(500), ride(999)],
            ),
            [999, 30_000],
        ),
        // From a step with a band into one without, the other way round, between bands of which one has its reading, and over three.
        (once(0, &[timed(WATTS_BAND)], &[ride(15_000)]), [0, 10_000]),
        (once(0, &[timed(NO_TARGET), timed(WATTS_BAND)], &[ride(15_000)]), [0, 5_000]),
        (once(0, &[timed(WATTS_BAND), timed(HEART_BAND)], &[heart(120), ride(15_000)]), [5_000, 10_000]),
        (once(0, &[timed(HEART_BAND), timed(WATTS_BAND)], &[heart(120), ride(15_000)]), [10_000, 5_000]),
        (once(0, &[timed(ZONE), timed(NO_TARGET), timed(TURNS)], &[ride(40_000)]), [0, 20_000]),
        // More events in one call than the Rust's have room for.
        (play(0, &[step(WORK_STEP, time(1), WATTS_BAND); 12], &[Call { ms: 30_000, ..add(ABSENT) }]), [0, 24_000]),
        // A step skipped, made longer, the last one ended; rides that are refused.
        (once(0, &[timed(WATTS_BAND)], &[ride(3_000), PRESS, ride(4_000)]), [0, 3_000]),
        (once(0, &[timed(WATTS_BAND)], &[TOUCH, ride(80_000)]), [0, 1_000 * (10 + EXTEND_S)]),
        (play(0, &[timed(WATTS_BAND)], &[ride(20_000), ride(5_000), PRESS]), [0, 20_000]),
        (open(WATTS_BAND, &[ride(DAY_MS + 1), Call { ftp: 49, ..ride(5) }, ride(7)]), [0, 7]),
        // A week of it, and of both.
        (open(WATTS_BAND, &[ride(DAY_MS); 8]), [0, 7 * DAY_MS]),
        (
            open(TURNS, &[[ride(DAY_MS); 3], [cadence(700), ride(DAY_MS), ride(DAY_MS)]].concat()),
            [2 * DAY_MS, 3 * DAY_MS],
        ),
    ];
    // No reading ever, under each kind of band.
    for target in
        [WATTS_BAND, [FTP, 90, 95, 0], [RAMP_TARGET, 200, 20, 60], [FTP_RAMP, 80, 8, 60], HEART_BAND, ZONE, TURNS]
    {
        plays.push((open(target, &[ride(1), ride(999), add(ABSENT)]), [0, 2_000]));
    }
    // The newest reading's: one that comes and goes, and one of the two others, which is none.
    for (target, reading, other) in
        [(HEART_BAND, heart(120), power(150)), (ZONE, heart(140), cadence(900)), (TURNS, cadence(750), heart(120))]
    {
        let goes = [reading, ride(20), ABSENT, ride(30), reading, ride(40), other, ride(50), ride(0)];
        plays.push((open(target, &goes), [60, 80]));
    }
    plays.push((open(WATTS_BAND, &[heart(120), ride(20), cadence(750), ride(30), power(150), ride(40)]), [40, 50]));
    plays
}

/// All of them.
pub fn plays() -> Vec<Play> {
    let unread = unread().into_iter().map(|(play, _)| play).collect();
    [ramps(), twenties(), minutes(), ends(), ways(), bands(), asked(), unread].into_iter().flatten().collect()
}
