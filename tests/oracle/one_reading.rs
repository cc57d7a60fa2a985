//! Document 02's request n, 'What one reading can do': pairs of lists of calls that differ in one read, its power d watts higher in
//! the second, in `Twenty` workouts with one played test step, without distance steps and ramp targets. The FTP of a list is that
//! of the Rattle's player of crate `compare_cut`, from a static library, of document 01's millisecond machine (machine.rs) and of
//! the altered Rust (cut.rs), which must agree after each call in all words, unread among them. T, the milliseconds ridden in the
//! test step, and t, those of them ridden while that reading was the latest, are counted here, apart from all three; so are the
//! sums of watts, which must differ by d × t and, over T, give the FTPs. Where both lists have an FTP, the second's must not be
//! lower, and must exceed the first's by at most d × t / T rounded up. Cases by hand have their FTPs, d, t, T and the bound written
//! down; those in workouts that the request leaves out show that it is false there. Words: how many random pairs, and the seed.
//! Writes how many had two FTPs, how many met the bound, and of what kinds they were. Fails on a fault, and where a kind, a bound
//! above 0 that is met, one that rounded down would be broken, or a call with something unread wasn't met.
mod cut;
mod machine;

use cut::{Beside, Call, EXACT, Lent, MOST, UNREAD, feed, machine_words, ours, places_of, words_of};
use inputs::Random;
use machine::Machine;
use players::{Altered, Amount, DEFAULT, test_steps};
use std::cmp::Ordering;
use vana::ride::{log::Sample, zones::TrainingProfile};
use vana::workout::codec;
use vana::workout::model::{Block, Intensity, Length, Step, Target, Test, Workout};

/// The place of FTP among a list's last words.
const FTP: usize = 5;

/// Two lists of calls: the second has `d` watts more in read `at` of the first.
struct Pair {
    workout: Workout,
    profile: TrainingProfile,
    calls: Vec<Call>,
    at: usize,
    d: u16,
}

impl Pair {
    fn second(&self) -> Vec<Call> {
        let mut calls = self.calls.clone();
        let Call::Read(sample) = &mut calls[self.at] else { panic!("call {} is no read", self.at) };
        sample.power_watts = Some(sample.power_watts.and_then(|watts| watts.checked_add(self.d)).unwrap());
        calls
    }

    /// The FTP of a list of calls, and after how many of them something was unread; or what was refused or where the three differ.
    fn ftp(&self, calls: &[Call]) -> Result<(Option<u32>, u64), String> {
        let mut machine = Machine::new(&self.workout, self.profile);
        let mut altered = Beside::<Altered>::new(&self.workout);
        let mut list = Vec::new();
        // After each call: the calls of the Rattle's list, and the machine's words.
        let mut fed = Vec::new();
        for (i, call) in calls.iter().enumerate() {
            let places = places_of(call, &machine);
            list.extend(words_of(call, places, &self.profile));
            let numbers = feed(&mut machine, call, places);
            if numbers.iter().any(|&number| number != 0) {
                return Err(format!("call {i}: refused {numbers:?} by the machine"));
            }
            altered.play(call, &numbers, &self.profile);
            let (words, rust) = (machine_words(&machine), altered.words());
            if rust != words {
                return Err(format!("call {i}: machine {words:?}, altered Rust {rust:?}"));
            }
            fed.push((list.len(), words));
        }
        let answers = ours(&codec::encode(&self.workout), &list);
        if let Some(at) = answers.iter().position(|words| words[0] != 0) {
            return Err(format!("after {at} calls: refused {} by the Rattle", answers[at][0]));
        }
        for (i, (at, words)) in fed.iter().enumerate() {
            if answers[*at][1..] != *words {
                return Err(format!("call {i}: Rattle {:?}, machine {words:?}", &answers[*at][1..]));
            }
        }
        let unread = fed.iter().filter(|(_, words)| words[UNREAD] > 0).count() as u64;
        Ok((machine_words(&machine)[FTP].checked_sub(1), unread))
    }

    /// Both FTPs, what is counted of each list, the same but for the sum of watts, and the calls after which something was unread.
    fn play(&self) -> Result<([Option<u32>; 2], [Count; 2], u64), String> {
        let second = self.second();
        let given = [self.ftp(&self.calls)?, self.ftp(&second)?];
        let counts = [&self.calls, &second].map(|calls| count(&self.workout, calls, self.at));
        let more = u64::from(self.d) * counts[0].latest_ms;
        if counts[1] != (Count { sum: counts[0].sum + more, ..counts[0] }) {
            return Err(format!("counted {counts:?}"));
        }
        let [(_, unread), (_, unread_too)] = given;
        Ok((given.map(|(ftp, _)| ftp), counts, unread + unread_too))
    }

    fn show(&self, fault: &str) {
        println!("{fault}\n  steps {:?}, blocks {:?}", self.workout.steps(), self.workout.blocks());
        println!("  test {:?}, profile {:?}\n  calls {:?}", self.workout.test, self.profile, self.calls);
        println!("  call {} has {} W more in the second list", self.at, self.d);
    }
}

/// What is counted of a list.
#[derive(Clone, Copy, Debug, Default, PartialEq, Eq)]
struct Count {
    /// T and t.
    test_ms: u64,
    latest_ms: u64,
    /// Watts of each of T's milliseconds, added up.
    sum: u64,
    skipped: bool,
    /// In the test step: an extend by a second or more, a ride of 0 ms.
    extended: bool,
    rested: bool,
    /// The reading was given before the test step began; it was the latest as that ended; a read without power came next there.
    given_before: bool,
    latest_at_end: bool,
    ended_without_power: bool,
}

impl Count {
    /// "at most d × t / T rounded up".
    fn bound(&self, d: u16) -> u64 {
        (u64::from(d) * self.latest_ms).div_ceil(self.test_ms)
    }

    /// "mean (sum + time / 2) / time, then (mean × 95 + 50) / 100".
    fn result(&self) -> u64 {
        let mean = (self.sum + self.test_ms / 2) / self.test_ms;
        (mean * 95 + 50) / 100
    }
}

/// Counts the calls of a list by the played steps and by whole stretches of rides, without any player.
struct Counter {
    steps: Vec<Step>,
    position: usize,
    time: u64,
    extra: u64,
    /// The latest reading's watts, absent 0, and whether it is the one that differs.
    watts: u64,
    latest: bool,
    count: Count,
}

impl Counter {
    fn new(workout: &Workout) -> Self {
        let steps = workout.played().map(|played| played.step).collect();
        Self { steps, position: 0, time: 0, extra: 0, watts: 0, latest: false, count: Count::default() }
    }

    fn in_test(&self) -> bool {
        self.steps.get(self.position).is_some_and(is_test)
    }

    fn test_began(&self) -> bool {
        self.steps.iter().take(self.position + 1).any(is_test)
    }

    fn test_over(&self) -> bool {
        !self.steps.iter().skip(self.position).any(is_test)
    }

    /// The milliseconds left of a timed step.
    fn left(&self) -> Option<u64> {
        match self.steps.get(self.position)?.length {
            Length::Time(secs) => Some(1_000 * (u64::from(secs) + self.extra) - self.time),
            _ => None,
        }
    }

    fn end(&mut self) {
        self.position += 1;
        (self.time, self.extra) = (0, 0);
    }

    /// A call; `differs` in the read that isn't the same in both lists.
    fn call(&mut self, call: &Call, differs: bool) {
        match call {
            Call::Read(sample) => self.read(sample, differs),
            Call::Ride(pieces, _) => pieces.iter().for_each(|&(ms, _)| self.ride(ms)),
            Call::Skip(_) if self.position < self.steps.len() => {
                self.count.skipped = true;
                self.end();
            }
            Call::Skip(_) => {}
            Call::Extend(amount) => self.extend(amount.secs),
            Call::ExtendDefault => self.extend(DEFAULT.secs),
        }
    }

    fn read(&mut self, sample: &Sample, differs: bool) {
        self.count.ended_without_power |= self.latest && self.in_test() && sample.power_watts.is_none();
        self.count.given_before |= differs && !self.test_began();
        self.latest = differs;
        self.watts = sample.power_watts.map_or(0, u64::from);
    }

    fn extend(&mut self, secs: u32) {
        if self.left().is_some() {
            self.extra += u64::from(secs);
            self.count.extended |= self.in_test() && secs > 0;
        }
    }

    fn ride(&mut self, mut ms: u64) {
        self.count.rested |= ms == 0 && self.in_test();
        while ms > 0 && self.position < self.steps.len() {
            let left = self.left();
            let part = left.map_or(ms, |left| left.min(ms));
            ms -= part;
            self.time += part;
            if self.in_test() {
                self.count.test_ms += part;
                self.count.latest_ms += if self.latest { part } else { 0 };
                self.count.sum += self.watts * part;
            }
            if left == Some(part) {
                self.count.latest_at_end |= self.in_test() && self.latest;
                self.end();
            }
        }
    }
}

fn is_test(step: &Step) -> bool {
    step.intensity == Intensity::Test
}

/// What is counted of a list whose read `at` is the one that differs.
fn count(workout: &Workout, calls: &[Call], at: usize) -> Count {
    let mut counter = Counter::new(workout);
    calls.iter().enumerate().for_each(|(i, call)| counter.call(call, i == at));
    counter.count
}

/// The kinds of pairs that must be met.
const KINDS: [&str; 12] = [
    "d 0",
    "t 0",
    "t above 0 and below T",
    "t T",
    "an extend in the test",
    "a skip",
    "a ride of 0 ms in the test",
    "a step before it",
    "a step after it",
    "the reading given before the test began and latest in it",
    "latest as it ended",
    "t ended by a read without power",
];

fn kinds(pair: &Pair, count: &Count) -> [bool; KINDS.len()] {
    let (t, whole) = (count.latest_ms, count.test_ms);
    let steps = pair.workout.steps();
    [
        pair.d == 0,
        t == 0,
        0 < t && t < whole,
        t == whole,
        count.extended,
        count.skipped,
        count.rested,
        !is_test(&steps[0]),
        !is_test(&steps[steps.len() - 1]),
        count.given_before && t > 0,
        count.latest_at_end,
        count.ended_without_power && t > 0,
    ]
}

/// Faulty pairs are written out, so many of them.
const SHOWN: u64 = 3;

#[derive(Default)]
struct Tally {
    cases: u64,
    wrong: u64,
    pairs: u64,
    faulty: u64,
    /// Pairs on which the players differ, or that one of them refuses.
    different: u64,
    /// Pairs with two FTPs, and of them: with T 0 or an FTP that isn't that of sum and T; with a second lower than the first; with
    /// one above the bound.
    measured: u64,
    other_sum: u64,
    lower: u64,
    above: u64,
    /// Pairs that meet the bound, those of them with one above 0, and those above the bound rounded down.
    met: u64,
    met_above_0: u64,
    above_rounded_down: u64,
    kinds: [u64; KINDS.len()],
    /// Calls of random lists after which something was unread.
    unread: u64,
}

impl Tally {
    fn pair(&mut self, pair: &Pair) {
        self.pairs += 1;
        let fault = match pair.play() {
            Ok((ftps, counts, unread)) => {
                self.unread += unread;
                let both = ftps[0].zip(ftps[1]).map(|(first, second)| [first, second].map(u64::from));
                both.and_then(|ftps| self.hold(pair, ftps, &counts))
            }
            Err(fault) => {
                self.different += 1;
                Some(fault)
            }
        };
        if let Some(fault) = fault {
            self.faulty += 1;
            if self.faulty <= SHOWN {
                pair.show(&fault);
            }
        }
    }

    /// What is wrong with two FTPs, if anything is.
    fn hold(&mut self, pair: &Pair, ftps: [u64; 2], counts: &[Count; 2]) -> Option<String> {
        let ([first, second], count) = (ftps, &counts[0]);
        let (t, whole) = (count.latest_ms, count.test_ms);
        self.measured += 1;
        if whole == 0 || counts.map(|count| count.result()) != ftps {
            self.other_sum += 1;
            return Some(format!("FTPs {ftps:?}, counted {counts:?}"));
        }
        let bound = count.bound(pair.d);
        let [lower, above] = [second < first, second > first + bound];
        self.lower += u64::from(lower);
        self.above += u64::from(above);
        self.met += u64::from(second == first + bound);
        self.met_above_0 += u64::from(bound > 0 && second == first + bound);
        self.above_rounded_down += u64::from(second > first + u64::from(pair.d) * t / whole);
        for (met, kind) in self.kinds.iter_mut().zip(kinds(pair, count)) {
            *met += u64::from(kind);
        }
        (lower || above).then(|| format!("FTPs {first} and {second}, d {}, t {t}, T {whole}: bound {bound}", pair.d))
    }

    /// Holds a pair to what is written down of it.
    fn case(&mut self, what: &str, workout: Workout, calls: &[Call], at: usize, wanted: Wanted) {
        assert!(workout.validate().is_ok());
        let profile = TrainingProfile { ftp_watts: 250, lthr_bpm: 160 };
        let pair = Pair { workout, profile, calls: calls.to_vec(), at, d: wanted.d };
        self.cases += 1;
        let given = pair.play().and_then(|(ftps, [count, _], _)| {
            let [Some(first), Some(second)] = ftps else { return Err(format!("FTPs {ftps:?}")) };
            let bound = count.bound(pair.d);
            let is = u64::from(second).cmp(&(u64::from(first) + bound));
            Ok(Wanted { ftps: [first, second], d: pair.d, t: count.latest_ms, whole: count.test_ms, bound, is })
        });
        if given != Ok(wanted) {
            self.wrong += 1;
            pair.show(&format!("{what}: wanted {wanted:?}, it is {given:?}"));
        }
    }

    fn missing(&self) -> bool {
        self.met_above_0 == 0 || self.above_rounded_down == 0 || self.kinds.contains(&0) || self.unread == 0
    }
}

/// Of a pair by hand: its FTPs, d, t, T, the bound, and whether the second FTP is below the first with the bound added, meets it, or
/// is above it.
#[derive(Clone, Copy, Debug, PartialEq, Eq)]
struct Wanted {
    ftps: [u32; 2],
    d: u16,
    t: u64,
    whole: u64,
    bound: u64,
    is: Ordering,
}

const SKIP: Call = Call::Skip(EXACT);
/// A read without power.
const ABSENT: Call = Call::Read(Sample { power_watts: None, heart_bpm: Some(150), cadence_tenths: Some(900) });

fn power(watts: u16) -> Call {
    Call::Read(Sample { power_watts: Some(watts), ..Sample::default() })
}

fn ride(ms: u64) -> Call {
    Call::Ride(vec![(ms, 0)], EXACT)
}

fn extend(secs: u32) -> Call {
    Call::Extend(Amount { secs, metres: 0 })
}

fn time(intensity: Intensity, secs: u16) -> Step {
    Step::new(intensity, Length::Time(secs), Target::Free)
}

fn test(secs: u16) -> Step {
    time(Intensity::Test, secs)
}

fn twenty(steps: &[Step]) -> Workout {
    Workout::new("ONE READING", steps, &[], Some(Test::Twenty))
}

/// Pairs by hand that the request is about.
fn cases(tally: &mut Tally) {
    let one_second = || twenty(&[test(1)]);
    // Sums of 100,499 and 100,500 over 1,000 ms, so means of 100 and 101 W. Rounded down the bound would be 0.
    tally.case(
        "1 W more for 1 ms",
        one_second(),
        &[power(100), ride(999), power(599), ride(1)],
        2,
        Wanted { ftps: [95, 96], d: 1, t: 1, whole: 1_000, bound: 1, is: Ordering::Equal },
    );
    // 100,499 and 101,500: means of 100 and 102 W. 95 % of d × t / T, rounded up, would be 1.
    tally.case(
        "1,001 W more for 1 ms",
        one_second(),
        &[power(100), ride(999), power(599), ride(1)],
        2,
        Wanted { ftps: [95, 97], d: 1_001, t: 1, whole: 1_000, bound: 2, is: Ordering::Equal },
    );
    tally.case(
        "111 or 130 W all the time",
        one_second(),
        &[power(111), ride(1_000)],
        0,
        Wanted { ftps: [105, 124], d: 19, t: 1_000, whole: 1_000, bound: 19, is: Ordering::Equal },
    );
    // Between the least FTP that is kept and the greatest.
    tally.case(
        "53 or 632 W all the time",
        one_second(),
        &[power(53), ride(1_000)],
        0,
        Wanted { ftps: [50, 600], d: 579, t: 1_000, whole: 1_000, bound: 579, is: Ordering::Less },
    );
    let steps = [Intensity::Warmup, Intensity::Test, Intensity::Cooldown].map(|intensity| time(intensity, 1));
    tally.case(
        "one reading for the whole workout",
        twenty(&steps),
        &[power(111), ride(3_000)],
        0,
        Wanted { ftps: [105, 124], d: 19, t: 1_000, whole: 1_000, bound: 19, is: Ordering::Equal },
    );
    // 800 ms at 180 W, 600 at 200 or 260, 600 at none: 264,000 or 300,000 over 2,000 ms, means of 132 and 150 W.
    let open = Step::new(Intensity::Work, Length::Open, Target::Free);
    let long = || twenty(&[&steps[..], &[open]].concat());
    for (what, next) in [("ended by a read without power", ABSENT), ("ended by a read of 0 W", power(0))] {
        let before = [power(180), ride(300), SKIP, extend(1), ride(800)];
        let calls = [power(200), ride(0), ride(600), next, ride(600), power(400), ride(1_500), SKIP];
        tally.case(
            what,
            long(),
            &[&before[..], &calls].concat(),
            before.len(),
            Wanted { ftps: [125, 143], d: 60, t: 600, whole: 2_000, bound: 18, is: Ordering::Equal },
        );
    }
    // The plain extend gives 30 s: a mean of 231 W, or of 250 in the second. The ride goes on past the test.
    tally.case(
        "extended by the default",
        twenty(&[test(1), time(Intensity::Cooldown, 60)]),
        &[power(231), Call::ExtendDefault, ride(15_500), power(231), ride(50_000)],
        3,
        Wanted { ftps: [219, 238], d: 38, t: 15_500, whole: 31_000, bound: 19, is: Ordering::Equal },
    );
    // A mean of 225 W in the second.
    tally.case(
        "700 W for one of 20 minutes",
        twenty(&[test(1_200)]),
        &[power(200), ride(600_000), power(200), ride(60_000), power(200), ride(540_000)],
        2,
        Wanted { ftps: [190, 214], d: 500, t: 60_000, whole: 1_200_000, bound: 25, is: Ordering::Less },
    );
    tally.case(
        "d 0",
        one_second(),
        &[power(150), ride(400), power(250), ride(600)],
        2,
        Wanted { ftps: [200, 200], d: 0, t: 600, whole: 1_000, bound: 0, is: Ordering::Equal },
    );
    let nothing = Wanted { ftps: [190, 190], d: 500, t: 0, whole: 1_000, bound: 0, is: Ordering::Equal };
    tally.case("in the warm-up", twenty(&steps), &[power(300), ride(500), power(200), ride(2_500)], 0, nothing);
    tally.case("up to the test", twenty(&steps), &[power(300), ride(1_000), power(200), ride(2_000)], 0, nothing);
    tally.case("after the test", twenty(&steps), &[power(200), ride(2_000), power(300), ride(1_000)], 2, nothing);
    tally.case("after the finish", one_second(), &[power(200), ride(1_000), power(300), ride(1_000)], 2, nothing);
    let at_once = [power(200), ride(500), power(300), ride(0), power(200), ride(500)];
    tally.case("in the test for 0 ms", one_second(), &at_once, 2, nothing);
    // t ends at the next read, whatever its power. Up to the end of the list the bound would be 20.
    let half = Wanted { ftps: [105, 115], d: 20, t: 500, whole: 1_000, bound: 10, is: Ordering::Equal };
    let again = |watts, next| [power(watts), ride(500), power(next), ride(500)];
    tally.case("the first's power read again", one_second(), &again(111, 111), 0, half);
    tally.case("the second's power read again", one_second(), &again(121, 141), 0, Wanted { ftps: [124, 134], ..half });
}

/// Pairs by hand in workouts that it leaves out: the second FTP exceeds the first by more.
fn cases_left_out(tally: &mut Tally) {
    let repeated = Workout::new("ONE READING", &[test(1)], &[Block { first: 0, len: 1, count: 2 }], Some(Test::Twenty));
    // The FTP is the second test's own, and T has the milliseconds of both.
    for workout in [twenty(&[test(1), test(1)]), repeated] {
        tally.case(
            "two played test steps",
            workout,
            &[power(100), ride(1_000), power(100), ride(1_000)],
            2,
            Wanted { ftps: [95, 190], d: 100, t: 1_000, whole: 2_000, bound: 50, is: Ordering::Greater },
        );
    }
    let ramp = |secs| Workout::new("ONE READING", &[test(secs)], &[], Some(Test::Ramp));
    // The best minute is the second one.
    tally.case(
        "a ramp test of two minutes",
        ramp(120),
        &[power(100), ride(60_000), power(100), ride(60_000)],
        2,
        Wanted { ftps: [75, 150], d: 100, t: 60_000, whole: 120_000, bound: 50, is: Ordering::Greater },
    );
    // A second has the power of its last millisecond: 700 W for one of 60 is a mean of 110.
    tally.case(
        "a ramp test of one minute",
        ramp(60),
        &[power(100), ride(999), power(100), ride(1), power(100), ride(59_000)],
        2,
        Wanted { ftps: [75, 83], d: 600, t: 1, whole: 60_000, bound: 1, is: Ordering::Greater },
    );
}

fn one_of<T: Copy>(random: &mut Random, values: &[T]) -> T {
    values[random.below(values.len() as u32) as usize]
}

/// Any but a ramp.
fn random_target(random: &mut Random) -> Target {
    let low = random.below(60);
    match random.below(8) {
        0 => Target::Ftp { low: 40 + low as u8, high: 101 + low as u8 },
        1 => Target::Watts { low: 60 + low as u16, high: 150 + low as u16 },
        2 => Target::HeartZone(1 + random.below(5) as u8),
        3 => Target::Lthr { low: 40 + low as u8, high: 101 + low as u8 },
        4 => Target::Cadence { low: 40 + low as u8, high: 101 + low as u8 },
        _ => Target::Free,
    }
}

/// A step before the test or after it.
fn random_step(random: &mut Random) -> Step {
    let intensity = Intensity::ALL[random.below(4) as usize];
    let length = if random.below(4) == 0 { Length::Open } else { Length::Time(1 + random.below(2) as u16) };
    Step::new(intensity, length, random_target(random))
}

/// A test of some seconds, or now and then an open one, which gives no FTP.
fn random_test(random: &mut Random) -> Step {
    let length = match random.below(60) {
        0 => Length::Open,
        1 => Length::Time(5 + random.below(26) as u16),
        2..20 => Length::Time(1 + random.below(4) as u16),
        _ => Length::Time(1),
    };
    Step::new(Intensity::Test, length, random_target(random))
}

/// A `Twenty` with one played test step, some in a block of count 1, and blocks before and after it.
fn random_workout(random: &mut Random) -> Workout {
    let (before, after) = (random.below(3), random.below(3));
    let count = before + 1 + after;
    let steps: Vec<Step> =
        (0..count).map(|i| if i == before { random_test(random) } else { random_step(random) }).collect();
    let (low, high) = (random.below(before + 1), before + 1 + random.below(after + 1));
    let mut blocks = Vec::new();
    for (first, end, most) in [(high, count, 2), (0, low, 2), (low, high, 1)] {
        if first < end && random.below(3) == 0 {
            let count = 1 + random.below(most) as u8;
            blocks.push(Block { first: first as u8, len: (end - first) as u8, count });
        }
    }
    let workout = Workout::new("ONE READING", &steps, &blocks, Some(Test::Twenty));
    assert!(workout.validate().is_ok() && test_steps(&workout) == 1);
    workout
}

fn random_read(random: &mut Random, base: u32) -> Call {
    let some = |random: &mut Random, value: u32| (random.below(3) > 0).then_some(value as u16);
    let (heart, cadence) = (80 + random.below(110), 400 + random.below(800));
    let power_watts = match random.below(40) {
        0..4 => None,
        4 => Some(one_of(random, &[0, 1, 1_000, 3_000, 65_534, 65_535])),
        _ => Some((base + random.below(150)) as u16),
    };
    Call::Read(Sample { power_watts, heart_bpm: some(random, heart), cadence_tenths: some(random, cadence) })
}

/// Short, or up to the end of the step or past it.
fn random_ride(random: &mut Random, counter: &Counter) -> Call {
    let left = counter.left().unwrap_or(500);
    let ms = match random.below(12) {
        0 => 0,
        1 => 1,
        2 => left,
        3 => left - 1,
        4..6 => left + u64::from(random.below(1_200)),
        6..9 => u64::from(1 + random.below(700)),
        _ => 1 + u64::from(random.below(left as u32)),
    };
    let mm = ms * u64::from(random.below(12));
    Call::Ride(vec![(ms, mm)], random_lent(random))
}

fn random_lent(random: &mut Random) -> Lent {
    if random.below(4) == 0 { MOST } else { EXACT }
}

fn random_extend(random: &mut Random) -> Call {
    let metres = random.below(65_536);
    if random.below(12) == 0 { Call::ExtendDefault } else { Call::Extend(Amount { secs: random.below(4), metres }) }
}

/// A call by where the list stands: most skips end another step than the test, most extends make the test longer.
fn random_call(random: &mut Random, counter: &Counter, base: u32) -> Call {
    let open = counter.left().is_none();
    match random.below(20) {
        0..8 => random_read(random, base),
        8 if counter.in_test() || random.below(4) == 0 => random_extend(random),
        9..11 if open => Call::Skip(random_lent(random)),
        9 if random.below(if counter.in_test() { 24 } else { 2 }) == 0 => Call::Skip(random_lent(random)),
        _ => random_ride(random, counter),
    }
}

/// Most lists begin with a reading and go past the test.
fn random_calls(random: &mut Random, workout: &Workout) -> Vec<Call> {
    let base = 60 + random.below(400);
    let most = if random.below(16) == 0 { random.below(12) as usize } else { 60 };
    let mut counter = Counter::new(workout);
    let mut calls = Vec::new();
    if random.below(8) > 0 {
        calls.push(random_read(random, base));
    }
    while calls.len() < most && !(counter.test_over() && random.below(3) == 0) {
        let call = random_call(random, &counter, base);
        counter.call(&call, false);
        calls.push(call);
    }
    calls
}

/// 0, little, all that fits, or most often so much that the mean rises by at most 100 W.
fn random_difference(random: &mut Random, watts: u16, count: &Count) -> u16 {
    let fits = u32::from(65_535 - watts);
    let tame = if count.latest_ms == 0 { fits } else { (100 * count.test_ms / count.latest_ms) as u32 };
    let d = match random.below(24) {
        0..2 => 0,
        2..8 => 1,
        8..12 => 2 + random.below(18),
        12 => fits,
        _ => random.below(tame + 1),
    };
    d.min(fits) as u16
}

/// Three of four readings that differ are the latest in the test, if there is such a one.
fn random_pair(random: &mut Random) -> Pair {
    let workout = random_workout(random);
    let profile = TrainingProfile { ftp_watts: 50 + random.below(551) as u16, lthr_bpm: 1 + random.below(255) as u16 };
    loop {
        let calls = random_calls(random, &workout);
        let present = |call: &Call| match call {
            Call::Read(sample) => sample.power_watts,
            _ => None,
        };
        let reads: Vec<usize> = (0..calls.len()).filter(|&i| present(&calls[i]).is_some()).collect();
        let latest: Vec<usize> = reads.iter().copied().filter(|&i| count(&workout, &calls, i).latest_ms > 0).collect();
        let from = if latest.is_empty() || random.below(4) == 0 { &reads } else { &latest };
        if from.is_empty() {
            continue;
        }
        let at = one_of(random, from);
        let watts = present(&calls[at]).unwrap();
        let d = random_difference(random, watts, &count(&workout, &calls, at));
        return Pair { workout, profile, calls, at, d };
    }
}

fn main() {
    let numbers: Vec<u64> = std::env::args().skip(1).map(|word| word.parse().expect("PAIRS SEED")).collect();
    let [pairs, seed] = numbers[..] else { panic!("PAIRS SEED") };
    let mut random = Random(seed);
    let mut tally = Tally::default();
    cases(&mut tally);
    cases_left_out(&mut tally);
    for _ in 0..pairs {
        tally.pair(&random_pair(&mut random));
    }
    println!("one_reading: {} cases by hand, {} not as written down", tally.cases, tally.wrong);
    println!(
        "{} pairs, {} different by Rattle, machine and altered Rust; {} with two FTPs: {} by other sums or with T 0, {} lower, {} above the bound",
        tally.pairs, tally.different, tally.measured, tally.other_sum, tally.lower, tally.above
    );
    println!(
        "the bound met: {} ({} above 0); above the bound rounded down: {}",
        tally.met, tally.met_above_0, tally.above_rounded_down
    );
    let kinds: Vec<String> = KINDS.iter().zip(tally.kinds).map(|(kind, met)| format!("{kind}: {met}")).collect();
    println!("{}", kinds.join("; "));
    println!("calls of these pairs with unread above 0: {}", tally.unread);
    if tally.missing() {
        println!(
            "a kind of pair, a bound above 0 that is met, one that rounded down would be broken, or a call with unread wasn't met"
        );
    }
    std::process::exit((tally.wrong > 0 || tally.faulty > 0 || tally.missing()).into());
}
