//! Document 02's request l, 'Four bikes, one supply': the Rattle's sharing rule and its grant, of crate `compare_frame` from a
//! static library, compared with the model in sharing.rs. What each bike wants is read off the Rust's `now` after the same calls;
//! the Rust has no grant. Words: how many random fours of wants, how many grants of played bikes at least, and the seed. Writes
//! how many were compared and what was met. Fails on a difference, where one of the client's two claims isn't true of the model's
//! four, and where a refusal, a kind of grant or a kind of target wasn't met.
mod sharing;

use inputs::Random;
use inputs::calls::{Play, limit_plays, random_play};
use played::{Call, Met, READ, SET, WORDS, answer, bytes_of};
use sharing::{BIKES, Four, claims_hold, grants};
use vana::workout::codec;
use vana::workout::model::{Intensity, Length, Step, Target, Workout};

#[link(name = "compare_frame", kind = "static")]
unsafe extern "C" {
    /// The grant of one of four wants.
    safe fn compare_share(a: u32, b: u32, c: u32, d: u32, supply: u32, bike: u32) -> u32;
    /// The grant of one of four bikes: 65,536 times the refusal's number, and the watts. Each bike is a workout file and a list of
    /// calls in played.rs's layout, its profile that of the last call. A slice goes as its pointer and its length.
    safe fn compare_grant(
        file0: *const u8,
        file0_length: usize,
        calls0: *const u8,
        calls0_length: usize,
        file1: *const u8,
        file1_length: usize,
        calls1: *const u8,
        calls1_length: usize,
        file2: *const u8,
        file2_length: usize,
        calls2: *const u8,
        calls2_length: usize,
        file3: *const u8,
        file3_length: usize,
        calls3: *const u8,
        calls3_length: usize,
        supply: u32,
        bike: u32,
    ) -> u32;
}

/// Differences written out, so many of them.
const SHOWN: u64 = 3;

/// The kinds of a target as in the file, and the bike that has finished.
const TARGETS: usize = 8;
const FINISHED: usize = TARGETS;
/// Those with a power band: percent of FTP, watts, ramp, ramp in percent of FTP.
const POWER: [usize; 4] = [1, 2, 6, 7];

/// Where the words of played.rs have what a want is read off.
const SUMMARY_FINISHED: usize = 14;
const BAND: usize = 16 + 9;
const NOW: usize = 2 * 16;
const STEP_TARGET: usize = 3 * 16 + 3;

/// Bands name their metric by a number.
const POWER_METRIC: u32 = 0;

/// What a grant is answered by, 0 where it is accepted.
const REFUSALS: [usize; 4] = [0, 10, 20, 29];

#[derive(Default)]
struct Tally {
    compared: u64,
    different: u64,
    /// Fours of the model of which one of the client's claims isn't true.
    untrue: u64,
    own: u64,
    cut: u64,
    none: u64,
}

impl Tally {
    /// Counts a grant by what it is.
    fn grant(&mut self, want: u32, watts: u32) {
        match watts {
            0 => self.none += 1,
            _ if watts == want => self.own += 1,
            _ => self.cut += 1,
        }
    }

    /// Counts a comparison, and says whether a difference is to be written out.
    fn differs(&mut self, ours: u32, judged: u32) -> bool {
        self.compared += 1;
        self.different += u64::from(ours != judged);
        ours != judged && self.different <= SHOWN
    }

    fn fails(&self) -> bool {
        self.different > 0 || self.untrue > 0 || [self.own, self.cut, self.none].contains(&0)
    }
}

/// All four grants of a four of wants.
fn compare_four(wants: Four, supply: u32, tally: &mut Tally) {
    let judged = grants(wants, supply);
    tally.untrue += u64::from(!claims_hold(wants, supply, judged));
    let [a, b, c, d] = wants;
    for bike in 0..BIKES {
        let ours = compare_share(a, b, c, d, supply, bike as u32);
        tally.grant(wants[bike], judged[bike]);
        if tally.differs(ours, judged[bike]) {
            println!("wants {wants:?}, L {supply}, bike {bike}: model {}, Rattle {ours}", judged[bike]);
        }
    }
}

/// Every four of a list of wants.
fn fours(wants: &[u32]) -> Vec<Four> {
    let places = wants.len();
    (0..places.pow(BIKES as u32)).map(|i| [0, 1, 2, 3].map(|place| wants[i / places.pow(place) % places])).collect()
}

fn small_fours(tally: &mut Tally) {
    for wants in fours(&[0, 1, 2, 3, 4, 5, 6, 7]) {
        for supply in 0..30 {
            compare_four(wants, supply, tally);
        }
    }
}

fn limit_fours(tally: &mut Tally) {
    for wants in fours(&[0, 1, 65_534, 65_535]) {
        let sum: u32 = wants.iter().sum();
        let around = [sum.saturating_sub(1), sum, sum + 1];
        for supply in [0, 1, 3, 4, 65_535, 262_139, 262_140, u32::MAX].into_iter().chain(around) {
            compare_four(wants, supply, tally);
        }
    }
}

/// Any of 32 bits.
fn any(random: &mut Random) -> u32 {
    random.below(65_536) << 16 | random.below(65_536)
}

/// About the wants' sum, below it, small, or any.
fn random_supply(random: &mut Random, wants: Four) -> u32 {
    let sum: u32 = wants.iter().sum();
    match random.below(8) {
        0 | 1 => (sum + random.below(9)).saturating_sub(4),
        2..=5 => random.below(sum + 1),
        6 => random.below(16),
        _ => any(random),
    }
}

/// Of 16 bits: a number below 16, one that a power band may have, or any. The model counts every level, so few are any.
fn random_wants(random: &mut Random) -> Four {
    let kind = random.below(64);
    [0; BIKES].map(|_| match kind {
        0 if random.below(2) == 0 => random.below(65_536),
        0..16 => random.below(16),
        _ if random.below(8) == 0 => 0,
        _ => random.below(1_501),
    })
}

/// A bike to play, with what its questions and its band are by the Rust: the refusal's number or 0, the want, and the kind of target.
struct Bike {
    file: Vec<u8>,
    calls: Vec<u8>,
    refusal: u32,
    want: u32,
    kind: usize,
}

impl Bike {
    /// By the words after the last call.
    fn played(play: &Play) -> Self {
        let words = answer(&play.file, &play.calls, &mut Met::default());
        let last = &words[words.len() - WORDS..];
        let power = last[BAND] == 1 && last[BAND + 1] == POWER_METRIC;
        Bike {
            file: play.file.clone(),
            calls: bytes_of(&play.calls),
            refusal: last[NOW],
            want: if power { last[BAND + 3] } else { 0 },
            kind: if last[SUMMARY_FINISHED] == 1 { FINISHED } else { last[STEP_TARGET] as usize },
        }
    }
}

/// "29, a bike number above 3, asked before all else, then 20 and 10 for each bike in turn"
fn refusal_of(bikes: [&Bike; BIKES], bike: u32) -> u32 {
    if bike > 3 {
        return 29;
    }
    bikes.iter().map(|bike| bike.refusal).find(|&refusal| refusal != 0).unwrap_or(0)
}

fn ours(bikes: [&Bike; BIKES], supply: u32, bike: u32) -> u32 {
    let [a, b, c, d] = bikes;
    compare_grant(
        a.file.as_ptr(),
        a.file.len(),
        a.calls.as_ptr(),
        a.calls.len(),
        b.file.as_ptr(),
        b.file.len(),
        b.calls.as_ptr(),
        b.calls.len(),
        c.file.as_ptr(),
        c.file.len(),
        c.calls.as_ptr(),
        c.calls.len(),
        d.file.as_ptr(),
        d.file.len(),
        d.calls.as_ptr(),
        d.calls.len(),
        supply,
        bike,
    )
}

#[derive(Default)]
struct Grants {
    tally: Tally,
    refused: [u64; 30],
    /// Bikes of accepted grants by the kind of target, and how many of them wanted watts.
    kinds: [u64; TARGETS + 1],
    wanting: [u64; TARGETS + 1],
}

impl Grants {
    fn compare(&mut self, bikes: [&Bike; BIKES], supply: u32, bike: u32) {
        let refusal = refusal_of(bikes, bike);
        let wants = bikes.map(|bike| bike.want);
        let mut watts = 0;
        self.refused[refusal as usize] += 1;
        if refusal == 0 {
            watts = grants(wants, supply)[bike as usize];
            self.tally.grant(wants[bike as usize], watts);
            for one in bikes {
                self.kinds[one.kind] += 1;
                self.wanting[one.kind] += u64::from(one.want > 0);
            }
        }
        let ours = ours(bikes, supply, bike);
        if self.tally.differs(ours, 65_536 * refusal + watts) {
            println!("refusals {:?}, wants {wants:?}, L {supply}, bike {bike}", bikes.map(|bike| bike.refusal));
            println!("  model {refusal} and {watts} W, Rattle {} and {} W", ours >> 16, ours & 65_535);
            for bike in bikes {
                println!("  file {:?}\n  calls {:?}", bike.file, bike.calls);
            }
        }
    }

    /// The grants of all four bikes.
    fn compare_all(&mut self, bikes: [&Bike; BIKES], supplies: &[u32]) {
        for &supply in supplies {
            for bike in 0..BIKES as u32 {
                self.compare(bikes, supply, bike);
            }
        }
    }

    fn missing(&self) -> Vec<String> {
        let refusals = REFUSALS.into_iter().filter(|&number| self.refused[number] == 0);
        let kinds = (0..=FINISHED).filter(|&kind| self.kinds[kind] == 0);
        let wanting = POWER.into_iter().filter(|&kind| self.wanting[kind] == 0);
        [
            refusals.map(|number| format!("refusal {number}")).collect::<Vec<_>>(),
            kinds.map(|kind| format!("target {kind}")).collect(),
            wanting.map(|kind| format!("a want of target {kind}")).collect(),
        ]
        .concat()
    }
}

/// How many bikes the random fours are drawn from, and the most calls of each: a grant plays the lists of all four.
const POOL: u32 = 4_000;
const CALLS: u32 = 4;

/// Random lists cut short, a few of them to nothing, and those at limits that are short.
fn pool(random: &mut Random) -> Vec<Bike> {
    let limits = limit_plays().into_iter().filter(|play| play.calls.len() <= 12);
    let cut = (0..POOL).map(|_| {
        let mut play = random_play(random);
        let calls = if random.below(100) == 0 { 0 } else { 1 + random.below(CALLS) };
        play.calls.truncate(calls as usize);
        play
    });
    limits.chain(cut).map(|play| Bike::played(&play)).collect()
}

fn random_grants(count: u64, random: &mut Random, made: &mut Grants) {
    let pool = pool(random);
    while made.tally.compared < count {
        let bikes = [0; BIKES].map(|_| &pool[random.below(pool.len() as u32) as usize]);
        let wants = bikes.map(|bike| bike.want);
        let supplies = [0; 3].map(|_| random_supply(random, wants));
        made.compare_all(bikes, &supplies);
        if random.below(16) == 0 {
            let above = 4 + random.below(9);
            made.compare(bikes, supplies[0], if random.below(2) == 0 { above } else { any(random) | 4 });
        }
    }
}

/// FTP and LTHR of a bike by hand, whether its player is broken, and the number that it is refused by.
type Rider = (u32, u32, bool, u32);

const RIDER: Rider = (250, 160, false, 0);
const BROKEN: Rider = (250, 160, true, 20);
const WEAK: Rider = (49, 160, false, 10);
/// The ends of what question 10 takes, and beside them; 20 comes before 10 in one bike.
const RIDERS: [Rider; 13] = [
    BROKEN,
    WEAK,
    (50, 160, false, 0),
    (600, 160, false, 0),
    (601, 160, false, 10),
    (250, 0, false, 10),
    (250, 1, false, 0),
    (250, 255, false, 0),
    (250, 256, false, 10),
    (0, 0, false, 10),
    (65_535, 65_535, false, 10),
    (49, 160, true, 20),
    (250, 256, true, 20),
];

/// A bike of one step with a band up to so many watts, played by one read. Broken, one of its fields is set: a position past the
/// only step.
fn by_hand(watts: u16, (ftp, lthr, broken, refusal): Rider) -> Bike {
    const POSITION: u32 = 0;
    let step = Step::new(Intensity::Work, Length::Time(600), Target::Watts { low: 1, high: watts });
    let read = Call { kind: READ, ftp, lthr, ..Call::default() };
    let set = Call { kind: SET, ms: POSITION, mm: 1, ..read };
    let calls = if broken { vec![read, set] } else { vec![read] };
    let file = codec::encode(&Workout::new("FRAME", &[step], &[], None)).to_vec();
    Bike { file, calls: bytes_of(&calls), refusal, want: watts.into(), kind: 2 }
}

/// Four bikes that want 1,000 W, some of them with another rider.
fn four_by_hand(others: &[(usize, Rider)]) -> [Bike; BIKES] {
    let mut bikes = [100, 200, 300, 400].map(|watts| by_hand(watts, RIDER));
    for &(bike, rider) in others {
        bikes[bike] = by_hand(bikes[bike].want as u16, rider);
    }
    bikes
}

/// Bad input by hand: four bikes with the number that each grant of theirs is refused by, or 0.
fn bad_input() -> Vec<([Bike; BIKES], u32)> {
    let mut cases = vec![(four_by_hand(&[]), 0)];
    for bike in 0..BIKES {
        for rider in RIDERS {
            cases.push((four_by_hand(&[(bike, rider)]), rider.3));
        }
        for later in bike + 1..BIKES {
            cases.push((four_by_hand(&[(bike, WEAK), (later, BROKEN)]), 10));
            cases.push((four_by_hand(&[(bike, BROKEN), (later, WEAK)]), 20));
        }
        let mut no_file = four_by_hand(&[(bike, WEAK)]);
        no_file[bike].file.clear();
        no_file[bike].refusal = 20;
        cases.push((no_file, 20));
        let mut no_calls = four_by_hand(&[]);
        no_calls[bike].calls.clear();
        no_calls[bike].refusal = 10;
        cases.push((no_calls, 10));
    }
    cases
}

/// Each with L from 0 to more than the wants, and with bikes that there aren't.
fn grants_by_hand(made: &mut Grants) {
    for (bikes, number) in bad_input() {
        let bikes = bikes.each_ref();
        assert_eq!(refusal_of(bikes, 0), number);
        made.compare_all(bikes, &[0, 1, 900, 1_000, u32::MAX]);
        for above in [4, u32::MAX] {
            made.compare(bikes, 1_000, above);
        }
    }
}

fn compare_shares(count: u64, random: &mut Random) -> Tally {
    let mut tally = Tally::default();
    small_fours(&mut tally);
    let small = tally.compared;
    limit_fours(&mut tally);
    let limits = tally.compared - small;
    for _ in 0..count {
        let wants = random_wants(random);
        compare_four(wants, random_supply(random, wants), &mut tally);
    }
    println!(
        "sharing: {} grants of four wants compared ({small} small, {limits} at limits, {} random), {} different",
        tally.compared,
        tally.compared - small - limits,
        tally.different
    );
    println!("grants (the want, cut by the level, 0): {:?}", [tally.own, tally.cut, tally.none]);
    println!("fours of the model of which a claim isn't true: {}", tally.untrue);
    tally
}

fn compare_grants(count: u64, random: &mut Random) -> Grants {
    let mut made = Grants::default();
    grants_by_hand(&mut made);
    let by_hand = made.tally.compared;
    random_grants(by_hand + count, random, &mut made);
    let tally = &made.tally;
    println!(
        "frame: {} grants of four played bikes compared ({by_hand} by hand), {} different",
        tally.compared, tally.different
    );
    println!("grants (the want, cut by the level, 0): {:?}", [tally.own, tally.cut, tally.none]);
    println!("accepted, then refused by 10, 20, 29: {:?}", REFUSALS.map(|number| made.refused[number]));
    println!("bikes by target (0 to 7, then finished): {:?}", made.kinds);
    println!("those that want watts: {:?}", made.wanting);
    made
}

fn main() {
    let numbers: Vec<u64> = std::env::args().skip(1).map(|word| word.parse().expect("FOURS GRANTS SEED")).collect();
    let [fours, grants, seed] = numbers[..] else { panic!("FOURS GRANTS SEED") };
    let mut random = Random(seed);
    let shares = compare_shares(fours, &mut random);
    let made = compare_grants(grants, &mut random);
    let missing = made.missing();
    if !missing.is_empty() {
        println!("not met: {missing:?}");
    }
    std::process::exit((shares.fails() || made.tally.fails() || !missing.is_empty()).into());
}
