//! Document 01's ride sheet and replay, with document 02's kind 5 and unread, as a model over the Rust's `decode` and player and
//! the record's bytes of records.rs; and replays to try it on, at limits and random ones from a seed. The Rust has neither a sheet
//! nor the questions 10 to 17 and 19, so these are asked here, as the paper's sentences have them. A sheet without kind 5 is played
//! by the unchanged Rust, whose `extend` is kind 4; one with it by the altered Rust (players.rs). Of a workout with more than one
//! played test step the record is the altered Rust's, and the unchanged one's is to be the same but for FTP.
use inputs::Random;
use inputs::calls::{Play, random_play};
use inputs::files::{limit_files, longest, random_file};
use inputs::limits;
use inputs::records::{SIZE, shown, written};
use played::{Call, EXTEND, EXTEND_WITH, READ, RIDE, SKIP};
use players::{Altered, Amount, DEFAULT, Extra, Judge, LONG, Player, Unchanged};
use std::sync::LazyLock;
use vana::ride::{log::Sample, zones::TrainingProfile};
use vana::workout::codec;
use vana::workout::history::{Record, decode};
use vana::workout::model::{Block, Intensity, Length, MAX_PLAYED, Step, Target, Test, Workout};
use vana::workout::player::Summary;

/// The act of a refusal that names none.
pub const NO_ACT: u32 = u32::MAX;
/// A sheet has at most so many acts.
pub const MAX_ACTS: usize = 4_096;
const DAY_MS: u32 = 86_400_000;
const WAY_MM: u32 = 1_000_000_000;
const TOTAL_MS: u64 = 604_800_000;
const TOTAL_MM: u64 = 7_000_000_000;

// ---- the model

/// An entry of a ride sheet.
#[derive(Clone, Copy, Debug)]
pub enum Act {
    /// FTP and LTHR.
    Profile(u16, u16),
    Read(Sample),
    /// Milliseconds and millimetres.
    Ride(u32, u32),
    Skip,
    /// Kind 4, by 60 s or 500 m.
    ExtendLong,
    /// Kind 5, by the default.
    Extend,
}

impl Act {
    fn kind(&self) -> u8 {
        match self {
            Act::Profile(..) => 0,
            Act::Read(_) => 1,
            Act::Ride(..) => 2,
            Act::Skip => 3,
            Act::ExtendLong => 4,
            Act::Extend => 5,
        }
    }

    /// What an extend gives: "kind 4 keeps 60 s and 500 m .., and a new kind 5 means the default".
    fn amount(&self) -> Amount {
        if matches!(self, Act::Extend) { DEFAULT } else { LONG }
    }

    fn value(&self) -> [u8; 8] {
        let halves = |halves: [u16; 4]| {
            let mut value = [0; 8];
            (0..4).for_each(|i| value[2 * i..2 * i + 2].copy_from_slice(&halves[i].to_le_bytes()));
            value
        };
        match *self {
            Act::Profile(ftp, lthr) => halves([ftp, lthr, 0, 0]),
            Act::Read(sample) => {
                let readings = [sample.power_watts, sample.heart_bpm, sample.cadence_tenths];
                let flags = (0..3).map(|i| u16::from(readings[i].is_some()) << i).sum();
                let [power, heart, cadence] = readings.map(|reading| reading.unwrap_or(0));
                halves([power, heart, cadence, flags])
            }
            Act::Ride(ms, mm) => (u64::from(mm) << 32 | u64::from(ms)).to_le_bytes(),
            Act::Skip | Act::ExtendLong | Act::Extend => [0; 8],
        }
    }
}

/// The bytes of a sheet, whatever the number of its acts is.
pub fn sheet_of(acts: &[Act]) -> Vec<u8> {
    let mut sheet = (acts.len() as u16).to_le_bytes().to_vec();
    sheet.extend(acts.iter().map(Act::kind));
    sheet.extend(acts.iter().flat_map(Act::value));
    sheet
}

/// What a replay is handed: its bytes, the record's journal, id, start and whether it is dated, and how many bytes it is lent.
#[derive(Clone)]
pub struct Replay {
    pub workout: Vec<u8>,
    pub sheet: Vec<u8>,
    pub journal: u8,
    pub id: u32,
    pub start: u64,
    pub dated: u32,
    pub room: usize,
}

/// What it gives: the refusal's number and its act; or 0, no act, the record and the summary that it was written from.
pub struct Answer {
    pub refusal: u32,
    pub act: u32,
    /// All zeros where refused.
    pub record: [u8; SIZE],
    pub summary: Option<Summary>,
}

impl Answer {
    /// The program's line, with its newline.
    pub fn line(&self) -> String {
        let Some(s) = self.summary else {
            return match self.act {
                NO_ACT => format!("refused {}\n", self.refusal),
                act => format!("refused {} act {act}\n", self.refusal),
            };
        };
        let finished = if s.finished { "yes" } else { "no" };
        let ftp = s.ftp.map_or("none".to_string(), |watts| watts.to_string());
        format!(
            "done {} of {} skipped {} targeted {} in {} under {} over {} finished {finished} ftp {ftp}\n",
            s.steps_done, s.steps, s.skipped, s.targeted_ms, s.in_ms, s.under_ms, s.over_ms
        )
    }
}

/// How often each thing was met.
#[derive(Default)]
pub struct Met {
    /// Accepted, then refused by 1 to 20.
    pub refused: [u64; 21],
    /// Acts that were carried out, by kind.
    pub acts: [u64; 6],
    /// Sheets that were played, by their `Judge`, and the records with an FTP that they gave.
    pub sheets: [u64; 3],
    pub measured_by: [u64; 3],
    /// Records that both judge, with another FTP by the unchanged Rust.
    pub pooled: u64,
    /// Steps that riding ended: timed, distance, open (a failed ramp).
    pub ended: [u64; 3],
    /// Extends that gave `false`, and `true`: of kind 4 and of kind 5.
    pub extended: [[u64; 2]; 2],
    /// Of the accepted: not finished and finished; with an FTP from `Twenty` and from `Ramp`; not dated and dated; with the profile
    /// alone and with `MAX_ACTS` acts; with unread alone, and with targeted time beside it.
    pub finished: [u64; 2],
    pub measured: [u64; 2],
    pub dated: [u64; 2],
    pub acts_limits: [u64; 2],
    pub unread: [u64; 2],
}

impl Met {
    /// Who judged how many.
    pub fn judged(&self) -> String {
        let of = |judge: Judge| {
            format!("{} ({} with an FTP)", self.sheets[judge as usize], self.measured_by[judge as usize])
        };
        format!(
            "played by the unchanged Rust: {}; by it but for FTP, the altered one for all: {}, the unchanged one with another FTP in {}; by the altered one alone (kind 5): {}",
            of(Judge::Unchanged),
            of(Judge::Both),
            self.pooled,
            of(Judge::Altered)
        )
    }

    /// The things that weren't met. Questions 14, 18 and 20 have no place in a replay.
    pub fn missing(&self) -> Vec<String> {
        let of = |name: &str, counts: &[u64]| -> Vec<String> {
            (0..counts.len()).filter(|&i| counts[i] == 0).map(|i| format!("{name} {i}")).collect()
        };
        let reached = |&number: &usize| !matches!(number, 14 | 18 | 20);
        let refused = (0..21).filter(reached).filter(|&number| self.refused[number] == 0);
        let mut missing: Vec<String> = refused.map(|number| format!("refusal {number}")).collect();
        missing.extend(of("act", &self.acts));
        missing.extend(of("end of a step of length", &self.ended));
        missing.extend(of("sheet of the unchanged Rust, of both, of the altered one, place", &self.sheets));
        missing.extend(of("FTP of such a sheet, place", &self.measured_by));
        missing.extend(of("another FTP by the unchanged Rust", &[self.pooled]));
        missing.extend(of("extend", self.extended.as_flattened()));
        missing.extend(of("finished", &self.finished));
        missing.extend(of("FTP of test", &self.measured));
        missing.extend(of("dated", &self.dated));
        missing.extend(of("sheet of 1 or 4,096 acts, place", &self.acts_limits));
        missing.extend(of("unread alone, with targeted time, place", &self.unread));
        missing
    }
}

/// A refusal and its act.
type Refused = (u32, u32);

/// "Sheet: length 2 + 9n, n in range? 16. Each act well formed? 17."
fn acts_in(sheet: &[u8]) -> Result<Vec<Act>, Refused> {
    let n = sheet.first_chunk::<2>().map_or(0, |&count| usize::from(u16::from_le_bytes(count)));
    if !(1..=MAX_ACTS).contains(&n) || sheet.len() != 2 + 9 * n {
        return Err((16, NO_ACT));
    }
    let (kinds, values) = sheet[2..].split_at(n);
    let acts = kinds.iter().zip(values.chunks_exact(8)).enumerate();
    acts.map(|(i, (&kind, value))| act_in(i == 0, kind, value).ok_or((17, i as u32))).collect()
}

/// A well-formed act: "the first act and no other" is a profile; "unused bytes, other flags and absent readings are 0".
fn act_in(first: bool, kind: u8, value: &[u8]) -> Option<Act> {
    let half = |at: usize| u16::from_le_bytes([value[at], value[at + 1]]);
    let word = |at: usize| u32::from(half(at)) + 65_536 * u32::from(half(at + 2));
    let unused = |from: usize| value[from..].iter().all(|&byte| byte == 0);
    if first != (kind == 0) {
        return None;
    }
    match kind {
        0 if unused(4) => Some(Act::Profile(half(0), half(2))),
        1 if half(6) < 8 => {
            let reading = |flag: u16, value: u16| match value {
                value if half(6) & flag != 0 => Some(Some(value)),
                0 => Some(None),
                _ => None,
            };
            let (power_watts, heart_bpm) = (reading(1, half(0))?, reading(2, half(2))?);
            Some(Act::Read(Sample { power_watts, heart_bpm, cadence_tenths: reading(4, half(4))? }))
        }
        2 => Some(Act::Ride(word(0), word(4))),
        3 if unused(0) => Some(Act::Skip),
        4 if unused(0) => Some(Act::ExtendLong),
        5 if unused(0) => Some(Act::Extend),
        _ => None,
    }
}

/// A ride being replayed. The questions' totals and the extra of the step on now are counted here, since the Rust's are private, and
/// unread, which it hasn't.
struct Ridden<P> {
    player: P,
    steps: Vec<Step>,
    profile: TrainingProfile,
    sample: Sample,
    total_ms: u64,
    total_mm: u64,
    extra: Extra,
    unread: u64,
}

impl<P: Player> Ridden<P> {
    fn new(workout: &Workout) -> Self {
        Self {
            player: P::of(workout),
            steps: workout.played().map(|played| played.step).collect(),
            profile: TrainingProfile { ftp_watts: 0, lthr_bpm: 0 },
            sample: Sample::default(),
            total_ms: 0,
            total_mm: 0,
            extra: Extra::default(),
            unread: 0,
        }
    }

    /// The step on now, if the workout isn't finished.
    fn on(&self) -> Option<Step> {
        self.steps.get(usize::from(self.player.summary().steps_done)).copied()
    }

    /// The number of the first question that refuses the act, or 0.
    fn refusal(&self, act: &Act) -> u32 {
        match *act {
            Act::Profile(ftp, lthr) if !(50..=600).contains(&ftp) || !(1..=255).contains(&lthr) => 10,
            Act::Read(sample) if sample.cadence_tenths.is_some_and(|tenths| tenths > 65_530) => 11,
            Act::Ride(ms, mm) if ms > DAY_MS || mm > WAY_MM => 12,
            Act::Ride(ms, mm)
                if self.total_ms + u64::from(ms) > TOTAL_MS || self.total_mm + u64::from(mm) > TOTAL_MM =>
            {
                13
            }
            Act::ExtendLong | Act::Extend
                if self.on().is_some_and(|step| self.extra.refuses(step.length, act.amount())) =>
            {
                15
            }
            _ => 0,
        }
    }

    fn carry_out(&mut self, act: &Act, met: &mut Met) {
        let done = self.player.summary().steps_done;
        met.acts[usize::from(act.kind())] += 1;
        match *act {
            Act::Profile(ftp_watts, lthr_bpm) => self.profile = TrainingProfile { ftp_watts, lthr_bpm },
            Act::Read(sample) => {
                self.sample = sample;
                self.player.read(&sample);
            }
            // "Then 0 ms does nothing at all; else totals grow, also after the end."
            Act::Ride(0, _) => {}
            Act::Ride(ms, mm) => {
                self.total_ms += u64::from(ms);
                self.total_mm += u64::from(mm);
                self.ride(ms.into(), mm.into(), met);
            }
            Act::Skip => _ = self.player.skip(),
            Act::ExtendLong | Act::Extend => self.extend(act, met),
        }
        if self.player.summary().steps_done != done {
            self.extra = Extra::default();
        }
    }

    fn extend(&mut self, act: &Act, met: &mut Met) {
        let extended = self.player.extend(act.amount());
        met.extended[usize::from(act.kind() == 5)][usize::from(extended)] += 1;
        if let Some(step) = self.on().filter(|_| extended) {
            self.extra.add(step.length, act.amount());
        }
    }

    /// "the loop of `add` without its `read`, under the last reading". Its events are let go part by part: a whole ride may have
    /// more than the 16 that the Rust's `add` has room for.
    fn ride(&mut self, mut ms: u64, mut mm: u64, met: &mut Met) {
        for _ in 0..=MAX_PLAYED {
            let Some(step) = self.on().filter(|_| ms > 0) else { break };
            let done = self.player.summary().steps_done;
            let (part_ms, part_mm) = self.player.until_end(ms, mm);
            ms -= part_ms;
            mm -= part_mm;
            self.unread += self.player.unread(part_ms, &self.profile);
            self.player.ride_part(part_ms, part_mm, &self.sample, &self.profile);
            let length = match step.length {
                Length::Time(_) => 0,
                Length::Distance(_) => 1,
                Length::Open => 2,
            };
            met.ended[length] += u64::from(self.player.summary().steps_done != done);
        }
    }
}

/// "Replay asks the workout first, then the sheet, then 19, then each act." The record and its unread.
fn record(replay: &Replay, met: &mut Met) -> Result<(Record, u64), Refused> {
    let Ok(workout) = codec::decode(&replay.workout) else {
        return Err((questions::answer(questions::FILE, &replay.workout)[0], NO_ACT));
    };
    let acts = acts_in(&replay.sheet)?;
    if replay.room < SIZE {
        return Err((19, NO_ACT));
    }
    let record = |(summary, unread)| {
        let record = Record {
            journal: replay.journal,
            ride_id: replay.id,
            started_utc_ms: (replay.dated != 0).then_some(replay.start),
            name: workout.name,
            test: workout.test,
            summary,
        };
        (record, unread)
    };
    let judge = Judge::of(&workout, !acts.iter().any(|act| matches!(act, Act::Extend)));
    met.sheets[judge as usize] += 1;
    let given = match judge {
        Judge::Unchanged => ridden::<Unchanged>(&workout, &acts, met).map(record),
        _ => ridden::<Altered>(&workout, &acts, met).map(record),
    };
    if judge == Judge::Both {
        let unchanged = ridden::<Unchanged>(&workout, &acts, &mut Met::default()).map(record);
        let same = given.map(but_for_ftp) == unchanged.map(but_for_ftp);
        assert!(same, "the unchanged Rust differs in more than FTP: {given:?} and {unchanged:?}");
        met.pooled += u64::from(given != unchanged);
    }
    let given = given?;
    met.measured_by[judge as usize] += u64::from(given.0.summary.ftp.is_some());
    met.acts_limits[0] += u64::from(acts.len() == 1);
    met.acts_limits[1] += u64::from(acts.len() == MAX_ACTS);
    Ok(given)
}

/// A record and its unread without the FTP.
fn but_for_ftp((record, unread): (Record, u64)) -> (Record, u64) {
    (Record { summary: Summary { ftp: None, ..record.summary }, ..record }, unread)
}

fn ridden<P: Player>(workout: &Workout, acts: &[Act], met: &mut Met) -> Result<(Summary, u64), Refused> {
    let mut ridden = Ridden::<P>::new(workout);
    for (i, act) in acts.iter().enumerate() {
        match ridden.refusal(act) {
            0 => ridden.carry_out(act, met),
            number => return Err((number, i as u32)),
        }
    }
    Ok((ridden.player.summary(), ridden.unread))
}

/// What documents 01 and 02 have of a replay.
pub fn answer(replay: &Replay, met: &mut Met) -> Answer {
    match record(replay, met) {
        Err((refusal, act)) => {
            met.refused[refusal as usize] += 1;
            Answer { refusal, act, record: [0; SIZE], summary: None }
        }
        Ok((record, unread)) => {
            met.refused[0] += 1;
            met.finished[usize::from(record.summary.finished)] += 1;
            met.dated[usize::from(record.started_utc_ms.is_some())] += 1;
            if record.summary.ftp.is_some() {
                met.measured[usize::from(record.test == Some(Test::Ramp))] += 1;
            }
            if unread > 0 {
                met.unread[usize::from(record.summary.targeted_ms > 0)] += 1;
            }
            let bytes = written(&record, unread);
            assert_eq!(decode(&bytes), Some(shown(&record)), "the Rust shows another value of {record:?}");
            Answer { refusal: 0, act: NO_ACT, record: bytes, summary: Some(record.summary) }
        }
    }
}

// ---- replays at limits

const PROFILE: Act = Act::Profile(200, 160);

fn read(power_watts: Option<u16>, heart_bpm: Option<u16>, cadence_tenths: Option<u16>) -> Act {
    Act::Read(Sample { power_watts, heart_bpm, cadence_tenths })
}

/// A replay with room for its record and no more.
pub fn replay_of(workout: Vec<u8>, sheet: Vec<u8>) -> Replay {
    Replay { workout, sheet, journal: b'i', id: 7, start: 1_700_000_000_000, dated: 1, room: SIZE }
}

fn file(name: &str, steps: &[Step], blocks: &[Block], test: Option<Test>) -> Vec<u8> {
    codec::encode(&Workout::new(name, steps, blocks, test)).to_vec()
}

/// The bench sheet's: one step of 10 s at 100 to 200 W.
pub fn first_file() -> Vec<u8> {
    let step = Step::new(Intensity::Work, Length::Time(10), Target::Watts { low: 100, high: 200 });
    file("FIRST", &[step], &[], None)
}

fn with_profile(acts: &[Act]) -> Vec<u8> {
    sheet_of(&[&[PROFILE], acts].concat())
}

/// Files at limits, by what they are refused by; the first are accepted.
static LIMIT_FILES: LazyLock<[Vec<Vec<u8>>; 10]> = LazyLock::new(|| {
    let mut files: [Vec<Vec<u8>>; 10] = Default::default();
    for file in limit_files() {
        files[questions::answer(questions::FILE, &file)[0] as usize].push(file);
    }
    files
});

/// Some files that each of 1 to 9 refuses, spread over those at limits, with a sheet that isn't refused.
fn file_limits() -> Vec<Replay> {
    const EACH: usize = 4;
    let some = |files: &'static Vec<Vec<u8>>| files.iter().step_by(files.len().div_ceil(EACH)).take(EACH);
    let files = LIMIT_FILES[1..].iter().flat_map(some);
    files.map(|file| replay_of(file.clone(), sheet_of(&each_kind()))).collect()
}

/// Questions 10 to 15 at both sides of their limits.
fn act_limits() -> Vec<Replay> {
    let step = |length| Step::new(Intensity::Work, length, Target::Free);
    let timed = file("TIMED", &[step(Length::Time(10))], &[Block { first: 0, len: 1, count: 2 }], None);
    let distance = file("WAY", &[step(Length::Distance(100)), step(Length::Time(1))], &[], None);
    let open = file("OPEN", &[step(Length::Open)], &[], None);
    let play = |workout: &Vec<u8>, acts: &[Act]| replay_of(workout.clone(), with_profile(acts));
    let (day, way) = (Act::Ride(DAY_MS, 0), Act::Ride(1, WAY_MM));
    let mut replays = Vec::new();
    for (ftp, lthr) in
        [(50, 1), (600, 255), (49, 160), (601, 160), (0, 0), (65_535, 65_535), (200, 0), (200, 256), (200, 416)]
    {
        replays.push(replay_of(first_file(), sheet_of(&[Act::Profile(ftp, lthr)])));
        replays.push(replay_of(first_file(), sheet_of(&[Act::Profile(ftp, lthr), Act::Ride(DAY_MS + 1, 0)])));
    }
    for tenths in [0, 65_530, 65_531, 65_535] {
        replays.push(play(&timed, &[read(None, None, Some(tenths)), Act::Ride(1, 0)]));
        replays.push(play(&timed, &[Act::Skip, Act::Skip, read(Some(tenths), Some(tenths), None), Act::Ride(1, 0)]));
    }
    for (ms, mm) in [(DAY_MS, WAY_MM), (DAY_MS + 1, 0), (0, WAY_MM + 1), (u32::MAX, u32::MAX), (0, 0), (0, WAY_MM)] {
        replays.push(play(&timed, &[read(Some(150), None, None), Act::Ride(ms, mm), Act::Ride(1, 1)]));
    }
    // 13 at its limit, past it by time and by way, with no time, after the end; 12 before it.
    for last in
        [Act::Ride(0, 0), Act::Ride(0, 1), Act::Ride(1, 0), Act::Ride(1, 1), Act::Ride(DAY_MS + 1, 0), Act::ExtendLong]
    {
        replays.push(play(&open, &[&[day; 7], &[last][..]].concat()));
        replays.push(play(&timed, &[&[way; 7], &[last][..]].concat()));
    }
    replays.push(play(&open, &[Act::Ride(0, WAY_MM); 12]));
    // 15 at its limit and past it; in the step after it; open and finished.
    for (workout, touches) in [(&timed, 1_440), (&timed, 1_441), (&distance, 2_000), (&distance, 2_001), (&open, 2_100)]
    {
        replays.push(play(workout, &vec![Act::ExtendLong; touches]));
    }
    replays.push(play(
        &timed,
        &[&vec![Act::ExtendLong; 1_440], &[Act::Skip, Act::ExtendLong, Act::Skip, Act::ExtendLong][..]].concat(),
    ));
    replays.push(play(&distance, &[Act::ExtendLong, Act::Ride(1_000, 600_001), Act::ExtendLong, Act::Ride(60_999, 0)]));
    // Two lines of the bench sheet.
    replays.push(play(&distance, &[Act::Ride(3_000, 150_000)]));
    replays.push(play(&distance, &[Act::Ride(1, 500_000)]));
    replays
}

/// Kinds 4 and 5, alone and together: what they give to each length of step, and question 15 at both sides of its limits.
fn extend_limits() -> Vec<Replay> {
    use Act::{Extend, ExtendLong, Ride, Skip};
    let step = |length, low| Step::new(Intensity::Work, length, Target::Watts { low, high: 200 });
    let timed = file("TIMED", &[step(Length::Time(10), 100), step(Length::Time(10), 180)], &[], None);
    let distance = file("WAY", &[step(Length::Distance(100), 100), step(Length::Time(10), 180)], &[], None);
    let open = file("OPEN", &[step(Length::Open, 100), step(Length::Time(10), 180)], &[], None);
    let twenty = Step::new(Intensity::Test, Length::Time(10), Target::Free);
    let test = file("TEST", &[twenty], &[], Some(Test::Twenty));
    let play = |workout: &Vec<u8>, acts: &[Act]| {
        replay_of(workout.clone(), with_profile(&[&[read(Some(150), None, None)], acts].concat()))
    };
    let mut replays = Vec::new();
    // 1 ms and 1 mm before the step's end, at it and past it.
    for (extends, secs, metres) in [
        (&[ExtendLong][..], 60, 500),
        (&[Extend], 30, 250),
        (&[Extend, Extend], 60, 500),
        (&[Extend, ExtendLong], 90, 750),
        (&[ExtendLong, Extend], 90, 750),
        (&[Extend, ExtendLong, Extend], 120, 1_000),
    ] {
        for more in 0..3 {
            let (ms, mm) = (1_000 * (10 + secs) - 1 + more, 1_000 * (100 + metres) - 1 + more);
            replays.push(play(&timed, &[extends, &[Ride(ms, 0)]].concat()));
            replays.push(play(&test, &[extends, &[Ride(ms, 0)]].concat()));
            replays.push(play(&distance, &[extends, &[Ride(ms, mm)]].concat()));
        }
        replays.push(play(&timed, &[&[Ride(9_999, 0)], extends, &[Ride(1_000 * secs + 1, 0)]].concat()));
        replays.push(play(&open, &[extends, &[Ride(60_000, 0), Skip, Ride(10_000, 0)]].concat()));
    }
    // The step after it has none of it; finished, it gives nothing; as the first act it is no profile.
    replays.push(play(&timed, &[Extend, Skip, Ride(9_999, 0)]));
    replays.push(play(&timed, &[Extend, Skip, Ride(10_000, 0)]));
    replays.push(play(&timed, &[Skip, Extend, Skip, Extend, ExtendLong, Ride(40_000, 0)]));
    replays.push(play(&distance, &[Extend, Skip, Extend, Skip, Extend]));
    replays.push(replay_of(first_file(), sheet_of(&[Extend])));
    replays.push(replay_of(first_file(), sheet_of(&[Extend, PROFILE])));
    // 86,370 s and 999,750 m, by both kinds and by 2,879 and 3,999 of kind 5: kind 5 comes to the limit, kind 4 past it. Then
    // nothing more of either, but in the next step.
    for (workout, long, times) in [(&timed, 1_439, 2_879), (&distance, 1_999, 3_999)] {
        let both = [&vec![ExtendLong; long], &[Extend][..]].concat();
        for last in
            [&[Extend][..], &[ExtendLong], &[Extend, Extend], &[Extend, ExtendLong], &[Extend, Skip, ExtendLong]]
        {
            replays.push(play(workout, &[&both, last].concat()));
            replays.push(play(workout, &[&vec![Extend; times], last].concat()));
        }
    }
    replays.push(play(&open, &vec![Extend; 4_001]));
    replays.push(play(&timed, &[&[Skip, Skip][..], &vec![Extend; 2_881]].concat()));
    replays
}

/// A short sheet with an act of each kind but 5.
fn each_kind() -> Vec<Act> {
    vec![PROFILE, read(Some(150), None, Some(900)), Act::Ride(2_000, 9_000), Act::ExtendLong, Act::Skip]
}

/// Kind 5 in question 17: in place of kind 4, as other kinds, and each byte of its value.
fn default_sheets() -> Vec<Replay> {
    let acts: Vec<Act> = each_kind().into_iter().map(|act| if act.kind() == 4 { Act::Extend } else { act }).collect();
    let (whole, n) = (sheet_of(&acts), acts.len());
    let at = acts.iter().position(|act| act.kind() == 5).unwrap();
    let mut sheets = vec![whole.clone()];
    for kind in [4, 5, 6, 7, 127, 128, 133, 255] {
        for at in [at, n - 1] {
            let mut sheet = whole.clone();
            sheet[2 + at] = kind;
            sheets.push(sheet);
        }
    }
    for byte in 0..8 {
        for value in [1, 5, 128, 255] {
            let mut sheet = whole.clone();
            sheet[2 + n + 8 * at + byte] = value;
            sheets.push(sheet);
        }
    }
    sheets.into_iter().map(|sheet| replay_of(first_file(), sheet)).collect()
}

/// Questions 16 and 17: lengths, kinds, and each byte of each act's value.
fn sheet_limits() -> Vec<Replay> {
    let whole = sheet_of(&each_kind());
    let n = each_kind().len();
    let mut sheets = vec![Vec::new(), vec![1], vec![0, 0], vec![1, 0], sheet_of(&[PROFILE]), whole.clone()];
    sheets.push(whole[..whole.len() - 1].to_vec());
    sheets.push([&whole[..], &[0]].concat());
    sheets.push([&whole[..], &[0; 9]].concat());
    for count in [0, 1, 4, 6, 261, 4_097, 65_535] {
        let mut sheet = whole.clone();
        sheet[..2].copy_from_slice(&u16::to_le_bytes(count));
        sheets.push(sheet);
    }
    for kind in (0..8).chain([127, 128, 255]) {
        for at in 0..n {
            let mut sheet = whole.clone();
            sheet[2 + at] = kind;
            sheets.push(sheet);
        }
    }
    for at in 2 + n..whole.len() {
        let mut sheet = whole.clone();
        sheet[at] ^= if at % 2 == 0 { 8 } else { 1 };
        sheets.push(sheet);
    }
    sheets.into_iter().map(|sheet| replay_of(first_file(), sheet)).collect()
}

/// Sheets of 4,096 acts and about them.
fn long_sheets() -> Vec<Replay> {
    let many = |n: usize| -> Vec<Act> {
        let ride = |i: usize| match i % 3 {
            0 => Act::Ride(1 + i as u32 % 7, i as u32),
            1 => read(Some(120 + (i % 90) as u16), Some(140), None),
            _ => Act::Ride(2, 3),
        };
        [PROFILE].into_iter().chain((1..n).map(ride)).collect()
    };
    let most = sheet_of(&many(MAX_ACTS));
    let mut wrong = most.clone();
    *wrong.last_mut().unwrap() = 1;
    wrong[2 + MAX_ACTS - 1] = 4;
    let sheets =
        [sheet_of(&many(MAX_ACTS + 1)), [&most[..], &[0]].concat(), most[..most.len() - 1].to_vec(), wrong, most];
    sheets.into_iter().map(|sheet| replay_of(first_file(), sheet)).collect()
}

/// Each of workout, sheet, room and acts in order or not, so that which is asked first shows.
fn question_order() -> Vec<Replay> {
    let sheets = [
        sheet_of(&each_kind()),
        with_profile(&[Act::Skip, PROFILE, read(None, None, Some(65_531))]),
        sheet_of(&[Act::Profile(0, 0)])[1..].to_vec(),
        with_profile(&[read(None, None, Some(65_531)), Act::Ride(u32::MAX, 0)]),
        sheet_of(&[Act::Profile(0, 0), read(None, None, Some(65_531))]),
    ];
    let mut replays = Vec::new();
    for workout in [first_file(), Vec::new(), longest(), [longest(), vec![0]].concat()] {
        for sheet in &sheets {
            for room in [0, 1, 69, 70, 73, 74, 75, 80] {
                replays.push(Replay { room, ..replay_of(workout.clone(), sheet.clone()) });
            }
        }
    }
    replays
}

/// Dated or not, starts, journals and ids, tests and results.
fn record_limits() -> Vec<Replay> {
    let mut replays = Vec::new();
    for dated in [0, 1, 2, 256, 65_536, 0x8000_0000, u32::MAX] {
        for start in [0, 1, 0x0807_0605_0403_0201, u64::MAX] {
            let whole = replay_of(first_file(), sheet_of(&each_kind()));
            replays.push(Replay { dated, start, journal: dated as u8, id: start as u32, room: 77, ..whole });
        }
    }
    let test = |secs, target| {
        let step = Step::new(Intensity::Test, Length::Time(secs), target);
        file("20 MINUTES, HARD", &[step], &[], Some(Test::Twenty))
    };
    // The bench sheet's 53, 52, 632 and 633 W.
    for watts in [53, 52, 632, 633] {
        let acts = [read(Some(watts), None, None), Act::Ride(1_200_000, 0)];
        replays.push(replay_of(test(1_200, Target::Free), with_profile(&acts)));
    }
    replays.push(replay_of(test(1_200, Target::Free), with_profile(&[read(Some(250), None, None), Act::Skip])));
    let ramp = |every| {
        let step = Step::new(Intensity::Test, Length::Open, Target::Ramp { start: 100, step: 20, every });
        file("RAMP", &[step], &[], Some(Test::Ramp))
    };
    for ms in [59_999, 60_000, 61_000] {
        let acts = [read(Some(300), None, None), Act::Ride(ms, 0), Act::Skip];
        replays.push(replay_of(ramp(60), with_profile(&acts)));
    }
    let failing = [read(Some(300), None, None), Act::Ride(60_000, 0), read(Some(20), None, None), Act::Ride(10_000, 0)];
    for extra in [&[][..], &[Act::Ride(10_000, 0)], &[read(None, None, None), Act::Ride(1, 0)]] {
        replays.push(replay_of(ramp(1), with_profile(&[&failing, extra].concat())));
    }
    // Two tests, each with its own FTP: 20 minutes at 150 and at 250 W, with a recovery between them, the first skipped, the second
    // made longer by the default; a minute at 300 and at 200 W, and 1 ms less.
    let pair = |test, secs, between: &[Step]| {
        let step = Step::new(Intensity::Test, Length::Time(secs), Target::Free);
        file("TWO TESTS", &[&[step], between, &[step]].concat(), &[], Some(test))
    };
    let at = |watts, ms| [read(Some(watts), None, None), Act::Ride(ms, 0)];
    let easy = Step::new(Intensity::Recovery, Length::Time(300), Target::Free);
    let twenties = pair(Test::Twenty, 1_200, &[]);
    for acts in [
        [at(150, 1_200_000), at(250, 1_200_000)].concat(),
        [&at(150, 600_000)[..], &[Act::Skip], &at(250, 1_200_000)].concat(),
        [&at(150, 1_200_000)[..], &[Act::Extend], &at(250, 1_230_000)].concat(),
    ] {
        replays.push(replay_of(twenties.clone(), with_profile(&acts)));
    }
    let acts = [at(150, 1_200_000), at(90, 300_000), at(250, 1_200_000)].concat();
    replays.push(replay_of(pair(Test::Twenty, 1_200, &[easy]), with_profile(&acts)));
    for ms in [60_000, 59_999] {
        let acts = [&at(300, 60_000)[..], &at(200, ms), &[Act::Skip]].concat();
        replays.push(replay_of(pair(Test::Ramp, 60, &[]), with_profile(&acts)));
    }
    // 193 events of one ride.
    let step = Step::new(Intensity::Test, Length::Time(61), Target::Free);
    let many = file("96", &[step], &[Block { first: 0, len: 1, count: 96 }], Some(Test::Ramp));
    let acts = [read(Some(300), None, None), Act::Ride(60_000, 0), Act::Ride(1_000 + 94 * 61_000 + 60_000, 0)];
    replays.push(replay_of(many, with_profile(&acts)));
    replays
}

fn act_of(call: &Call) -> Option<Act> {
    match call.kind {
        READ => Some(Act::Read(call.sample())),
        RIDE => Some(Act::Ride(call.ms, call.mm)),
        SKIP => Some(Act::Skip),
        EXTEND_WITH if call.amount() == LONG => Some(Act::ExtendLong),
        EXTEND => Some(Act::Extend),
        _ => None,
    }
}

/// A play as a replay, if it has one profile and no call that a sheet hasn't.
fn replay_play(play: &Play) -> Option<Replay> {
    let profiles: Vec<(u32, u32)> = play.calls.iter().map(|call| (call.ftp, call.lthr)).collect();
    let (ftp, lthr) = profiles[0];
    let acts: Option<Vec<Act>> = play.calls.iter().map(act_of).collect();
    let sheet = sheet_of(&[&[Act::Profile(ftp as u16, lthr as u16)], &acts?[..]].concat());
    profiles.iter().all(|&profile| profile == (ftp, lthr)).then(|| replay_of(play.file.clone(), sheet))
}

/// The limits of the player.
fn player_limits() -> Vec<Replay> {
    limits::plays().iter().filter_map(replay_play).collect()
}

/// Each limit, and what stands beside it.
pub fn limit_replays() -> Vec<Replay> {
    let first = replay_of(first_file(), with_profile(&[read(Some(150), None, None), Act::Ride(10_000, 0)]));
    let limits = [file_limits(), act_limits(), sheet_limits(), long_sheets(), question_order(), record_limits()];
    [vec![first], limits.concat(), player_limits(), extend_limits(), default_sheets()].concat()
}

// ---- random replays

fn once_in(random: &mut Random, n: u32) -> bool {
    random.below(n) == 0
}

fn within(random: &mut Random, low: u32, high: u32) -> u32 {
    low + random.below(high - low + 1)
}

fn one_of<T: Copy>(random: &mut Random, values: &[T]) -> T {
    values[random.below(values.len() as u32) as usize]
}

fn word(random: &mut Random) -> u32 {
    random.below(65_536) << 16 | random.below(65_536)
}

fn profile(random: &mut Random) -> Act {
    if once_in(random, 8) {
        return Act::Profile(one_of(random, &[50, 600]), one_of(random, &[1, 255]));
    }
    Act::Profile(within(random, 50, 600) as u16, within(random, 1, 255) as u16)
}

/// Readings of one rider, now and then absent or anything that isn't refused.
fn reading(random: &mut Random, rider: &Rider) -> Act {
    let present = |random: &mut Random, value: u32, most: u16| match random.below(10) {
        _ if once_in(random, rider.absent) => None,
        0 => Some(one_of(random, &[0, 1, most])),
        _ => Some(value as u16),
    };
    let (power, heart, cadence) = (rider.watts + random.below(60), within(random, 80, 190), within(random, 400, 1_200));
    let power = present(random, power, 65_535);
    let heart = present(random, heart, 65_535);
    read(power, heart, present(random, cadence, 65_530))
}

/// How a sheet is ridden: its rides are about as long, so that steps end, and few sheets come to question 13. Each reading is absent
/// once in so many; one rider in four has loose straps.
struct Rider {
    watts: u32,
    pace: u32,
    far: bool,
    absent: u32,
}

fn rider(random: &mut Random) -> Rider {
    let pace = if once_in(random, 25) { 6 } else { random.below(6) };
    let absent = if once_in(random, 4) { 2 } else { 10 };
    Rider { watts: within(random, 20, 500), pace, far: once_in(random, 12), absent }
}

fn ride(random: &mut Random, rider: &Rider) -> Act {
    let ms = match rider.pace {
        0 => 250,
        1 => within(random, 1, 1_500),
        2 => within(random, 1, 20_000),
        3 => within(random, 1, 120_000),
        4 => one_of(random, &[0, 1, 250, 999, 1_000, 3_000, 59_999, 60_000, 61_000, 1_200_000]),
        5 => within(random, 1, 600_000),
        _ => one_of(random, &[1, 1_000, 3_600_000, DAY_MS - 1, DAY_MS]),
    };
    let mm = match random.below(16) {
        0 | 1 => 0,
        2 | 3 => random.below(600_000),
        4 => one_of(random, &[1, 99_999, 100_000, if rider.far { WAY_MM } else { 500_000 }]),
        _ => (u64::from(ms) * u64::from(within(random, 1_000, 12_000)) / 1_000).min(WAY_MM.into()) as u32,
    };
    Act::Ride(ms, mm)
}

fn act(random: &mut Random, rider: &Rider) -> Act {
    match random.below(24) {
        0 => Act::Skip,
        1 | 2 => Act::ExtendLong,
        3..=11 => reading(random, rider),
        _ => ride(random, rider),
    }
}

/// A profile and acts that no question refuses, but for 13 and 15 by chance. Some rides go on to the end of their workout, by
/// skips and by minutes.
fn acts(random: &mut Random) -> Vec<Act> {
    let rider = rider(random);
    let count = match random.below(400) {
        0 => MAX_ACTS as u32 - 1,
        1..=3 => random.below(MAX_ACTS as u32),
        4..=40 => within(random, 60, 400),
        41..=60 => 0,
        _ => within(random, 1, 60),
    };
    let mut acts: Vec<Act> = [profile(random)].into_iter().chain((0..count).map(|_| act(random, &rider))).collect();
    if once_in(random, 5) && count < 400 {
        let ends = within(random, 1, 96);
        acts.extend((0..ends).map(|_| if once_in(random, 2) { Act::Skip } else { Act::Ride(60_000, 500_000) }));
    }
    acts
}

/// Half of the extends are of kind 5, and there is one at least.
fn mix(random: &mut Random, acts: &mut Vec<Act>) {
    for act in acts.iter_mut().filter(|act| matches!(act, Act::ExtendLong)) {
        if once_in(random, 2) {
            *act = Act::Extend;
        }
    }
    let at = 1 + random.below(acts.len() as u32) as usize;
    acts.insert(at, Act::Extend);
    acts.truncate(MAX_ACTS);
}

/// A workout file of any content, a refused one often, by each number.
fn any_file(random: &mut Random) -> Vec<u8> {
    if once_in(random, 2) {
        return random_file(random);
    }
    let files = &LIMIT_FILES[random.below(10) as usize];
    files[random.below(files.len() as u32) as usize].clone()
}

/// Extends to question 15's limit of time or of way and past it: by kind 4, or by kind 5, or by kind 4 up to what kind 5 still has
/// room in.
fn touches(random: &mut Random, both: bool) -> Vec<Act> {
    let long = one_of(random, &[1_440, 1_441, 2_000, 2_001]);
    if !both {
        return vec![Act::ExtendLong; long];
    }
    let last = one_of(random, &[Act::ExtendLong, Act::Extend]);
    match random.below(3) {
        0 => vec![Act::Extend; one_of(random, &[2_880, 2_881, 4_000, 4_001])],
        1 => [&vec![Act::Extend; one_of(random, &[2_879, 3_999])], &[last][..]].concat(),
        _ => [&vec![Act::ExtendLong; long - 2], &[Act::Extend, last][..]].concat(),
    }
}

/// An act that a question refuses, or some that come to a limit of totals or touches, put in at some place.
fn faulty(random: &mut Random, acts: &mut Vec<Act>, fault: u32, both: bool) {
    let at = 1 + random.below(acts.len() as u32) as usize;
    let acts_in = match fault {
        10 => {
            let ftp = one_of(random, &[0, 49, 50, 200, 600, 601, 65_535]);
            acts[0] = Act::Profile(ftp, one_of(random, &[0, 1, 160, 255, 256, 65_535]));
            return;
        }
        11 => {
            let cadence = within(random, 65_531, 65_535) as u16;
            vec![read(Some(100), Some(140), Some(cadence))]
        }
        12 => {
            let ms = one_of(random, &[0, 250, DAY_MS, DAY_MS + 1, u32::MAX]);
            vec![Act::Ride(ms, one_of(random, &[0, 2_000, WAY_MM, WAY_MM + 1, u32::MAX]))]
        }
        13 => {
            let ride = if once_in(random, 2) { Act::Ride(DAY_MS, 0) } else { Act::Ride(1, WAY_MM) };
            let mut rides = vec![ride; 7];
            rides.push(one_of(random, &[Act::Ride(0, 0), Act::Ride(0, 1), Act::Ride(1, 0), Act::Ride(1, 1)]));
            rides
        }
        _ => touches(random, both),
    };
    acts.splice(at..at, acts_in);
    acts.truncate(MAX_ACTS);
}

/// A sheet that isn't one any more, often: cut or longer, another count, or bytes set.
fn damage(random: &mut Random, sheet: &mut Vec<u8>) {
    let n = (sheet.len() - 2) / 9;
    let act = random.below(n as u32) as usize;
    let value = 2 + n + 8 * act;
    match random.below(10) {
        0 => sheet.truncate(random.below(sheet.len() as u32) as usize),
        1 => sheet.extend(vec![0; one_of(random, &[1, 8, 9, 18])]),
        2 => {
            let count = one_of(random, &[0, n - 1, n + 1, MAX_ACTS, MAX_ACTS + 1, n + 256]) as u16;
            sheet[..2].copy_from_slice(&count.to_le_bytes());
        }
        3 => sheet[2 + act] = one_of(random, &[0, 1, 2, 3, 4, 5, 6, 127, 128, 255]),
        // Another flag, a present reading without its flag, or a flag alone.
        4 | 5 => sheet[value + 6] ^= 1 << random.below(8),
        6 => sheet[value + 7] = 1 << random.below(8),
        7 => {
            let long = MAX_ACTS + 1;
            *sheet = [&(long as u16).to_le_bytes()[..], &vec![3; long], &vec![0; 8 * long]].concat();
        }
        _ => {
            for _ in 0..within(random, 1, 3) {
                let at = random.below(sheet.len() as u32) as usize;
                sheet[at] = if once_in(random, 2) { random.below(8) as u8 } else { random.below(256) as u8 };
            }
        }
    }
}

/// A random replay: most often of a workout that can be played and a sheet without a fault, else with one fault or more, so that
/// the order of the questions shows. Its extends are of kind 4, so that the unchanged Rust has them.
pub fn random_replay(random: &mut Random) -> Replay {
    some_replay(random, false)
}

/// The same with extends of both kinds.
pub fn mixed_replay(random: &mut Random) -> Replay {
    some_replay(random, true)
}

fn some_replay(random: &mut Random, both: bool) -> Replay {
    const FAULTS: [u32; 16] = [1, 1, 1, 1, 1, 10, 11, 12, 12, 13, 13, 15, 16, 16, 16, 19];
    let faults: Vec<u32> = match random.below(100) {
        0..64 => vec![],
        64..92 => vec![one_of(random, &FAULTS)],
        _ => (0..3).map(|_| one_of(random, &FAULTS)).collect(),
    };
    let workout = if faults.contains(&1) { any_file(random) } else { random_play(random).file };
    let mut acts = acts(random);
    if both {
        mix(random, &mut acts);
    }
    for &fault in faults.iter().filter(|fault| (10..16).contains(*fault)) {
        faulty(random, &mut acts, fault, both);
    }
    let mut sheet = sheet_of(&acts);
    if faults.contains(&16) {
        damage(random, &mut sheet);
    }
    let short = faults.contains(&19);
    let room =
        if short { one_of(random, &[0, 1, 35, 66, 69, 70, 72, 73]) } else { one_of(random, &[74, 74, 74, 75, 78, 80]) };
    Replay {
        workout,
        sheet,
        journal: if once_in(random, 2) { b'i' } else { random.below(256) as u8 },
        id: word(random),
        start: u64::from(word(random)) << 32 | u64::from(word(random)),
        dated: if once_in(random, 2) { 0 } else { one_of(random, &[1, 2, 256, 0x8000_0000, u32::MAX]) },
        room,
    }
}
