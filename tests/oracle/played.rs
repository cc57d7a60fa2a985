//! The Rust's player over a list of calls, and the words that its outcome is compared by. Crates `compare_player` and
//! `compare_reports` answer in the same words. A list is bytes, little-endian 32-bit words, eight to a call: kind (a number of
//! `READ` to `SET`), FTP, LTHR, ms, mm, power, heart, cadence tenths. Past the end all are 0. A reading is 0 where it is absent,
//! else one more than it is. `EXTEND_WITH` is the extend with an amount, the numbers themselves: power is the seconds, heart the
//! metres. `EXTEND` is the plain one, 30 s or 250 m. `SET` sets a field of our player, and nothing of the Rust's: ms is the field,
//! mm and power the lower and the upper half of its value.
//!
//! A list whose extends all give 60 s or 500 m is the unchanged Rust's, since these are its own; any other is played by the altered
//! one (players.rs). Of a workout with more than one played test step the unchanged Rust pools what the steps measure, so there the
//! answer is the altered one's, and the unchanged one is to give the same but for FTP, its events and the test readout of `now`.
//!
//! The answer is `WORDS` words on the fresh player, then as many after each call, in groups of 16:
//!
//! | group | words |
//! | --- | --- |
//! | 0 | refusal of the call (0 accepted; of `new` at first), events, parts, check word of the events, 1 if `extend` extended; `summary`: refusal, targeted, in, under, over, FTP, steps done, steps, skipped, finished; `in_target_pct` |
//! | 1 | the summary's unread; `remaining_secs`: refusal, 1 if there is a number, the number; `distance_step`: refusal, 1 or 0; `until_end` of the call's ms and mm: refusal, ms, mm; the band of `now` in four words |
//! | 2 | `now`: refusal, position, steps, ramp watts, reading, compliance (0 none, 1 under, 2 in, 3 over), left (0 seconds, 1 metres, 2 open), its number, progress, test (0 none, 1 average, 2 best minute), its number, the step on now and the next one, as in the playing order |
//! | 3, 4 | those two steps, 13 words each |
//!
//! An absent FTP, percentage, ramp or reading is 0, else one more than the number. Unread, document 02's request g, isn't the Rust's:
//! it is counted here over the parts of each ride, by the Rust's `now` before each (players.rs). The Rust asks nothing of a player or its
//! arguments, so document 01's questions 10 to 13 and 15 are asked here; 14 and 20 aren't reached. A file that is refused
//! leaves a player of the empty workout, which is refused 6 by `new` and doesn't stand.
use players::{Altered, Amount, DEFAULT, Extra, Judge, LONG, Player, Unchanged};
use questions::{band_words, played_word, step_words};
use vana::ride::{log::Sample, zones::TrainingProfile};
use vana::workout::codec;
use vana::workout::model::{Intensity, Length, MAX_PLAYED, Played, Step, Target, Workout};
use vana::workout::player::{Compliance, Event, Left, Now, Summary, TestReadout};

pub const WORDS: usize = 80;
const GROUP: usize = 16;

pub const READ: u32 = 0;
pub const RIDE: u32 = 1;
pub const ADD: u32 = 2;
pub const SKIP: u32 = 3;
pub const EXTEND_WITH: u32 = 4;
pub const EXTEND: u32 = 5;
pub const SET: u32 = 6;

/// The room of the Rust's `Events`.
const EVENTS: usize = 16;
/// The check word of no events.
const NO_EVENTS: u32 = 7;

#[derive(Clone, Copy, Debug, Default)]
pub struct Call {
    pub kind: u32,
    pub ftp: u32,
    pub lthr: u32,
    pub ms: u32,
    pub mm: u32,
    pub power: u32,
    pub heart: u32,
    pub cadence: u32,
}

impl Call {
    pub fn words(&self) -> [u32; 8] {
        [self.kind, self.ftp, self.lthr, self.ms, self.mm, self.power, self.heart, self.cadence]
    }

    /// The same as an extend with an amount.
    pub const fn extending(self, amount: Amount) -> Self {
        Call { kind: EXTEND_WITH, power: amount.secs, heart: amount.metres, ..self }
    }

    /// What an extend gives.
    pub fn amount(&self) -> Amount {
        if self.kind == EXTEND { DEFAULT } else { Amount { secs: self.power, metres: self.heart } }
    }

    /// Not an extend that the unchanged Rust hasn't.
    pub fn unchanged(&self) -> bool {
        ![EXTEND_WITH, EXTEND].contains(&self.kind) || self.amount() == LONG
    }

    fn profile(&self) -> TrainingProfile {
        TrainingProfile { ftp_watts: self.ftp as u16, lthr_bpm: self.lthr as u16 }
    }

    pub fn sample(&self) -> Sample {
        let reading = |word: u32| word.checked_sub(1).map(|value| value as u16);
        Sample {
            power_watts: reading(self.power),
            heart_bpm: reading(self.heart),
            cadence_tenths: reading(self.cadence),
        }
    }
}

pub fn bytes_of(calls: &[Call]) -> Vec<u8> {
    calls.iter().flat_map(|call| questions::bytes_of(&call.words())).collect()
}

/// How often each thing was met, by the numbers of document 01's tables.
#[derive(Default)]
pub struct Met {
    pub calls: [u64; 6],
    pub refused: [u64; 21],
    pub events: [u64; 4],
    /// Updates with more events than the Rust's `Events` holds: `add` isn't asked there, `ride_part` is.
    pub many_events: u64,
    /// Parts ridden in a step of each length and each target.
    pub lengths: [u64; 3],
    pub targets: [u64; 8],
    /// Those of them under a band without its reading.
    pub unread_lengths: [u64; 3],
    pub unread_targets: [u64; 8],
    pub failed_ramps: u64,
    pub finished: u64,
    /// Lists of a file that is refused.
    pub unplayed: u64,
    /// The others by their `Judge`, their calls, and the FTP events in them.
    pub lists_by: [u64; 3],
    pub calls_by: [u64; 3],
    pub ftps_by: [u64; 3],
    /// Lists that both judge, in which the unchanged Rust gives other FTPs.
    pub pooled: u64,
}

impl Met {
    fn count(&mut self, judge: Judge, answers: &Answers) {
        self.lists_by[judge as usize] += 1;
        self.calls_by[judge as usize] += answers.events.len() as u64;
        self.ftps_by[judge as usize] += answers.ftps().len() as u64;
    }

    /// Who judged how much.
    pub fn judged(&self) -> String {
        let of = |judge: Judge| {
            let [lists, calls, ftps] =
                [self.lists_by, self.calls_by, self.ftps_by].map(|counts| counts[judge as usize]);
            format!("{lists} lists, {calls} calls, {ftps} FTP events")
        };
        format!(
            "judged by the unchanged Rust in all words: {}\njudged by it in all but FTP, its events and readout, by the altered one in all: {}; in {} of the lists the unchanged one gives other FTPs\njudged by the altered Rust alone: {}; with a refused file: {} lists",
            of(Judge::Unchanged),
            of(Judge::Both),
            self.pooled,
            of(Judge::Altered),
            self.unplayed
        )
    }

    /// The things that weren't met by the unchanged Rust, which has no plain extend. Questions 14 and 20 have no place here.
    pub fn missing(&self) -> Vec<String> {
        let of = |name: &str, counts: &[u64]| -> Vec<String> {
            (0..counts.len()).filter(|&i| counts[i] == 0).map(|i| format!("{name} {i}")).collect()
        };
        let asked: Vec<u64> = [0, 10, 11, 12, 13, 15].iter().map(|&number| self.refused[number]).collect();
        let rest = [self.failed_ramps, self.finished, self.many_events];
        [
            of("call", &self.calls[..EXTEND as usize]),
            of("refusal 0, 10, 11, 12, 13, 15, place", &asked),
            of("event", &self.events),
            of("length", &self.lengths),
            of("target", &self.targets),
            of("length without a reading", &self.unread_lengths),
            of("target 1 to 7 without its reading, place", &self.unread_targets[1..]),
            of("failed ramp, finish, more than 16 events, place", &rest),
            of("list judged by the unchanged Rust in all words, in all but FTP, place", &self.lists_by[..2]),
            of("FTP in such a list, place", &self.ftps_by[..2]),
            of("list with other FTPs by the unchanged Rust", &[self.pooled]),
        ]
        .concat()
    }
}

/// What a call gave; the milliseconds that it rode under a band, and those of them without a reading.
struct Given {
    number: u32,
    events: Vec<Event>,
    parts: u32,
    extended: bool,
    banded: u64,
    unread: u64,
}

fn nothing(number: u32) -> Given {
    Given { number, events: Vec::new(), parts: 0, extended: false, banded: 0, unread: 0 }
}

fn event_words(event: Event) -> (u32, u32) {
    match event {
        Event::Countdown(secs) => (0, secs),
        Event::Started(position) => (1, position as u32),
        Event::Finished => (2, 0),
        Event::Ftp(watts) => (3, watts.into()),
    }
}

pub fn check_word(events: &[Event]) -> u32 {
    events.iter().fold(NO_EVENTS, |check, &event| {
        let (kind, value) = event_words(event);
        ((u64::from(check) * 31 + u64::from(kind) * 65_536 + u64::from(value) + 1) % 1_000_000_007) as u32
    })
}

fn profile_refused(profile: &TrainingProfile) -> bool {
    !(50..=600).contains(&profile.ftp_watts) || !(1..=255).contains(&profile.lthr_bpm)
}

fn update_refused(call: &Call) -> bool {
    call.ms > 86_400_000 || call.mm > 1_000_000_000
}

/// A list being played. `add` is the Rust's own where its events have room, so a second player goes along, on which it is
/// composed first; what is unread is counted on that one.
struct List<P> {
    player: P,
    second: P,
    sample: Sample,
    total_ms: u64,
    total_mm: u64,
    extra: Extra,
    banded: u64,
    unread: u64,
}

impl<P: Player> List<P> {
    fn new(workout: &Workout) -> Self {
        List {
            player: P::of(workout),
            second: P::of(workout),
            sample: Sample::default(),
            total_ms: 0,
            total_mm: 0,
            extra: Extra::default(),
            banded: 0,
            unread: 0,
        }
    }

    /// The length of the step on now or, done, of the last.
    fn length(&self, call: &Call) -> Length {
        self.player.now(&call.profile()).played.step.length
    }

    /// The first question that refuses, or 0.
    fn refusal(&self, call: &Call) -> u32 {
        let cadence = call.sample().cadence_tenths.is_some_and(|tenths| tenths > 65_530);
        let total_ms = self.total_ms + u64::from(call.ms);
        let total_mm = self.total_mm + u64::from(call.mm);
        let totals = total_ms > 604_800_000 || total_mm > 7_000_000_000;
        let extra = !self.player.done() && self.extra.refuses(self.length(call), call.amount());
        let asked: &[(bool, u32)] = match call.kind {
            READ => &[(cadence, 11)],
            RIDE => &[(profile_refused(&call.profile()), 10), (update_refused(call), 12), (totals, 13)],
            ADD => &[(profile_refused(&call.profile()), 10), (cadence, 11), (update_refused(call), 12), (totals, 13)],
            EXTEND_WITH | EXTEND => &[(extra, 15)],
            _ => &[],
        };
        asked.iter().find(|(refused, _)| *refused).map_or(0, |&(_, number)| number)
    }

    fn play(&mut self, call: &Call, met: &mut Met) -> Given {
        let refusal = self.refusal(call);
        met.calls[call.kind as usize] += 1;
        met.refused[refusal as usize] += 1;
        if refusal != 0 {
            return nothing(refusal);
        }
        let done = self.player.summary().steps_done;
        let given = match call.kind {
            READ => {
                self.sample = call.sample();
                self.player.read(&self.sample);
                self.second.read(&self.sample);
                nothing(0)
            }
            RIDE => {
                let update = ride(&mut self.second, call, &self.sample, met);
                ride(&mut self.player, call, &self.sample, &mut Met::default());
                self.count(call);
                update
            }
            ADD => self.add(call, met),
            SKIP => {
                self.second.skip();
                Given { events: self.player.skip(), ..nothing(0) }
            }
            EXTEND_WITH | EXTEND => {
                self.second.extend(call.amount());
                let extended = self.player.extend(call.amount());
                if extended {
                    self.extra.add(self.length(call), call.amount());
                }
                Given { extended, ..nothing(0) }
            }
            kind => panic!("there is no call {kind}"),
        };
        if self.player.summary().steps_done != done {
            self.extra = Extra::default();
        }
        for &event in &given.events {
            met.events[event_words(event).0 as usize] += 1;
        }
        met.finished += u64::from(given.events.contains(&Event::Finished));
        self.banded += given.banded;
        self.unread += given.unread;
        // "Targeted plus unread is then all time ridden under a band."
        assert_eq!(self.player.summary().targeted_ms + self.unread, self.banded);
        given
    }

    fn count(&mut self, call: &Call) {
        if call.ms > 0 {
            self.total_ms += u64::from(call.ms);
            self.total_mm += u64::from(call.mm);
        }
    }

    fn add(&mut self, call: &Call, met: &mut Met) -> Given {
        if call.ms == 0 {
            return Given { events: self.player.add(0, call.mm.into(), &call.sample(), &call.profile()), ..nothing(0) };
        }
        self.count(call);
        self.sample = call.sample();
        self.second.read(&self.sample);
        let update = ride(&mut self.second, call, &self.sample, met);
        if update.events.len() <= EVENTS {
            let events = self.player.add(call.ms.into(), call.mm.into(), &self.sample, &call.profile());
            return Given { events, ..update };
        }
        self.player.read(&self.sample);
        ride(&mut self.player, call, &self.sample, &mut Met::default());
        update
    }

    fn words(&self, given: &Given, call: &Call) -> Vec<u32> {
        let mut groups = [[0; GROUP]; WORDS / GROUP];
        let player = &self.player;
        groups[0] = given_words(given, 0, player.summary());
        groups[1][0] = self.unread as u32;
        let secs = player.remaining_secs();
        groups[1][2] = secs.is_some().into();
        groups[1][3] = secs.unwrap_or(0);
        groups[1][5] = player.distance_step().into();
        if update_refused(call) {
            groups[1][6] = 12;
        } else {
            let (ms, mm) = player.until_end(call.ms.into(), call.mm.into());
            groups[1][7..9].copy_from_slice(&[ms as u32, mm as u32]);
        }
        let profile = call.profile();
        if profile_refused(&profile) {
            no_now(10, &mut groups);
        } else {
            now_words(&player.now(&profile), &mut groups);
        }
        groups.concat()
    }
}

/// The loop of `add` without its `read`, composed of `until_end` and `ride_part`.
fn ride(player: &mut impl Player, call: &Call, sample: &Sample, met: &mut Met) -> Given {
    let profile = call.profile();
    let (mut ms, mut mm) = (u64::from(call.ms), u64::from(call.mm));
    let (mut events, mut parts) = (Vec::new(), 0);
    let (mut banded, mut unread) = (0, 0);
    if ms > 0 {
        for _ in 0..=MAX_PLAYED {
            if player.done() || ms == 0 {
                break;
            }
            let on = player.now(&profile).played.step;
            let done = player.summary().steps_done;
            let (part_ms, part_mm) = player.until_end(ms, mm);
            ms -= part_ms;
            mm -= part_mm;
            let unread_ms = player.unread(part_ms, &profile);
            events.extend(player.ride_part(part_ms, part_mm, sample, &profile));
            parts += 1;
            banded += if on.target == Target::Free { 0 } else { part_ms };
            unread += unread_ms;
            let words = step_words(&on);
            let [length, target] = [words[1] as usize, words[3] as usize];
            met.lengths[length] += 1;
            met.targets[target] += 1;
            met.unread_lengths[length] += u64::from(unread_ms > 0);
            met.unread_targets[target] += u64::from(unread_ms > 0);
            met.failed_ramps += u64::from(on.length == Length::Open && player.summary().steps_done != done);
        }
    }
    met.many_events += u64::from(events.len() > EVENTS);
    Given { parts, events, banded, unread, ..nothing(0) }
}

fn optional(number: Option<u16>) -> u32 {
    number.map_or(0, |number| u32::from(number) + 1)
}

fn given_words(given: &Given, refusal: u32, summary: Summary) -> [u32; GROUP] {
    [
        given.number,
        given.events.len() as u32,
        given.parts,
        check_word(&given.events),
        given.extended.into(),
        refusal,
        summary.targeted_ms as u32,
        summary.in_ms as u32,
        summary.under_ms as u32,
        summary.over_ms as u32,
        optional(summary.ftp),
        summary.steps_done.into(),
        summary.steps.into(),
        summary.skipped.into(),
        summary.finished.into(),
        optional(summary.in_target_pct().map(u16::from)),
    ]
}

fn now_words(now: &Now, groups: &mut [[u32; GROUP]; WORDS / GROUP]) {
    let compliance = match now.compliance {
        None => 0,
        Some(Compliance::Under) => 1,
        Some(Compliance::In) => 2,
        Some(Compliance::Over) => 3,
    };
    let (left, left_value) = match now.left {
        Left::Secs(secs) => (0, secs),
        Left::Metres(metres) => (1, metres),
        Left::Open(secs) => (2, secs),
    };
    let (test, watts) = match now.test {
        None => (0, 0),
        Some(TestReadout::Average(watts)) => (1, watts),
        Some(TestReadout::BestMinute(watts)) => (2, watts),
    };
    groups[1][9..13].copy_from_slice(&band_words(now.band));
    groups[2][..13].copy_from_slice(&[
        0,
        now.position.into(),
        now.steps.into(),
        optional(now.ramp_watts),
        optional(now.reading),
        compliance,
        left,
        left_value,
        now.progress.into(),
        test,
        watts.into(),
        played_word(&now.played),
        now.next.map_or(0, |played| played_word(&played)),
    ]);
    steps_of(&now.played.step, now.next, groups);
}

fn no_step() -> Step {
    Step::new(Intensity::Work, Length::Open, Target::Free)
}

fn steps_of(on: &Step, next: Option<Played>, groups: &mut [[u32; GROUP]; WORDS / GROUP]) {
    groups[3][..13].copy_from_slice(&step_words(on));
    groups[4][..13].copy_from_slice(&step_words(&next.map_or(no_step(), |played| played.step)));
}

/// Refused, `now` gives nothing: an open step that has run 0 s, at place 0 of the order.
fn no_now(number: u32, groups: &mut [[u32; GROUP]; WORDS / GROUP]) {
    groups[2][0] = number;
    groups[2][6] = 2;
    groups[2][11] = 1 << 24 | 1;
    steps_of(&no_step(), None, groups);
}

/// What is given of a player that doesn't stand: nothing, refused 20.
fn fallen(number: u32) -> Vec<u32> {
    let mut groups = [[0; GROUP]; WORDS / GROUP];
    groups[0] = given_words(&nothing(number), 20, Summary::default());
    for place in [1, 4, 6] {
        groups[1][place] = 20;
    }
    no_now(20, &mut groups);
    groups.concat()
}

/// What a player gives on a list of calls: the words, and the events of each call.
pub struct Answers {
    pub words: Vec<u32>,
    pub events: Vec<Vec<Event>>,
}

/// Places of the words that tell something of FTP: how many events there are, their check word, the summary's FTP, and the two of
/// the test readout.
const FTP_WORDS: [usize; 5] = [1, 3, 10, 2 * GROUP + 9, 2 * GROUP + 10];

impl Answers {
    pub fn ftps(&self) -> Vec<u16> {
        let ftp = |event: &Event| if let Event::Ftp(watts) = *event { Some(watts) } else { None };
        self.events.iter().flatten().filter_map(ftp).collect()
    }

    /// The other words, and the other events of each call.
    fn but_for_ftp(&self) -> (Vec<u32>, Vec<Vec<Event>>) {
        let words = self.words.iter().enumerate().filter(|(at, _)| !FTP_WORDS.contains(&(at % WORDS)));
        let others = |events: &Vec<Event>| -> Vec<Event> {
            events.iter().copied().filter(|event| !matches!(event, Event::Ftp(_))).collect()
        };
        (words.map(|(_, &word)| word).collect(), self.events.iter().map(others).collect())
    }
}

/// The Rust's answer on a workout file and a list of calls.
pub fn answer(file: &[u8], calls: &[Call], met: &mut Met) -> Vec<u32> {
    let Ok(workout) = codec::decode(file) else {
        met.unplayed += 1;
        return [vec![fallen(6)], vec![fallen(20); calls.len()]].concat().concat();
    };
    let judge = Judge::of(&workout, calls.iter().all(Call::unchanged));
    let answers = match judge {
        Judge::Unchanged => answer_by::<Unchanged>(&workout, calls, met),
        Judge::Both => answer_by_both(&workout, calls, met),
        Judge::Altered => answer_by::<Altered>(&workout, calls, met),
    };
    met.count(judge, &answers);
    answers.words
}

/// The altered Rust's, which the unchanged one's differs from in nothing but FTP, its events and readout.
fn answer_by_both(workout: &Workout, calls: &[Call], met: &mut Met) -> Answers {
    let answers = answer_by::<Altered>(workout, calls, met);
    let unchanged = answer_by::<Unchanged>(workout, calls, &mut Met::default());
    assert!(
        answers.but_for_ftp() == unchanged.but_for_ftp(),
        "the unchanged Rust differs in more than FTP, its events and readout: steps {:?}, test {:?}, calls {calls:?}",
        workout.steps(),
        workout.test
    );
    met.pooled += u64::from(answers.ftps() != unchanged.ftps());
    answers
}

pub fn answer_by<P: Player>(workout: &Workout, calls: &[Call], met: &mut Met) -> Answers {
    let mut list = List::<P>::new(workout);
    let first = calls.first().copied().unwrap_or_default();
    let mut answers = Answers { words: list.words(&nothing(0), &first), events: Vec::new() };
    for call in calls {
        let given = list.play(call, met);
        answers.words.extend(list.words(&given, call));
        answers.events.push(given.events);
    }
    answers
}
