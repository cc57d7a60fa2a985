//! The Rust's player by one trait, in two forms: unchanged, whose `extend` knows no amount but its own 60 s and 500 m and whose test
//! numbers run on from step to step, and altered, whose `extend_by` takes any amount and whose test numbers begin empty in each
//! step (crate `vana_by`). What they give is told in the types of the unchanged one. Beside them the amounts of document 02's
//! request i, question 15, which neither asks, which workouts request d still compares with the unchanged one for FTP, and request
//! g's unread, which neither counts.
use vana::ride::{log::Sample, zones::TrainingProfile};
use vana::workout::model::{Intensity, Length, Workout};
pub use vana::workout::player::Player as Unchanged;
use vana::workout::player::{Compliance, Event, Left, Now, Summary, TestReadout};
pub use vana_by::workout::player::Player as Altered;

/// What an extend gives: the seconds to a timed step, the metres to a distance step.
#[derive(Clone, Copy, Debug, PartialEq, Eq)]
pub struct Amount {
    pub secs: u32,
    pub metres: u32,
}

/// "kind 4 keeps 60 s and 500 m", which are the Rust's own.
pub const LONG: Amount = Amount { secs: 60, metres: 500 };
/// "The plain extend call now gives 30 s or 250 m."
pub const DEFAULT: Amount = Amount { secs: 30, metres: 250 };

/// What was given to the step on now. The sums are of 64 bits, since an amount is any number of 32.
#[derive(Clone, Copy, Default)]
pub struct Extra {
    secs: u64,
    metres: u64,
}

impl Extra {
    fn with(self, amount: Amount) -> Self {
        Extra { secs: self.secs + u64::from(amount.secs), metres: self.metres + u64::from(amount.metres) }
    }

    /// "its extra at most 86,400 s or 1,000,000 m after it? 15", asked of the unit of an unfinished step.
    pub fn refuses(self, length: Length, amount: Amount) -> bool {
        let after = self.with(amount);
        match length {
            Length::Time(_) => after.secs > 86_400,
            Length::Distance(_) => after.metres > 1_000_000,
            Length::Open => false,
        }
    }

    /// What isn't of the step's unit is let go, so that neither sum comes past its limit.
    pub fn add(&mut self, length: Length, amount: Amount) {
        let after = self.with(amount);
        match length {
            Length::Time(_) => self.secs = after.secs,
            Length::Distance(_) => self.metres = after.metres,
            Length::Open => {}
        }
    }
}

/// The played test steps of a workout. Without a test none is measured.
pub fn test_steps(workout: &Workout) -> usize {
    let tests = workout.played().filter(|played| played.step.intensity == Intensity::Test).count();
    if workout.test.is_some() { tests } else { 0 }
}

/// "Against the Rust only workouts with at most one played test step are compared for FTP, its events and, in that step, the test
/// readout of `now`."
pub fn compared_for_ftp(workout: &Workout) -> bool {
    test_steps(workout) <= 1
}

/// Who judges a list of calls or of acts.
#[derive(Clone, Copy, Debug, PartialEq, Eq)]
pub enum Judge {
    /// The unchanged Rust, in everything.
    Unchanged,
    /// The altered one, and the unchanged one beside it in everything but FTP, its events and the test readout of `now`.
    Both,
    /// The altered one alone: the list has extends that the other hasn't.
    Altered,
}

impl Judge {
    /// By the workout, and whether all extends are the unchanged Rust's own.
    pub fn of(workout: &Workout, own: bool) -> Self {
        match (own, compared_for_ftp(workout)) {
            (true, true) => Judge::Unchanged,
            (true, false) => Judge::Both,
            (false, _) => Judge::Altered,
        }
    }
}

/// The calls of the Rust's player.
pub trait Player {
    fn of(workout: &Workout) -> Self;
    fn read(&mut self, sample: &Sample);
    fn skip(&mut self) -> Vec<Event>;
    /// Of the unchanged player no amount but `LONG` can be asked.
    fn extend(&mut self, amount: Amount) -> bool;
    fn add(&mut self, ms: u64, mm: u64, sample: &Sample, profile: &TrainingProfile) -> Vec<Event>;
    fn until_end(&self, ms: u64, mm: u64) -> (u64, u64);
    fn ride_part(&mut self, ms: u64, mm: u64, sample: &Sample, profile: &TrainingProfile) -> Vec<Event>;
    fn done(&self) -> bool;
    fn now(&self, profile: &TrainingProfile) -> Now;
    fn remaining_secs(&self) -> Option<u32>;
    fn distance_step(&self) -> bool;
    fn summary(&self) -> Summary;

    /// What a part, ridden next, adds to unread, by document 02's request g: all of it where "a band stood, its reading was absent".
    /// The Rust has no such count, so this is asked of its `now` before the part.
    fn unread(&self, part_ms: u64, profile: &TrainingProfile) -> u64 {
        let now = self.now(profile);
        if now.band.is_some() && now.reading.is_none() { part_ms } else { 0 }
    }
}

macro_rules! player {
    ($form:ident, $rust:ident, $extend:expr) => {
        mod $form {
            use super::*;
            use $rust::workout::player as rust;

            fn events(events: rust::Events) -> Vec<Event> {
                let event = |event: &rust::Event| match *event {
                    rust::Event::Countdown(secs) => Event::Countdown(secs),
                    rust::Event::Started(position) => Event::Started(position),
                    rust::Event::Finished => Event::Finished,
                    rust::Event::Ftp(watts) => Event::Ftp(watts),
                };
                events.iter().map(event).collect()
            }

            fn compliance(compliance: rust::Compliance) -> Compliance {
                match compliance {
                    rust::Compliance::Under => Compliance::Under,
                    rust::Compliance::In => Compliance::In,
                    rust::Compliance::Over => Compliance::Over,
                }
            }

            fn left(left: rust::Left) -> Left {
                match left {
                    rust::Left::Secs(secs) => Left::Secs(secs),
                    rust::Left::Metres(metres) => Left::Metres(metres),
                    rust::Left::Open(secs) => Left::Open(secs),
                }
            }

            fn readout(readout: rust::TestReadout) -> TestReadout {
                match readout {
                    rust::TestReadout::Average(watts) => TestReadout::Average(watts),
                    rust::TestReadout::BestMinute(watts) => TestReadout::BestMinute(watts),
                }
            }

            impl Player for rust::Player {
                fn of(workout: &Workout) -> Self {
                    Self::new(*workout)
                }

                fn read(&mut self, sample: &Sample) {
                    self.read(sample)
                }

                fn skip(&mut self) -> Vec<Event> {
                    events(self.skip())
                }

                fn extend(&mut self, amount: Amount) -> bool {
                    let extend: fn(&mut Self, Amount) -> bool = $extend;
                    extend(self, amount)
                }

                fn add(&mut self, ms: u64, mm: u64, sample: &Sample, profile: &TrainingProfile) -> Vec<Event> {
                    events(self.add(ms, mm, sample, profile))
                }

                fn until_end(&self, ms: u64, mm: u64) -> (u64, u64) {
                    self.until_end(ms, mm)
                }

                fn ride_part(&mut self, ms: u64, mm: u64, sample: &Sample, profile: &TrainingProfile) -> Vec<Event> {
                    events(self.ride_part(ms, mm, sample, profile))
                }

                fn done(&self) -> bool {
                    self.done()
                }

                fn now(&self, profile: &TrainingProfile) -> Now {
                    let now = self.now(profile);
                    Now {
                        position: now.position,
                        steps: now.steps,
                        played: now.played,
                        band: now.band,
                        ramp_watts: now.ramp_watts,
                        reading: now.reading,
                        compliance: now.compliance.map(compliance),
                        left: left(now.left),
                        progress: now.progress,
                        next: now.next,
                        test: now.test.map(readout),
                    }
                }

                fn remaining_secs(&self) -> Option<u32> {
                    self.remaining_secs()
                }

                fn distance_step(&self) -> bool {
                    self.distance_step()
                }

                fn summary(&self) -> Summary {
                    let summary = self.summary();
                    Summary {
                        steps_done: summary.steps_done,
                        steps: summary.steps,
                        skipped: summary.skipped,
                        targeted_ms: summary.targeted_ms,
                        in_ms: summary.in_ms,
                        under_ms: summary.under_ms,
                        over_ms: summary.over_ms,
                        finished: summary.finished,
                        ftp: summary.ftp,
                    }
                }
            }
        }
    };
}

player!(unchanged, vana, |player, amount| {
    assert_eq!(amount, LONG);
    player.extend()
});
player!(altered, vana_by, |player, amount| player.extend_by(amount.secs, amount.metres));
