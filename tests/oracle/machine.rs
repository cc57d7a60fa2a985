//! Document 01's millisecond machine, written from its paragraph, with question 14 as document 02's c amends it, a step's start as
//! d, unread as g and extend as i does, and run millisecond by millisecond. Of the Rust it takes what document 01 lets machine and
//! player share: the played steps, the band and the heart zone.
use vana::ride::{log::Sample, zones::TrainingProfile};
use vana::workout::model::{Band, Intensity, Length, Metric, Step, Target, Test, Workout};

/// An event of kind 1 (started), 2 (finished) or 3 (FTP), with its value.
pub type Event = (u32, u32);

/// A piece of a ride; questions 12 and 13 are asked of it.
#[derive(Clone, Copy, Debug)]
pub struct Piece {
    pub ms: u64,
    pub mm: u64,
}

/// "State: position, time and extra in the step, last three readings, tallies, test sums, a list of seconds' watts with a rest, FTP."
pub struct Machine {
    steps: Vec<Step>,
    test: Option<Test>,
    profile: TrainingProfile,
    pub position: usize,
    time: u64,
    extra: u64,
    pub skipped: u32,
    readings: Vec<Sample>,
    pub targeted: u64,
    pub inside: u64,
    pub under: u64,
    pub over: u64,
    pub unread: u64,
    sum: u64,
    test_time: u64,
    rest: u64,
    seconds: Vec<u16>,
    pub ftp: Option<u64>,
    pub events: Vec<Event>,
    total_ms: u64,
    total_mm: u64,
}

impl Machine {
    /// "It starts at position 0, all else 0, empty or absent."
    pub fn new(workout: &Workout, profile: TrainingProfile) -> Self {
        Self {
            steps: workout.played().map(|played| played.step).collect(),
            test: workout.test,
            profile,
            position: 0,
            time: 0,
            extra: 0,
            skipped: 0,
            readings: Vec::new(),
            targeted: 0,
            inside: 0,
            under: 0,
            over: 0,
            unread: 0,
            sum: 0,
            test_time: 0,
            rest: 0,
            seconds: Vec::new(),
            ftp: None,
            events: Vec::new(),
            total_ms: 0,
            total_mm: 0,
        }
    }

    pub fn steps(&self) -> usize {
        self.steps.len()
    }

    pub fn finished(&self) -> bool {
        self.position == self.steps.len()
    }

    /// "Read: the newest three stay." Refused by 11.
    pub fn read(&mut self, sample: Sample) -> u32 {
        if sample.cadence_tenths.is_some_and(|tenths| tenths > 65_530) {
            return 11;
        }
        self.readings.push(sample);
        if self.readings.len() > 3 {
            self.readings.remove(0);
        }
        0
    }

    /// "The millisecond machine's extend adds the seconds of the call", in an unfinished timed step. Refused by 15.
    pub fn extend(&mut self, secs: u64) -> u32 {
        let timed = !self.finished() && matches!(self.steps[self.position].length, Length::Time(_));
        if timed && self.extra + secs > 86_400 {
            return 15;
        }
        if timed {
            self.extra += secs;
        }
        0
    }

    /// "twice the unended steps plus one", "and none when done": what question 14 wants of each array.
    pub fn places_wanted(&self) -> u32 {
        if self.finished() { 0 } else { 2 * (self.steps.len() - self.position) as u32 + 1 }
    }

    /// "Question 14 now wants at least that many places in each array".
    fn lacks_places(&self, places: [u32; 2]) -> bool {
        places.iter().any(|&places| places < self.places_wanted())
    }

    /// "Skip: unless finished, end the step, marked." Refused by 14.
    pub fn skip(&mut self, places: [u32; 2]) -> u32 {
        if self.lacks_places(places) {
            return 14;
        }
        if !self.finished() {
            self.end(true);
        }
        0
    }

    /// A piece of a ride. Refused by 12, 13 and 14.
    pub fn ride(&mut self, piece: Piece, places: [u32; 2]) -> u32 {
        if piece.ms > 86_400_000 || piece.mm > 1_000_000_000 {
            return 12;
        }
        if self.total_ms + piece.ms > 604_800_000 || self.total_mm + piece.mm > 7_000_000_000 {
            return 13;
        }
        if self.lacks_places(places) {
            return 14;
        }
        if piece.ms > 0 {
            self.total_ms += piece.ms;
            self.total_mm += piece.mm;
        }
        for _ in 0..piece.ms {
            if self.finished() {
                break;
            }
            self.millisecond();
        }
        0
    }

    fn newest(&self) -> Sample {
        self.readings.last().copied().unwrap_or_default()
    }

    /// "the three-reading average": of those present, rounded half up.
    fn average(&self) -> Option<u32> {
        let present: Vec<u32> = self.readings.iter().filter_map(|sample| sample.power_watts).map(u32::from).collect();
        let count = present.len() as u32;
        (count > 0).then(|| (present.iter().sum::<u32>() + count / 2) / count)
    }

    /// "for power the three-reading average, else the newest reading's".
    fn reading(&self, metric: Metric) -> Option<u32> {
        match metric {
            Metric::Power => self.average(),
            Metric::Heart => self.newest().heart_bpm.map(u32::from),
            Metric::Cadence => self.newest().cadence_tenths.map(|tenths| (u32::from(tenths) + 5) / 10),
        }
    }

    /// Below the band, in it or above it.
    fn compliance(&self, step: &Step, band: Band, reading: u32) -> std::cmp::Ordering {
        let (low, high, value) = match step.target {
            // "For a heart zone compliance compares zones and not the band"
            Target::HeartZone(zone) => {
                let zone = u32::from(zone);
                (zone, zone, u32::from(self.profile.heart_zone(reading as u16)))
            }
            _ => (u32::from(band.low), u32::from(band.high), reading),
        };
        if value < low {
            std::cmp::Ordering::Less
        } else if value > high {
            std::cmp::Ordering::Greater
        } else {
            std::cmp::Ordering::Equal
        }
    }

    /// "with a band and its reading present .. one to targeted and one to in, under or over"; document 02, g: "a band stood, its
    /// reading was absent".
    fn tally(&mut self, step: &Step) {
        let Some(band) = step.target.band(&self.profile, (self.time / 1_000) as u32) else { return };
        let Some(reading) = self.reading(band.metric) else {
            self.unread += 1;
            return;
        };
        self.targeted += 1;
        match self.compliance(step, band, reading) {
            std::cmp::Ordering::Less => self.under += 1,
            std::cmp::Ordering::Equal => self.inside += 1,
            std::cmp::Ordering::Greater => self.over += 1,
        }
    }

    /// Whole percent of targeted, a half up; none without targeted time. In tallies of a week no sum comes past 64 bits.
    pub fn in_target_pct(&self) -> Option<u64> {
        (self.targeted > 0).then(|| (100 * self.inside + self.targeted / 2) / self.targeted)
    }

    /// "Each millisecond, unless finished".
    fn millisecond(&mut self) {
        let step = self.steps[self.position];
        self.tally(&step);
        self.time += 1;
        let power = self.newest().power_watts.unwrap_or(0);
        match self.test.filter(|_| step.intensity == Intensity::Test) {
            Some(Test::Twenty) => {
                self.sum += u64::from(power);
                self.test_time += 1;
            }
            Some(Test::Ramp) => {
                self.rest += 1;
                if self.rest == 1_000 {
                    self.rest = 0;
                    self.seconds.push(power);
                }
            }
            None => {}
        }
        if let Length::Time(secs) = step.length {
            if self.time == 1_000 * (u64::from(secs) + self.extra) {
                self.end(false);
            }
        }
    }

    /// The result of the step that is ending: "Only 50 to 600 is kept."
    fn result(&self, step: &Step, marked: bool) -> Option<u64> {
        let watts = match self.test.filter(|_| step.intensity == Intensity::Test)? {
            Test::Twenty => {
                let Length::Time(secs) = step.length else { return None };
                if marked || self.test_time < 1_000 * (u64::from(secs) + self.extra) {
                    return None;
                }
                let mean = (self.sum + self.test_time / 2) / self.test_time;
                (mean * 95 + 50) / 100
            }
            Test::Ramp => {
                let minute = |seconds: &[u16]| (seconds.iter().map(|&watts| u64::from(watts)).sum::<u64>() + 30) / 60;
                (self.seconds.windows(60).map(minute).max()? * 75 + 50) / 100
            }
        };
        (50..=600).contains(&watts).then_some(watts)
    }

    /// "Ending". Document 02, d: "Test sums, seconds' list, rest and best minute now begin empty whenever a step starts." At the finish
    /// none starts; the best minute is worked out of the list.
    fn end(&mut self, marked: bool) {
        let step = self.steps[self.position];
        if let Some(watts) = self.result(&step, marked) {
            self.ftp = Some(watts);
            self.events.push((3, watts as u32));
        }
        self.position += 1;
        self.skipped += u32::from(marked);
        self.time = 0;
        self.extra = 0;
        if self.finished() {
            self.events.push((2, 0));
            return;
        }
        (self.sum, self.test_time, self.rest) = (0, 0, 0);
        self.seconds.clear();
        self.events.push((1, self.position as u32));
    }
}
