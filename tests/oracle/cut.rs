//! Calls on a player whose rides may be cut and whose event arrays are of any length, as they are played by the Rattle's player of
//! crate `compare_cut`, from a static library, by document 01's millisecond machine (machine.rs) and by the Rust's player; and the
//! words by which the three are compared.
use crate::machine::{Event, Machine, Piece};
use players::{Amount, DEFAULT, Player};
use vana::ride::{log::Sample, zones::TrainingProfile};
use vana::workout::model::Workout;
use vana::workout::player;

#[link(name = "compare_cut", kind = "static")]
unsafe extern "C" {
    /// `WORDS` words on the fresh player, then as many after each call. A slice goes as its pointer and its length.
    safe fn compare_cut(
        file: *const u8,
        file_length: usize,
        calls: *const u8,
        calls_length: usize,
        answer: *mut u32,
        places: usize,
    );
}

/// Refusal (of `new` at first), the check word of the events of kinds 1 to 3 so far, then the summary: targeted, in, under, over,
/// FTP, steps done, steps, skipped, finished, `in_target_pct`, unread. An absent FTP or percentage is 0, else one more.
pub const WORDS: usize = 13;
const NO_EVENTS: u32 = 7;

/// The words after a call but for the refusal.
pub type Words = [u32; WORDS - 1];

/// The place of unread among them.
pub const UNREAD: usize = 11;

/// The places that a ride or a skip is lent, of kinds and of values: so many, or so many more than question 14 wants then.
#[derive(Clone, Copy, Debug)]
pub enum Lent {
    Places([u32; 2]),
    Wanted([i32; 2]),
}

pub const MOST: Lent = Lent::Places([193, 193]);
pub const EXACT: Lent = Lent::Wanted([0, 0]);

#[derive(Clone, Debug)]
pub enum Call {
    Read(Sample),
    Ride(Vec<(u64, u64)>, Lent),
    Skip(Lent),
    /// No workout here has a distance step, so the metres are anything.
    Extend(Amount),
    ExtendDefault,
}

/// The places of a call at this state of the machine; a read or an extend is lent none.
pub fn places_of(call: &Call, machine: &Machine) -> [u32; 2] {
    match call {
        Call::Ride(_, lent) | Call::Skip(lent) => match lent {
            Lent::Places(places) => *places,
            Lent::Wanted(more) => more.map(|more| machine.places_wanted().saturating_add_signed(more)),
        },
        _ => [0, 0],
    }
}

fn reading(value: Option<u16>) -> u32 {
    value.map_or(0, |value| 1 + u32::from(value))
}

/// Eight words to a call: kind (0 read, 1 ride, 3 skip, 4 extend with an amount, 5 plain extend), FTP, LTHR, ms, mm, and then power,
/// heart and cadence of a read, the places of kinds and of values of a ride or a skip, the seconds and metres of the amount.
pub fn words_of(call: &Call, [kinds, values]: [u32; 2], profile: &TrainingProfile) -> Vec<[u32; 8]> {
    let head = |kind| [kind, profile.ftp_watts.into(), profile.lthr_bpm.into()];
    let words = |[kind, ftp, lthr]: [u32; 3], [ms, mm]: [u64; 2], rest: [u32; 3]| {
        [kind, ftp, lthr, ms as u32, mm as u32, rest[0], rest[1], rest[2]]
    };
    match call {
        Call::Read(sample) => {
            let rest = [sample.power_watts, sample.heart_bpm, sample.cadence_tenths].map(reading);
            vec![words(head(0), [0, 0], rest)]
        }
        Call::Ride(pieces, _) => pieces.iter().map(|&(ms, mm)| words(head(1), [ms, mm], [kinds, values, 0])).collect(),
        Call::Skip(_) => vec![words(head(3), [0, 0], [kinds, values, 0])],
        Call::Extend(amount) => vec![words(head(4), [0, 0], [amount.secs, amount.metres, 0])],
        Call::ExtendDefault => vec![words(head(5), [0, 0], [0; 3])],
    }
}

pub fn ours(file: &[u8], calls: &[[u32; 8]]) -> Vec<Vec<u32>> {
    let list: Vec<u8> = calls.iter().flatten().flat_map(|word| word.to_le_bytes()).collect();
    let mut answer = vec![0; WORDS * (calls.len() + 1)];
    compare_cut(file.as_ptr(), file.len(), list.as_ptr(), list.len(), answer.as_mut_ptr(), answer.len());
    answer.chunks(WORDS).map(<[u32]>::to_vec).collect()
}

pub fn check_word(events: &[Event]) -> u32 {
    events.iter().fold(NO_EVENTS, |check, &(kind, value)| {
        ((u64::from(check) * 31 + u64::from(kind) * 65_536 + u64::from(value) + 1) % 1_000_000_007) as u32
    })
}

pub fn machine_words(m: &Machine) -> Words {
    [
        check_word(&m.events),
        m.targeted as u32,
        m.inside as u32,
        m.under as u32,
        m.over as u32,
        m.ftp.map_or(0, |watts| 1 + watts as u32),
        m.position as u32,
        m.steps() as u32,
        m.skipped,
        m.finished().into(),
        m.in_target_pct().map_or(0, |pct| 1 + pct as u32),
        m.unread as u32,
    ]
}

fn rust_words(s: player::Summary, unread: u64, events: &[Event]) -> Words {
    [
        check_word(events),
        s.targeted_ms as u32,
        s.in_ms as u32,
        s.under_ms as u32,
        s.over_ms as u32,
        reading(s.ftp),
        s.steps_done.into(),
        s.steps.into(),
        s.skipped.into(),
        s.finished.into(),
        reading(s.in_target_pct().map(u16::from)),
        unread as u32,
    ]
}

/// What each call of the cut list is refused by, a list to a call of the uncut one.
pub fn feed(machine: &mut Machine, call: &Call, places: [u32; 2]) -> Vec<u32> {
    match call {
        Call::Read(sample) => vec![machine.read(*sample)],
        Call::Ride(pieces, _) => pieces.iter().map(|&(ms, mm)| machine.ride(Piece { ms, mm }, places)).collect(),
        Call::Skip(_) => vec![machine.skip(places)],
        Call::Extend(amount) => vec![machine.extend(amount.secs.into())],
        Call::ExtendDefault => vec![machine.extend(DEFAULT.secs.into())],
    }
}

fn compared(events: impl IntoIterator<Item = player::Event>) -> impl Iterator<Item = Event> {
    events.into_iter().filter_map(|event| match event {
        player::Event::Countdown(_) => None,
        player::Event::Started(position) => Some((1, position as u32)),
        player::Event::Finished => Some((2, 0)),
        player::Event::Ftp(watts) => Some((3, watts.into())),
    })
}

/// The Rust's player beside the machine, with the last reading, the events so far, and unread, which it hasn't (players.rs).
pub struct Beside<P> {
    player: P,
    last: Sample,
    unread: u64,
    pub events: Vec<Event>,
}

impl<P: Player> Beside<P> {
    pub fn new(workout: &Workout) -> Self {
        Self { player: P::of(workout), last: Sample::default(), unread: 0, events: Vec::new() }
    }

    /// A call without what is refused of it; ride is the Rust's loop over `until_end` and `ride_part`.
    pub fn play(&mut self, call: &Call, numbers: &[u32], profile: &TrainingProfile) {
        match call {
            Call::Ride(pieces, _) => {
                let accepted = pieces.iter().zip(numbers).filter(|(_, number)| **number == 0);
                accepted.for_each(|(&(ms, mm), _)| self.ride(ms, mm, profile));
            }
            _ if numbers[0] != 0 => {}
            Call::Read(sample) => {
                self.player.read(sample);
                self.last = *sample;
            }
            Call::Skip(_) => self.events.extend(compared(self.player.skip())),
            Call::Extend(amount) => _ = self.player.extend(*amount),
            Call::ExtendDefault => _ = self.player.extend(DEFAULT),
        }
    }

    fn ride(&mut self, mut ms: u64, mut mm: u64, profile: &TrainingProfile) {
        while ms > 0 && !self.player.done() {
            let (part_ms, part_mm) = self.player.until_end(ms, mm);
            ms -= part_ms;
            mm -= part_mm;
            self.unread += self.player.unread(part_ms, profile);
            self.events.extend(compared(self.player.ride_part(part_ms, part_mm, &self.last, profile)));
        }
    }

    pub fn words(&self) -> Words {
        rust_words(self.player.summary(), self.unread, &self.events)
    }
}
