//! Rides of 250 ms over 2 m on a workout of 96 played steps, each by the call from outside with question 20, or question 20 asked once
//! for all, against `add` of the Rust; and what one of four bikes on that workout gets of a supply, with questions 20 and 10 of all
//! four, against the ride with question 20. A run is timed with the reading of its file and the player's making, and a run of none is
//! taken off.
use crate::table::{Line, least};
use std::hint::black_box;
use vana::ride::log::Sample;
use vana::ride::zones::TrainingProfile;
use vana::workout::model::{Block, Intensity, Length, Step, Target, Workout};
use vana::workout::{codec, player::Player};

#[link(name = "bench", kind = "static")]
unsafe extern "C" {
    safe fn asked_rides(file: *const u8, length: usize, n: u32) -> u64;
    safe fn known_rides(file: *const u8, length: usize, n: u32) -> u64;
    safe fn asked_grants(file: *const u8, length: usize, n: u32) -> u64;
}

const ROUNDS: u32 = 200;
const RIDES: u32 = 4_096;
const GRANTS: u32 = 4_096;
/// The high end of the workout's first step, which each of the four bikes wants.
const WANT: u32 = 200;

fn file() -> Vec<u8> {
    let step = |i: u16| Step::new(Intensity::Work, Length::Time(20 + i), Target::Watts { low: 100 + i, high: 200 + i });
    let steps: Vec<Step> = (0..12).map(step).collect();
    let block = Block { first: 0, len: 12, count: 8 };
    codec::encode(&Workout::new("RIDES", &steps, &[block], None)).to_vec()
}

fn asked(file: &[u8], n: u32) -> u64 {
    black_box(asked_rides(black_box(file.as_ptr()), file.len(), n))
}

fn known(file: &[u8], n: u32) -> u64 {
    black_box(known_rides(black_box(file.as_ptr()), file.len(), n))
}

fn rust(file: &[u8], n: u32) -> u64 {
    let profile = TrainingProfile::new(200, 160).unwrap();
    let sample = Sample { power_watts: Some(150), ..Sample::default() };
    let mut player = Player::new(codec::decode(black_box(file)).unwrap());
    let mut events = 0;
    for _ in 0..n {
        events += black_box(player.add(250, 2_000, &sample, &profile)).len() as u64;
    }
    black_box(events);
    black_box(player.summary().targeted_ms)
}

fn granted(file: &[u8], n: u32) -> u64 {
    black_box(asked_grants(black_box(file.as_ptr()), file.len(), n))
}

/// The watts of one of four bikes with the same want: the greatest level, tried from the want down, that the supply bears.
fn level(supply: u32) -> u32 {
    (0..=WANT).rev().find(|level| 4 * level <= supply).unwrap()
}

pub fn lines() -> Result<Vec<Line>, String> {
    let file = file();
    let totals = [asked(&file, RIDES), known(&file, RIDES), rust(&file, RIDES)];
    let ridden = u64::from(RIDES) * 250;
    if totals != [ridden; 3] {
        return Err(format!("totals {totals:?} of {ridden} ms ridden"));
    }
    let watts = [granted(&file, GRANTS), (0..GRANTS).map(|i| u64::from(level(700 + i % 200))).sum()];
    if watts[0] != watts[1] {
        return Err(format!("watts of {GRANTS} grants: {} of {}", watts[0], watts[1]));
    }
    let times = least(
        ROUNDS,
        1,
        [
            &mut || _ = asked(&file, RIDES),
            &mut || _ = asked(&file, 0),
            &mut || _ = known(&file, RIDES),
            &mut || _ = known(&file, 0),
            &mut || _ = rust(&file, RIDES),
            &mut || _ = rust(&file, 0),
            &mut || _ = granted(&file, GRANTS),
            &mut || _ = granted(&file, 0),
        ],
    );
    let ride = |i: usize| (times[i] - times[i + 1]) / f64::from(RIDES);
    let grant = (times[6] - times[7]) / f64::from(GRANTS);
    let line = |what, i, bar| Line::new(format!("ride of 250 ms, {what}"), ride(i), ride(4), bar);
    Ok(vec![
        line("with question 20", 0, "5,000 ns"),
        line("without question 20", 2, ""),
        Line::alone("grant of four players of 96 played steps", grant, ride(0), "5.0, to the ride with question 20"),
    ])
}
