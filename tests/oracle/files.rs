//! Workout files: limits, every byte at every value, cuts, and random ones, sound or damaged.
use super::{
    FREE, FTP_RAMP, HEART_ZONE_TARGET, PLAIN_STEP, RAMP_TARGET, Random, StepWords, WorkoutWords, altered,
    limit_workouts, sound_step, sound_workout,
};
use firmware_services::checksum::crc32;

/// The longest file.
const MOST: usize = 475;
const CHECK_BYTES: usize = 4;

/// A body with its check word.
fn mended(body: &[u8]) -> Vec<u8> {
    [body, &crc32(body).to_le_bytes()].concat()
}

fn body(file: &[u8]) -> &[u8] {
    &file[..file.len() - CHECK_BYTES]
}

/// The file of a workout with a name and a note for each step. Its fillers are 0.
fn file_of(workout: &WorkoutWords, name: &[u8], notes: &[Vec<u8>]) -> Vec<u8> {
    let mut body = vec![b'V', b'W', 1, workout.test as u8, name.len() as u8];
    body.extend(name);
    body.extend([workout.steps.len() as u8, workout.blocks.len() as u8]);
    for (step, note) in workout.steps.iter().zip(notes) {
        body.extend([step.intensity as u8, step.length[0] as u8]);
        body.extend(step.length[1].to_le_bytes());
        body.push(step.target[0] as u8);
        body.extend(step.target[1..].iter().flat_map(|&value| (value as u16).to_le_bytes()));
        body.extend([0, note.len() as u8]);
        body.extend(note);
    }
    body.extend(workout.blocks.iter().flatten().map(|&value| value as u8));
    mended(&body)
}

pub fn without_notes(workout: &WorkoutWords) -> Vec<u8> {
    file_of(workout, b"", &vec![Vec::new(); workout.steps.len()])
}

/// The shortest file: one open step without a target, 26 bytes.
fn shortest() -> Vec<u8> {
    let mut workout = WorkoutWords::plain(1, &[]);
    workout.steps[0].length = [2, 0];
    without_notes(&workout)
}

/// Two steps with notes, and two blocks, the later one first.
fn short() -> Vec<u8> {
    let mut workout = WorkoutWords::plain(2, &[[1, 1, 3], [0, 1, 2]]);
    workout.test = 1;
    workout.steps[0].target = [HEART_ZONE_TARGET, 2, 0, 0];
    file_of(&workout, b"4X4", &[b"EASY".to_vec(), b"~".to_vec()])
}

/// A step of each target kind, sound, with all three lengths among them.
fn each_kind() -> Vec<u8> {
    let mut workout = WorkoutWords::plain(8, &[[0, 3, 2], [5, 3, 4]]);
    workout.test = 2;
    for (kind, step) in workout.steps.iter_mut().enumerate() {
        let (length, values) = match kind {
            0 => ([1, 400], [0, 0, 0]),
            1 => ([0, 300], [90, 105, 0]),
            2 => ([0, 60], [100, 2_000, 0]),
            3 => ([1, 70_000], [4, 0, 0]),
            4 => ([2, 0], [80, 250, 0]),
            5 => ([0, 65_535], [60, 110, 0]),
            6 => ([2, 0], [100, 20, 60]),
            _ => ([2, 0], [50, 6, 300]),
        };
        *step =
            StepWords { intensity: kind as u32 % 5, length, target: [kind as u32, values[0], values[1], values[2]] };
    }
    without_notes(&workout)
}

/// Twelve steps with notes of 20 bytes and eight blocks: 475 bytes.
pub fn longest() -> Vec<u8> {
    let blocks: Vec<[u32; 3]> = (0..8).map(|first| [first, 1, 2 + first]).collect();
    let mut workout = WorkoutWords::plain(12, &blocks);
    let mut random = Random(12);
    for step in &mut workout.steps {
        *step = sound_step(&mut random);
    }
    let file = file_of(&workout, b"OVER UNDERS 12 X 475", &vec![b"HIGH CADENCE, LOW HR".to_vec(); 12]);
    assert_eq!(file.len(), MOST);
    file
}

/// The files that are damaged byte by byte.
pub fn whole_files() -> [Vec<u8>; 4] {
    [shortest(), short(), each_kind(), longest()]
}

/// A file with one byte of it set, as it is and with the check word mended.
fn with_byte(file: &[u8], at: usize, value: u8) -> [Vec<u8>; 2] {
    let mut set = file.to_vec();
    set[at] = value;
    let whole = mended(body(&set));
    [set, whole]
}

/// A file cut to `len` bytes, as it is and with a check word behind it.
fn cut(file: &[u8], len: usize) -> [Vec<u8>; 2] {
    [file[..len].to_vec(), mended(&file[..len])]
}

/// A file with one byte more, at its end and before its check word.
fn one_more(file: &[u8], value: u8) -> [Vec<u8>; 2] {
    [[file, &[value]].concat(), mended(&[body(file), &[value]].concat())]
}

/// Each byte of a file at every value, the file cut at every place, and with one byte more of every value: each of them as it
/// is and with the check word mended.
pub fn damaged(file: &[u8]) -> impl Iterator<Item = Vec<u8>> + '_ {
    let set = (0..file.len()).flat_map(move |at| (0..=255).flat_map(move |value| with_byte(file, at, value)));
    let cuts = (0..=file.len()).flat_map(move |len| cut(file, len));
    set.chain(cuts).chain((0..=255).flat_map(move |value| one_more(file, value)))
}

/// Files at limits: whole ones, the short ones cut at every place and with some values in every byte, the workouts at limits
/// of `validate` as files, and the open places of the questions' order.
pub fn limit_files() -> Vec<Vec<u8>> {
    const VALUES: [u8; 14] = [0, 1, 2, 3, 4, 7, 8, 13, 20, 21, 97, 123, 127, 255];
    let mut files: Vec<Vec<u8>> = whole_files().to_vec();
    for file in [shortest(), short()] {
        files.extend((0..=file.len()).flat_map(|len| cut(&file, len)));
        files.extend(one_more(&file, 0));
    }
    let file = shortest();
    for at in 0..file.len() {
        files.extend(VALUES.iter().flat_map(|&value| with_byte(&file, at, value)[1..].to_vec()));
    }
    files.extend(limit_workouts().iter().map(without_notes));
    files.extend(
        limit_steps()
            .iter()
            .map(|&step| without_notes(&WorkoutWords { steps: vec![step], ..WorkoutWords::plain(1, &[]) })),
    );
    files.extend(one_more(&longest(), 0));
    files.extend([
        // Fillers: read past.
        with_step_bytes(&shortest(), &[(7, 1), (10, 255)]),
        with_step_bytes(&short(), &[(9, 77)]),
        // "VW" before the last four bytes; no version; a version and no test.
        b"VW\x01\0\0".to_vec(),
        b"VW\x01\0\0\0".to_vec(),
        mended(b"VW"),
        mended(b"VW\x01"),
        // A name of 21 bytes that aren't there; of 5 bytes with 3 there, not allowed ones.
        mended(b"VW\x01\0\x15"),
        mended(b"VW\x01\0\x05abc"),
        mended(b"VW\x01\0\x03abc"),
        // 13 steps without a block count, and with one; 12 and 9 likewise.
        mended(b"VW\x01\0\0\x0D"),
        mended(b"VW\x01\0\0\x0D\0"),
        mended(b"VW\x01\0\0\x0C\x09"),
        // No steps, and a block that isn't sound.
        mended(b"VW\x01\0\0\0\x01\xFF\xFF\0"),
        // A step that isn't allowed and whose note is missing; a note that is missing.
        mended(b"VW\x01\0\0\x01\0\x05\x02\0\0\0\0\0\0\0\0\0\0\0\0\x05"),
        mended(b"VW\x01\0\0\x01\0\x01\x02\0\0\0\0\0\0\0\0\0\0\0\0\x05AB"),
    ]);
    files
}

/// Steps at both sides of what a step's bytes may hold.
fn limit_steps() -> Vec<StepWords> {
    let open = |target| StepWords { length: [2, 0], target, ..PLAIN_STEP };
    let mut steps = Vec::new();
    for length in [[0, 65_535], [0, 65_536], [0, u32::MAX], [1, 65_536], [2, 1], [3, 0]] {
        steps.push(StepWords { length, ..PLAIN_STEP });
    }
    steps.extend([4, 5].map(|intensity| StepWords { intensity, ..PLAIN_STEP }));
    for kind in 0..=8 {
        let values = match kind {
            HEART_ZONE_TARGET => [[1, 1, 0], [256, 0, 0], [1, 256, 0], [1, 0, 1]],
            RAMP_TARGET => [[1, 1, 1], [256, 1, 1], [1, 256, 1], [1, 1, 256]],
            FTP_RAMP => [[1, 1, 1], [256, 1, 1], [1, 256, 1], [1, 1, 256]],
            _ => [[1, 1, 0], [256, 256, 0], [1, 256, 0], [1, 1, 1]],
        };
        steps.extend(values.map(|[a, b, c]| open([kind, a, b, c])));
    }
    steps
}

/// A file with some bytes of its first step set, mended.
fn with_step_bytes(file: &[u8], bytes: &[(usize, u8)]) -> Vec<u8> {
    let mut body = body(file).to_vec();
    let step = 7 + usize::from(body[4]);
    for &(at, value) in bytes {
        body[step + at] = value;
    }
    mended(&body)
}

/// Bytes that a name may hold.
fn name(random: &mut Random) -> Vec<u8> {
    let len = if random.once_in(3) { random.one_of(&[0, 1, 19, 20]) } else { random.below(21) };
    (0..len)
        .map(|_| match random.below(69) {
            byte @ ..65 => 32 + byte as u8,
            byte => 123 + (byte - 65) as u8,
        })
        .collect()
}

/// A sound file, now and then with other fillers than 0.
pub fn sound_file(random: &mut Random, workout: &WorkoutWords) -> Vec<u8> {
    let name_bytes = name(random);
    let notes: Vec<Vec<u8>> = (0..workout.steps.len()).map(|_| name(random)).collect();
    let mut filled = workout.clone();
    for step in &mut filled.steps {
        if random.once_in(4) {
            if step.target[0] == FREE {
                step.target[1] = random.below(65_536);
            }
            if matches!(step.target[0], FREE | HEART_ZONE_TARGET) {
                step.target[2] = random.below(65_536);
            }
        }
    }
    file_of(&filled, &name_bytes, &notes)
}

fn any_byte(random: &mut Random) -> u8 {
    if random.once_in(2) {
        random.one_of(&[0, 1, 2, 4, 5, 7, 8, 12, 13, 20, 21, 31, 32, 96, 97, 122, 123, 126, 127, 250, 251, 255]) as u8
    } else {
        random.below(256) as u8
    }
}

/// Some bytes of a body set, one or some put in or taken out, or its end lost.
fn damage(random: &mut Random, body: &mut Vec<u8>) {
    let at = random.below(body.len() as u32) as usize;
    match random.below(6) {
        0 => body.truncate(at),
        1 => body.insert(at, any_byte(random)),
        2 => {
            body.remove(at);
        }
        _ => {
            for _ in 0..random.within(1, 3) {
                let at = random.below(body.len() as u32) as usize;
                body[at] = any_byte(random);
            }
        }
    }
}

/// A random file: sound, unsound, damaged with or without its check word mended, or hardly one.
pub fn random_file(random: &mut Random) -> Vec<u8> {
    let mut workout = sound_workout(random);
    match random.below(8) {
        0 | 1 => sound_file(random, &workout),
        2 => {
            for _ in 0..random.within(1, 3) {
                altered(random, &mut workout);
            }
            sound_file(random, &workout)
        }
        3 => {
            let workout = random.any_workout();
            sound_file(random, &workout)
        }
        4 => {
            let mut file = sound_file(random, &workout);
            damage(random, &mut file);
            file
        }
        5 if random.once_in(4) => {
            let len = if random.once_in(2) { random.below(8) } else { random.below(485) };
            (0..len).map(|_| random.below(256) as u8).collect()
        }
        _ => {
            let mut bytes = body(&sound_file(random, &workout)).to_vec();
            damage(random, &mut bytes);
            mended(&bytes)
        }
    }
}
