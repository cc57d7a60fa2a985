//! Reading and writing the longest workout file: 12 steps with notes of 20 bytes, 8 blocks.
use crate::table::{Line, reading_and_writing};
use std::hint::black_box;
use vana::workout::codec;

#[link(name = "bench", kind = "static")]
unsafe extern "C" {
    safe fn read_file(file: *const u8, length: usize, place: u32) -> u32;
    safe fn read_and_write_file(file: *const u8, length: usize, out: *mut u8, room: usize) -> u32;
}

const CALLS: u32 = 50;
const SIZE: usize = 475;

fn rattle_read(file: &[u8], place: u32) -> u32 {
    read_file(black_box(file.as_ptr()), file.len(), black_box(place))
}

fn rattle_write(file: &[u8], out: &mut [u8; SIZE]) -> u32 {
    read_and_write_file(black_box(file.as_ptr()), file.len(), out.as_mut_ptr(), SIZE)
}

fn alike(file: &[u8]) -> bool {
    let words = questions::answer(questions::FILE, file);
    let mut out = [0; SIZE];
    let size = rattle_write(file, &mut out) as usize;
    let read = (0..words.len() as u32).map(|place| rattle_read(file, place)).eq(words);
    read && size == SIZE && out[..] == *file && codec::encode(&codec::decode(file).unwrap())[..] == *file
}

pub fn lines() -> Result<Vec<Line>, String> {
    let file = inputs::files::longest();
    if !alike(&file) {
        return Err("a workout file as it is read or written".to_string());
    }
    let mut out = [0; SIZE];
    let rust_read = || codec::decode(black_box(&file));
    Ok(reading_and_writing(
        ["decode of 475 bytes", "encode of 475 bytes"],
        "1.5",
        CALLS,
        [
            &mut || _ = black_box(rattle_read(&file, 12)),
            &mut || _ = black_box(&rust_read()),
            &mut || _ = black_box(rattle_write(&file, &mut out)),
            &mut || _ = black_box(&codec::encode(&rust_read().unwrap())),
        ],
    ))
}
