//! The Rattle's player on a list of calls, by crate `compare_player` from a static library.
use played::{Call, WORDS, bytes_of};

#[link(name = "compare_player", kind = "static")]
unsafe extern "C" {
    /// As many words of the answer as there are places for. A slice goes as its pointer and its length.
    safe fn compare_player(
        file: *const u8,
        file_length: usize,
        calls: *const u8,
        calls_length: usize,
        answer: *mut u32,
        places: usize,
    );
}

pub fn ours(file: &[u8], calls: &[Call]) -> Vec<u32> {
    let list = bytes_of(calls);
    let mut answer = vec![0; WORDS * (calls.len() + 1)];
    compare_player(file.as_ptr(), file.len(), list.as_ptr(), list.len(), answer.as_mut_ptr(), answer.len());
    answer
}
