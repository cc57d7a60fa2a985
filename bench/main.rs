//! The Rattle, from the static libraries of crates `bench` and `console`, and the Rust on the same bytes in one process: a table of
//! least times with the ratio and, where there is one, the bar. Each part compares what both sides give before it times them. Fails
//! where something differs.
mod crc;
mod files;
mod records;
mod replay;
mod rides;
mod table;

use table::{Line, head};

fn main() {
    let parts: [fn() -> Result<Vec<Line>, String>; 5] =
        [crc::lines, files::lines, records::lines, rides::lines, replay::lines];
    let mut different = false;
    head();
    for part in parts {
        match part() {
            Ok(lines) => lines.iter().for_each(Line::print),
            Err(what) => {
                println!("different: {what}");
                different = true;
            }
        }
    }
    println!("{}", crc::stand_in());
    std::process::exit(different.into());
}
