//! The Rust with two changes to its player: `extend_by`, which takes seconds and metres, in place of `extend`, and test numbers that
//! begin empty whenever a step starts (document 02, i and d). tests/oracle/build makes that player's text,
//! `target/oracle/by/player.rs`. All else is crate `vana`'s.

pub mod ride {
    pub use vana::ride::{log, zones};
}

#[path = "../../target/oracle/by"]
pub mod workout {
    pub mod player;

    pub use vana::workout::{codec, history, model};
}
