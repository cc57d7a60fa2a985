//! The five files of the Rust, unchanged, as a crate: `target/oracle/src` is a link to the folder they are read from.
//! `log::Sample` and `library::LoadError` stand in for two files that aren't taken.

#[path = "../../target/oracle/src/apps/vana/src/ride"]
pub mod ride {
    pub mod zones;

    pub mod log {
        /// The three readings of log.rs's `Sample`.
        #[derive(Clone, Copy, Debug, Default, PartialEq, Eq)]
        pub struct Sample {
            pub heart_bpm: Option<u16>,
            pub cadence_tenths: Option<u16>,
            pub power_watts: Option<u16>,
        }
    }
}

#[path = "../../target/oracle/src/apps/vana/src/workout"]
pub mod workout {
    pub mod codec;
    pub mod history;
    pub mod model;
    pub mod player;

    pub mod library {
        use super::codec;
        use firmware_services::{files, volume};

        /// What library.rs names, for the signatures of history.rs.
        #[derive(Clone, Copy, Debug, PartialEq, Eq)]
        pub enum LoadError {
            Volume(volume::Error),
            Files(files::Error),
            Missing,
            TooLarge,
            Decode(codec::DecodeError),
        }
    }
}
