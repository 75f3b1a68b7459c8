//! The root of a library around the Rust as published. `lcr` is a copy of its folder, which build.sh makes beside a copy
//! of this file: the files are compiled unchanged.
#![allow(dead_code)]
extern crate alloc;

#[path = "lcr/crates/lcr-core/src/error.rs"]
pub mod error;

pub mod ecc {
    #[path = "../lcr/crates/lcr-core/src/ecc/ldpc.rs"]
    pub mod ldpc;
    #[path = "../lcr/crates/lcr-core/src/ecc/tables.rs"]
    pub mod tables;
}

/// What main.rs names besides; no call of ours reaches it.
pub mod version {
    #[derive(Clone, Copy)]
    pub struct Version;

    impl Version {
        pub fn all() -> [Version; 0] {
            []
        }

        pub fn get(self) -> u8 {
            0
        }

        pub fn side(self) -> u8 {
            0
        }
    }

    #[derive(Clone, Copy)]
    pub enum Profile {
        M,
        C1,
        C2,
        C3,
    }

    pub struct EccLevel;

    impl EccLevel {
        pub const DEFAULT: EccLevel = EccLevel;
    }
}

pub mod capacity {
    use crate::version::{EccLevel, Profile, Version};

    pub struct Capacity {
        pub body_bytes: usize,
    }

    pub fn capacity_for_symbol(_: Version, _: Profile, _: EccLevel, _: bool) -> Capacity {
        Capacity { body_bytes: 0 }
    }
}
