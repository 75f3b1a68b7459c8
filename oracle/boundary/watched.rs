//! The root of a library around the copy of ldpc.rs that `wide` makes, which has one line more than the file as published: it
//! hands the decoder's four vectors to `watch::seen`.
#![allow(dead_code)]
extern crate alloc;

#[path = "../lcr/crates/lcr-core/src/error.rs"]
pub mod error;

pub mod ecc {
    #[path = "../ldpc.rs"]
    pub mod ldpc;
    #[path = "../../lcr/crates/lcr-core/src/ecc/tables.rs"]
    pub mod tables;
}

pub mod watch {
    use std::cell::RefCell;

    /// The vectors of a decode at its end.
    #[derive(Default)]
    pub struct Seen {
        pub ch: Vec<f32>,
        pub total: Vec<f32>,
        pub v2c: Vec<f32>,
        pub c2v: Vec<f32>,
    }

    thread_local! {
        static LAST: RefCell<Option<Seen>> = const { RefCell::new(None) };
    }

    pub fn seen(ch: &[f32], total: &[f32], v2c: &[f32], c2v: &[f32]) {
        let seen = Seen {
            ch: ch.to_vec(),
            total: total.to_vec(),
            v2c: v2c.to_vec(),
            c2v: c2v.to_vec(),
        };
        LAST.with(|last| last.replace(Some(seen)));
    }

    /// What the last decode handed out; each is taken once.
    pub fn take() -> Option<Seen> {
        LAST.with(|last| last.take())
    }
}
