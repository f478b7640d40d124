#![doc = include_str!("../README.md")]
//! # Where to find
//!
//! - to save and resume a stream: [`save`](version::StreamedKomihash::save)
//! - to seed a map: [`KomiBuildHasher`]
//! - to hash a file: with the feature `std`, [`StreamedKomihash`] is a `std::io::Write`
//! - to draw random numbers: [`Komirand`]
//! - for code that is generic over the version: [`version`]
//! - for lists of calls, and streams of your own type: [`stream`]
#![no_std]
#![cfg_attr(docsrs, feature(doc_cfg))]
#![forbid(unsafe_code)]
#![warn(missing_docs)]
#![allow(clippy::int_plus_one, clippy::manual_is_multiple_of)]

#[doc(inline)]
pub use v5::{KomiBuildHasher, KomiHasher, Komirand, StreamedKomihash, komihash};

mod generator;
mod hash;
mod hasher;
#[cfg(feature = "std")]
mod io;
mod padding;
mod pending;
mod rounds;
pub mod stream;
mod traits;
mod utils;
pub mod v4;
pub mod v5;
pub mod version;
mod whole_words;
