//! A second implementation of the store, written from documents 01 and 02 and
//! their readings alone. Plainness goes before speed: each sentence is written down
//! as directly as it can be.

pub mod acts;
pub mod alter;
pub mod alterations;
pub mod bench;
pub mod book;
pub mod calls;
pub mod damage;
pub mod digest;
pub mod forge;
pub mod image;
pub mod images;
pub mod inspect;
pub mod ladder;
pub mod listing;
pub mod log;
pub mod map;
pub mod maker;
pub mod malform;
pub mod maps;
pub mod open;
pub mod outside;
pub mod place;
pub mod random;
pub mod readers;
pub mod reading;
pub mod reads;
pub mod record;
pub mod refusal;
pub mod reports;
pub mod scripts;
pub mod searches;
pub mod serve;
pub mod servers;
pub mod serves;
pub mod small;
pub mod smalls;
pub mod sound;
pub mod spots;
pub mod standing;
pub mod step;
pub mod tally;
pub mod words;
pub mod world;
