//! A simple second frame coder, and the comparison of another program with it.
//!
//! [`stages`] has the plain stages, each with [`stages::Stage::code`] and
//! [`stages::Stage::decode`] over plain lists; [`chain`] puts stages together and [`chains`] makes
//! the two of a frame. [`sending`] and [`receiving`] move whole frames. [`session`] answers lines of
//! text; [`compare`] drives another program.

pub mod calls;
pub mod chain;
pub mod chains;
pub mod compare;
pub mod packing;
pub mod protocol;
pub mod range;
pub mod receiving;
pub mod recording;
pub mod refusal;
pub mod rows;
pub mod sending;
pub mod session;
pub mod settings;
pub mod size;
pub mod stages;
