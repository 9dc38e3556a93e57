//! A survey on paper: what is drawn of it, how it is looked at, the paper, and
//! the picture as text.

pub mod look;
pub mod names;
pub mod paper;
pub mod picture;
pub mod scene;
pub mod svg;
