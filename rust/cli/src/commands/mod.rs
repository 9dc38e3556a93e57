//! The commands, a file each.

pub mod catalogue;
pub mod check;
pub mod convert;
pub mod diff;
pub mod edit;
pub mod entrances;
pub mod info;
pub mod later;
pub mod list;
pub mod measure;
pub mod plot;
pub mod restore;
pub mod salvage;
pub mod verify;
pub mod view;
