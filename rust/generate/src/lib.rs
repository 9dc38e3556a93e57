//! Survex 3d files, sheets and time lines for tests: good ones of every kind,
//! and damaged ones. The same seed gives the same bytes.

pub mod coder;
pub mod damage;
pub mod edges;
pub mod edits;
pub mod files;
pub mod heads;
pub mod origins;
pub mod record;
pub mod rng;
pub mod sheet_edges;
pub mod sheets;
pub mod stations;
pub mod surveys;
pub mod times;
pub mod valid;

pub use edits::{Edit, EditKind};
pub use files::Kind;
pub use rng::Rng;
pub use sheets::SheetKind;
