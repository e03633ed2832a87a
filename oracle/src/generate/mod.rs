//! Generators of tape files, of lists of steps, of runs of windows and of texts. Each is determined by its mode, the seed and its number.

mod cuts;
mod damaged;
mod glued;
mod hostile;
mod limits;
mod links;
mod pool;
mod random;
mod rebuild;
mod rng;
mod shared;
mod small;
mod steps;
mod steps_edges;
mod structured;
mod text;

pub use cuts::Cuts;
pub use damaged::{Damaged, damaged};
pub use glued::glued;
pub use hostile::hostile;
pub use limits::limits;
pub use links::links;
pub use random::random;
pub use rebuild::rebuild;
pub use shared::shared;
pub use small::small;
pub use steps::steps;
pub use steps_edges::steps_edges;
pub use structured::structured;
pub use text::text;
