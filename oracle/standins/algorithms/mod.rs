//! Stand-in for the list of modules of `algorithms`.

pub(crate) mod cmp_collections;
pub mod connect;
pub mod determinize;
pub mod dfs_visit;
mod never_called;
mod queue;
pub mod queues;
mod reverse;
mod shortest_distance;
mod shortest_path;
mod top_sort;
pub mod tr_filters;
pub mod visitors;

pub use connect::connect;
pub use never_called::*;
pub use queue::{Queue, QueueType};
pub use reverse::reverse;
pub use shortest_distance::{
    shortest_distance, shortest_distance_with_config, ShortestDistanceConfig,
};
pub use shortest_path::{shortest_path, shortest_path_with_config, ShortestPathConfig};
pub use top_sort::top_sort;
