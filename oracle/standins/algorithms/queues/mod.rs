//! Stand-in for the list of modules of `queues`.

mod auto_queue;
mod fifo_queue;
mod lifo_queue;
mod scc_queue;
mod shortest_first_queue;
mod state_order_queue;
mod top_order_queue;
mod trivial_queue;

pub use auto_queue::AutoQueue;
pub use fifo_queue::FifoQueue;
pub use lifo_queue::LifoQueue;
pub use scc_queue::SccQueue;
pub use shortest_first_queue::{natural_less, NaturalShortestFirstQueue, ShortestFirstQueue};
pub use state_order_queue::StateOrderQueue;
pub use top_order_queue::TopOrderQueue;
pub use trivial_queue::TrivialQueue;
