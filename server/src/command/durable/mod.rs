//! Commands over data that outlives the process: the requests that each command makes of its shard, and how the
//! command's answer is made from the replies of the shard's proved servers.
mod answers;
mod blind_body;
mod findings;
mod flush;
mod join;
mod key_scan;
mod keyed_work;
mod keys_walk;
mod next_request;
mod overlay;
mod query;
mod range_scan;
mod shard_request;
mod shard_visit;
mod shard_walk;
mod spelled_request;
mod stored_exec;

pub(super) use next_request::next_request;
pub use shard_request::ShardRequest;
pub use spelled_request::{check_memory_of, is_numbered, step_of_spelled, table_of_spelled};
