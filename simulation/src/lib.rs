//! Runs processes, clients and a store in random schedules, on one thread. Only the schedule moves the clock.
//!
//! The processes are those that ship: the shards, the member and the control of `durkenzo_driver`, with the proved
//! servers in them. Some schedules also have the control of `durkenzo_control`, which operators ask. In half of the
//! schedules the processes talk over the links of `durkenzo_control`, by a simulated network. Processes crash and
//! forget everything, learn late of records, lose their leases, and go on. The store is an etcd whose members hang,
//! lag, are gone, or have no room. Each machine has its own clock. Transactions arrive late, twice or never, and their
//! senders may never learn the outcome.
//!
//! The simulator reads the values in the store and the claims of clients by its own code, and checks them. Other parts
//! of each seed run the client of etcd that ships, the processes and clients of a fleet, and the store in a folder.
//!
//! One seed is one run, and each fault has a name. If a run breaks a law, it is shrunk to the fewest faults that still
//! break the law.
#![deny(unsafe_code)]

mod alone;
mod beginning;
pub mod bug;
pub mod chance;
pub mod claim;
mod client;
mod command;
mod command_mail;
mod control_shape;
mod decoded_settings;
pub mod etcd;
pub mod etcd_client;
pub mod fault;
mod fault_counts;
pub mod faults;
mod fleet;
mod flight;
mod flights;
pub mod folder;
mod key;
pub mod law;
mod ledger;
mod line;
mod links;
mod machine_clock;
mod mail;
mod network;
mod operator;
mod operator_command;
mod operator_reply;
pub mod part;
pub mod picture;
pub mod plan;
mod process;
pub mod reading;
mod server;
pub mod shrink;
mod simulated_host;
mod simulated_peers;
mod simulated_store;
mod spoilt;
pub mod tally;
mod tasks;
mod time;
pub mod timeline;
mod told;
mod troubles;
mod watches;
pub mod world;
