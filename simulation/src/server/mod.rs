//! The server's path of a command, as it ships: clients speak RESP to processes over simulated streams.
mod client_line;
mod expected;
mod history;
mod resp_client;
mod resp_clients;
mod resp_reply;
mod server_keys;
mod serving_thread;
mod simulated_server;

pub use client_line::SharedLine;
pub use resp_clients::RespClients;
pub use resp_reply::RespReply;
pub use server_keys::ServerKeys;
pub use serving_thread::{ServingThread, WokenInlet};
pub use simulated_server::{SimulatedServer, SimulatedServerShape};
