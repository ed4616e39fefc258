//! Schedules of the etcd client as it ships. The client asks the simulated etcd by the JSON of its gateway, byte for
//! byte. These schedules don't show how the processes of other schedules reach members, because those have routes of
//! their own.
mod calls;
mod client_environment;
mod client_law;
mod client_world;
mod gateway;
mod gateway_json;
mod record;

pub use client_world::run_clients_by;
