//! Schedules of a server of one process, whose data lies in memory or in a folder. Its control and the threads that own
//! connections run as they ship, but the schedule gives them their turns.
mod alone_world;
mod lone_process;
mod lone_shape;
mod opened_folder;

pub use alone_world::run_alone_by;
