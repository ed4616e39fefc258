//! Schedules of the store in a folder. The store runs as it ships, but without its thread. SQLite works on files in
//! memory, which fail by chance. A model knows each content that the store may have. By that it judges the store's
//! answers, through kills and losses of power.
mod disk_failure;
mod disk_file;
mod disk_rates;
mod folder_state;
mod folder_world;
mod model;
mod mounted_disk;
mod open_file;
mod simulated_disk;
mod sqlite_files;

pub use disk_rates::DiskRates;
pub use folder_world::run_folder_by;
pub use mounted_disk::MountedDisk;
pub use simulated_disk::{locked, SimulatedDisk};
