//! The messages between processes that have the links that ship: steps, commands for controls, and the answers to both.
mod host;
mod parcels;
mod reason;
mod reply;
mod shape;
mod step;
mod visiting_work;

pub use host::{Inbox, LinkedDestination, LinkedHost};
pub use parcels::{Parcel, Parcels, SpelledAnswer, SpelledStep};
pub use shape::LinkShape;
pub use step::LinkedStep;

use reason::SimulatedReason;
use reply::LinkedReply;
use visiting_work::VisitingWork;
