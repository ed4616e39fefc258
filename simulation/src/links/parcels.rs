use durkenzo_driver::{Begin, MapReply, MapRequest};
use std::sync::{Arc, Mutex};

/// A step as another process reads it.
#[derive(Clone)]
pub struct SpelledStep {
    pub begin: Begin,
    /// The number that makes the texts of its decisions its own, and how often it was decided before.
    pub text: u32,
    pub decided: u32,
}

/// The answer to a step, as another process reads it.
#[derive(Clone)]
pub struct SpelledAnswer {
    pub held: Vec<MapReply>,
    /// The requests of each decision.
    pub decided: Vec<Vec<MapRequest>>,
    pub replies: Vec<MapReply>,
}

/// The messages of processes to one another.
#[derive(Clone)]
pub enum Parcel {
    Step(SpelledStep),
    Answer(SpelledAnswer),
}

/// All messages so far. The bytes of a message are its place among them, and some padding, so that some frames are long
/// and others short.
#[derive(Clone, Default)]
pub struct Parcels(Arc<Mutex<Vec<Parcel>>>);

impl Parcels {
    /// Adds a message, and returns its bytes.
    pub fn spelled(&self, parcel: Parcel) -> Vec<u8> {
        let mut all = self.0.lock().expect("no schedule goes on after a panic");
        let place = all.len();
        all.push(parcel);
        let mut bytes = place.to_be_bytes().to_vec();
        bytes.resize(bytes.len() + place * 37 % 400, 0);
        bytes
    }

    /// Returns the message with these bytes.
    pub fn of(&self, bytes: &[u8]) -> Option<Parcel> {
        let place = usize::from_be_bytes(*bytes.first_chunk()?);
        let all = self.0.lock().expect("no schedule goes on after a panic");
        all.get(place).cloned()
    }
}
