//! The channels that servers and clients wait on.

use std::sync::{Arc, Mutex, mpsc};

/// A kind of channels: inboxes of any length that several workers may take from, and places for one reply at a time.
pub trait Channels: Sync {
    type Sender<T: Send>: Clone + Send + Sync;
    type Receiver<T: Send>: Clone + Send;

    fn inbox<T: Send>() -> (Self::Sender<T>, Self::Receiver<T>);
    fn place<T: Send>() -> (Self::Sender<T>, Self::Receiver<T>);
    fn send<T: Send>(to: &Self::Sender<T>, message: T);
    /// The next message, or nothing once nobody can send one.
    fn receive<T: Send>(from: &Self::Receiver<T>) -> Option<T>;
}

/// Those of the standard library. Workers take turns at an inbox by a lock.
pub struct Std;

impl Channels for Std {
    type Sender<T: Send> = mpsc::Sender<T>;
    type Receiver<T: Send> = Arc<Mutex<mpsc::Receiver<T>>>;

    fn inbox<T: Send>() -> (Self::Sender<T>, Self::Receiver<T>) {
        let (sender, receiver) = mpsc::channel();
        (sender, Arc::new(Mutex::new(receiver)))
    }

    fn place<T: Send>() -> (Self::Sender<T>, Self::Receiver<T>) {
        Self::inbox()
    }

    fn send<T: Send>(to: &Self::Sender<T>, message: T) {
        to.send(message).ok().expect("a receiver");
    }

    fn receive<T: Send>(from: &Self::Receiver<T>) -> Option<T> {
        from.lock().unwrap().recv().ok()
    }
}

/// Those of crossbeam.
pub struct Crossbeam;

impl Channels for Crossbeam {
    type Sender<T: Send> = crossbeam_channel::Sender<T>;
    type Receiver<T: Send> = crossbeam_channel::Receiver<T>;

    fn inbox<T: Send>() -> (Self::Sender<T>, Self::Receiver<T>) {
        crossbeam_channel::unbounded()
    }

    fn place<T: Send>() -> (Self::Sender<T>, Self::Receiver<T>) {
        crossbeam_channel::bounded(1)
    }

    fn send<T: Send>(to: &Self::Sender<T>, message: T) {
        to.send(message).ok().expect("a receiver");
    }

    fn receive<T: Send>(from: &Self::Receiver<T>) -> Option<T> {
        from.recv().ok()
    }
}
