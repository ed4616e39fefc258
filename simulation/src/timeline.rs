//! The events of a schedule, as lines from top to bottom.
use crate::time::Time;
use std::fmt::Write;
use std::sync::{Arc, Mutex};

/// The place of an event.
#[derive(Clone, Copy, Debug, PartialEq, Eq)]
pub enum Column {
    Store,
    /// The process at this place.
    Process(usize),
}

impl Column {
    /// Returns the column's number, counted from the left.
    pub fn number(self) -> usize {
        match self {
            Column::Store => 0,
            Column::Process(place) => place + 1,
        }
    }
}

/// An event, with its column and its time.
#[derive(Clone, Debug)]
pub struct Event {
    pub milliseconds: u128,
    pub column: Column,
    pub text: String,
}

/// The events of one schedule, shared by all that note them. If nobody wants to see them, they aren't kept.
#[derive(Clone)]
pub struct Timeline {
    time: Time,
    events: Option<Arc<Mutex<Vec<Event>>>>,
}

/// The widths of a column, and of the column of times.
const WIDTH: usize = 24;
const TIMES: usize = 7;

impl Timeline {
    /// Returns a timeline with this clock. If `is_shown` holds, it keeps its events.
    pub fn new(time: Time, is_shown: bool) -> Timeline {
        Timeline {
            time,
            events: is_shown.then(Arc::default),
        }
    }

    /// Notes an event that happens now.
    pub fn note(&self, column: Column, text: impl FnOnce() -> String) {
        if let Some(events) = &self.events {
            let event = Event {
                milliseconds: self.time.passed().as_millis(),
                column,
                text: text(),
            };
            let mut events = events.lock().expect("no schedule goes on after a panic");
            events.push(event);
        }
    }

    /// Returns the events in their order. If they aren't kept, there are none.
    pub fn events(&self) -> Vec<Event> {
        let events = self.events.as_ref();
        events.map_or_else(Vec::new, |it| {
            it.lock()
                .expect("no schedule goes on after a panic")
                .clone()
        })
    }

    /// Draws the events, one in a line: the time in virtual milliseconds, and then the event in its column. `names` are
    /// the names of the processes' columns.
    pub fn drawn(&self, names: &[String]) -> String {
        let heads = ["store".to_owned()];
        let heads = heads.iter().chain(names).map(|it| format!("{it:WIDTH$}"));
        let heads: String = heads.collect();
        let mut text = format!("{:>TIMES$}  {}\n", "ms", heads.trim_end());
        let Some(events) = &self.events else {
            return text;
        };
        for it in events
            .lock()
            .expect("no schedule goes on after a panic")
            .iter()
        {
            let indent = WIDTH * it.column.number();
            let line = writeln!(
                text,
                "{:>TIMES$}  {:indent$}{}",
                it.milliseconds, "", it.text
            );
            line.expect("a text takes all that is written to it");
        }
        text
    }
}
