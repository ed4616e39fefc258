//! Draws a schedule as a picture. The store and each process have a column, and each event has a row.
use crate::law::Broken;
use crate::timeline::{Column, Event};
use std::fmt::Write;

/// How wide the times, a column and a letter are. How high a row is, and the space above the first row.
const TIMES: usize = 52;
const COLUMN: usize = 190;
const LETTER: usize = 6;
const ROW: usize = 12;
const HEAD: usize = 34;
/// How many letters of an event are shown. A browser shows the others when the pointer is on the event.
const LETTERS: usize = (COLUMN - 8) / LETTER;
/// How many rows a picture has at most. If a schedule is longer, only its last rows are drawn.
const MOST_ROWS: usize = 2_000;
/// The beginning of an event that is a fault.
const FAULT: &str = "! ";

const STYLE: &str = "text{font:10px monospace;fill:#222} .time{fill:#777} .head{font-weight:bold} .store{fill:#1c3a57} \
.fault{fill:#b00020;font-weight:bold} .paper{fill:#fff} .runs{fill:#e9f0f7} .line{stroke:#ddd} \
@media(prefers-color-scheme:dark){text{fill:#ddd} .time{fill:#999} .store{fill:#a9cbe8} .fault{fill:#ff6b81} \
.paper{fill:#161616} .runs{fill:#22303d} .line{stroke:#333}}";

/// A picture of a schedule.
pub struct Picture<'a> {
    /// The title above the picture.
    pub title: String,
    /// The names of the processes, by their places.
    pub names: &'a [String],
    pub events: &'a [Event],
    pub broken: Option<&'a Broken>,
}

impl Picture<'_> {
    /// Returns the picture as SVG.
    pub fn drawn(&self) -> String {
        let first = self.events.len().saturating_sub(MOST_ROWS);
        let (shown, rows) = (&self.events[first..], self.events.len() - first);
        let law = self.law();
        let (width, height) = (
            TIMES + COLUMN * (1 + self.names.len()),
            HEAD + ROW * (rows + law.len() + 2),
        );
        let mut svg = format!(
            "<svg xmlns=\"http://www.w3.org/2000/svg\" width=\"{width}\" height=\"{height}\">\n<style>{STYLE}</style>\n\
             <rect class=\"paper\" width=\"{width}\" height=\"{height}\"/>\n"
        );
        let is_cut = if first > 0 {
            format!(", without its first {first} events")
        } else {
            String::new()
        };
        svg += &text(4, 12, "head", &format!("{}{is_cut}", self.title));
        svg += &self.lives(shown);
        let heads = ["store".to_owned()];
        for (place, name) in heads.iter().chain(self.names).enumerate() {
            svg += &text(TIMES + COLUMN * place, HEAD - 8, "head", name);
        }
        let mut last = None;
        for (row, event) in shown.iter().enumerate() {
            let bottom = HEAD + ROW * (row + 1);
            if last.replace(event.milliseconds) != Some(event.milliseconds) {
                let top = bottom - ROW + 2;
                svg += &format!(
                    "<line class=\"line\" x1=\"0\" y1=\"{top}\" x2=\"{width}\" y2=\"{top}\"/>\n"
                );
                svg += &text(4, bottom, "time", &event.milliseconds.to_string());
            }
            svg += &drawn_event(event, bottom);
        }
        for (row, line) in law.iter().enumerate() {
            svg += &text(4, HEAD + ROW * (rows + row + 2), "fault", line);
        }
        svg + "</svg>\n"
    }

    /// Returns the lines about the law that was broken, or a line that says that none was.
    fn law(&self) -> Vec<String> {
        let Some(broken) = self.broken else {
            return vec!["all laws are kept".to_owned()];
        };
        let letters: Vec<char> = broken.by.chars().collect();
        let most = (TIMES + COLUMN * (1 + self.names.len())) / LETTER - 2;
        let head = format!("broken: {}", broken.law);
        let lines = letters.chunks(most).map(|it| it.iter().collect());
        [head].into_iter().chain(lines).collect()
    }

    /// Returns a bar for each life of a process.
    fn lives(&self, shown: &[Event]) -> String {
        let mut svg = String::new();
        for place in 0..self.names.len() {
            let is_own = |it: &&(usize, &Event)| it.1.column == Column::Process(place);
            let rows: Vec<_> = shown.iter().enumerate().collect();
            let mut since = None;
            for (row, event) in rows.iter().filter(is_own) {
                let is_gone = event.text == GONE;
                since = since.or(Some(*row));
                if let Some(since) = since.take_if(|_| is_gone) {
                    svg += &bar(place, since, *row);
                }
            }
            if let Some(since) = since {
                svg += &bar(place, since, shown.len().saturating_sub(1));
            }
        }
        svg
    }
}

/// The text of the event with which a process ends.
pub const GONE: &str = "is gone";

fn bar(place: usize, since: usize, until: usize) -> String {
    let (left, top) = (TIMES + COLUMN * (place + 1) - 4, HEAD + ROW * since + 3);
    let (width, height) = (COLUMN - 6, ROW * (until + 1 - since));
    format!(
        "<rect class=\"runs\" x=\"{left}\" y=\"{top}\" width=\"{width}\" height=\"{height}\"/>\n"
    )
}

fn drawn_event(event: &Event, bottom: usize) -> String {
    let (place, class) = match event.column {
        _ if event.text.starts_with(FAULT) => (event.column.number(), "fault"),
        Column::Store => (0, "store"),
        Column::Process(place) => (place + 1, "event"),
    };
    text(TIMES + COLUMN * place, bottom, class, &event.text)
}

/// Returns a text whose bottom is there. If an event is too long for its column, it is cut, and a browser shows all of
/// it when the pointer is on it.
fn text(left: usize, bottom: usize, class: &str, whole: &str) -> String {
    let is_long = matches!(class, "event" | "store") && whole.chars().count() > LETTERS;
    let shown: String = match is_long {
        true => whole.chars().take(LETTERS - 1).chain(['…']).collect(),
        false => whole.to_owned(),
    };
    let title = if is_long {
        format!("<title>{}</title>", escaped(whole))
    } else {
        String::new()
    };
    let mut svg = String::new();
    let written = writeln!(
        svg,
        "<text class=\"{class}\" x=\"{left}\" y=\"{bottom}\">{}{title}</text>",
        escaped(&shown)
    );
    written.expect("a text takes all that is written to it");
    svg
}

/// Returns the text as SVG spells it.
fn escaped(text: &str) -> String {
    text.replace('&', "&amp;")
        .replace('<', "&lt;")
        .replace('>', "&gt;")
}

#[cfg(test)]
mod tests {
    use super::*;

    fn event(milliseconds: u128, column: Column, text: &str) -> Event {
        Event {
            milliseconds,
            column,
            text: text.to_owned(),
        }
    }

    #[test]
    fn a_picture_has_each_event_and_the_law() {
        let long = "sees 7: record/1 & record/2 <record/3> record/4";
        let events = [
            event(1, Column::Process(0), "begins as process 1"),
            event(1, Column::Store, "3: leader"),
            event(9, Column::Process(1), long),
            event(9, Column::Process(0), "! crash 1"),
            event(9, Column::Process(0), GONE),
        ];
        let names = ["server 1", "server 2"].map(str::to_owned);
        let broken = Broken {
            law: "a law",
            by: "x".repeat(300),
        };
        let (title, broken) = ("seed 5".to_owned(), Some(&broken));
        let svg = Picture {
            title,
            names: &names,
            events: &events,
            broken,
        }
        .drawn();
        for wanted in [
            "seed 5",
            "server 2",
            "3: leader",
            "! crash 1",
            "broken: a law",
            "&amp; record/2 &lt;record/3&gt;",
        ] {
            assert!(svg.contains(wanted), "{wanted}: {svg}");
        }
        assert_eq!(svg.matches("class=\"runs\"").count(), 2);
        assert_eq!(svg.matches("class=\"line\"").count(), 2);
        assert_eq!(svg.matches("class=\"fault\"").count(), 1 + 1 + 3);
    }

    #[test]
    fn of_a_long_schedule_the_end_is_shown() {
        let events: Vec<_> = (0..3 * MOST_ROWS)
            .map(|it| event(it as u128, Column::Store, "made"))
            .collect();
        let (title, broken) = (String::new(), None);
        let svg = Picture {
            title,
            names: &[],
            events: &events,
            broken,
        }
        .drawn();
        assert_eq!(svg.matches("class=\"store\"").count(), MOST_ROWS);
        assert!(svg.contains("without its first 4000 events") && svg.contains("all laws are kept"));
    }
}
