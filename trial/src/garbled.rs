use std::fmt;

/// How many of them are kept, and how many characters of each.
const KEPT: usize = 5;
const SHOWN: usize = 200;

/// Replies that answer no request.
#[derive(Clone, Debug, Default)]
pub struct Garbled {
    /// How many there are.
    pub count: u64,
    /// The request and the reply, of the first of them.
    pub first: Vec<String>,
}

impl Garbled {
    /// Notes that this reply came to this request.
    pub fn note(&mut self, asked: &str, came: &str) {
        self.count += 1;
        let told = format!("{asked} was answered by {came}");
        self.first.push(told.chars().take(SHOWN).collect());
        self.first.truncate(KEPT);
    }

    /// Adds the replies of another client.
    pub(crate) fn take(&mut self, other: Garbled) {
        self.count += other.count;
        self.first.extend(other.first);
        self.first.truncate(KEPT);
    }
}

impl fmt::Display for Garbled {
    fn fmt(&self, f: &mut fmt::Formatter<'_>) -> fmt::Result {
        for it in &self.first {
            writeln!(f, "garbled: {it}")?;
        }
        match self.count {
            0 => Ok(()),
            count => writeln!(f, "{count} replies were garbled"),
        }
    }
}
