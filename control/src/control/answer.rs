use std::fmt::Display;

/// The control's answer to a command.
#[derive(Clone, Debug, PartialEq, Eq)]
pub enum ControlAnswer {
    /// It was done.
    Done,
    /// A line.
    Line(String),
    /// Several lines.
    Lines(Vec<String>),
}

impl ControlAnswer {
    /// Tells the destination of each shard.
    pub(super) fn of_moves(moves: impl IntoIterator<Item = (u16, u16)>) -> ControlAnswer {
        let lines = moves.into_iter().map(|(shard, to)| format!("{shard}>{to}"));
        ControlAnswer::Lines(lines.collect())
    }

    /// Tells each of these on its own line.
    pub(super) fn of_lines(lines: impl IntoIterator<Item = impl Display>) -> ControlAnswer {
        ControlAnswer::Lines(lines.into_iter().map(|it| it.to_string()).collect())
    }
}
