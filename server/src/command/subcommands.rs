use super::spec::TalkWord;
use super::Fault;
use crate::resp::{Command, Replies};

/// The subcommands of a command.
#[derive(Debug)]
pub struct Subcommands {
    /// The command's name.
    name: &'static str,
    /// Its operation without a subcommand, if there is one.
    alone: Option<&'static str>,
    all: &'static [Subcommand],
}

/// The form and the operation of a subcommand.
#[derive(Debug)]
struct Subcommand {
    word: &'static str,
    /// The number of its arguments, including both names. If it is negative, it takes at least so many.
    arity: i64,
    /// The arguments behind its name.
    form: &'static str,
    does: &'static str,
}

const fn one(word: &'static str, arity: i64, form: &'static str, does: &'static str) -> Subcommand {
    Subcommand {
        word,
        arity,
        form,
        does,
    }
}

const HELP: Subcommand = one("HELP", 2, "", "Prints this help.");

static ACL: Subcommands = Subcommands {
    name: "ACL",
    alone: None,
    all: &[
        one(
            "WHOAMI",
            2,
            "",
            "Return the role of the current connection.",
        ),
        HELP,
    ],
};

static CLIENT: Subcommands = Subcommands {
    name: "CLIENT",
    alone: None,
    all: &[
        one(
            "GETNAME",
            2,
            "",
            "Return the name of the current connection.",
        ),
        one("ID", 2, "", "Return the ID of the current connection."),
        one(
            "NO-EVICT",
            3,
            " (ON|OFF)",
            "Take the word, and change nothing.",
        ),
        one(
            "NO-TOUCH",
            3,
            " (ON|OFF)",
            "Take the word, and change nothing.",
        ),
        one(
            "SETINFO",
            4,
            " <option> <value>",
            "Take what the library says of itself, and keep nothing.",
        ),
        one(
            "SETNAME",
            3,
            " <name>",
            "Assign the name <name> to the current connection.",
        ),
        HELP,
    ],
};

static COMMAND: Subcommands = Subcommands {
    name: "COMMAND",
    alone: Some("Return details about all commands."),
    all: &[
        one(
            "COUNT",
            2,
            "",
            "Return the total number of commands in this server.",
        ),
        one(
            "DOCS",
            -2,
            " [<command-name> ...]",
            "Return nothing, as there are no such texts.",
        ),
        one(
            "INFO",
            -2,
            " [<command-name> ...]",
            "Return details about multiple commands.",
        ),
        one(
            "LIST",
            2,
            "",
            "Return a list of all commands in this server.",
        ),
        HELP,
    ],
};

static CONFIG: Subcommands = Subcommands {
    name: "CONFIG",
    alone: None,
    all: &[
        one(
            "GET",
            -3,
            " <pattern> [<pattern> ...]",
            "Return parameters matching the glob-like patterns and their values.",
        ),
        HELP,
    ],
};

impl Subcommands {
    /// Returns the subcommands of this command, if it has any.
    pub fn of(word: TalkWord) -> Option<&'static Subcommands> {
        match word {
            TalkWord::Acl => Some(&ACL),
            TalkWord::Client => Some(&CLIENT),
            TalkWord::Command => Some(&COMMAND),
            TalkWord::Config => Some(&CONFIG),
            TalkWord::Auth
            | TalkWord::DbSize
            | TalkWord::Echo
            | TalkWord::Hello
            | TalkWord::Info
            | TalkWord::Ping
            | TalkWord::Quit
            | TalkWord::Reset
            | TalkWord::Select
            | TalkWord::Time => None,
        }
    }

    /// Refuses a command whose subcommand doesn't exist, or takes another number of arguments.
    pub fn check(&self, command: Command<'_>) -> Result<(), Fault> {
        if command.len() == 1 && self.alone.is_some() {
            return Ok(());
        }
        let count = command.len() as i64;
        match self.all.iter().find(|it| command.is(1, it.word)) {
            None => Err(Fault::unknown_subcommand(self.name, command.get(1))),
            Some(it) if it.arity == count || it.arity < 0 && count >= -it.arity => Ok(()),
            Some(it) => {
                let name = format!("{}|{}", self.name, it.word);
                Err(Fault::wrong_arity(&name.to_ascii_lowercase()))
            }
        }
    }

    /// Writes how each subcommand is used, and what it does, as Redis does.
    pub fn help(&self, replies: &mut Replies) {
        let title = "<subcommand> [<arg> [value] [opt] ...]. Subcommands are:";
        let mut lines = vec![format!("{} {title}", self.name)];
        if let Some(does) = self.alone {
            lines.extend(["(no subcommand)".to_owned(), format!("    {does}")]);
        }
        for it in self.all {
            lines.push(format!("{}{}", it.word, it.form));
            lines.push(format!("    {}", it.does));
        }
        replies.array(lines.len());
        lines.iter().for_each(|it| replies.simple(it));
    }
}

#[cfg(test)]
mod tests {
    use super::*;
    use crate::resp::OwnedCommand;

    #[test]
    fn what_isnt_there_or_takes_other_arguments_is_refused() {
        let check = |words: &[&str]| CONFIG.check(OwnedCommand::of(words).command());
        assert!(check(&["CONFIG", "get", "a", "b"]).is_ok() && check(&["config", "HELP"]).is_ok());
        for (words, told) in [
            (
                &["CONFIG", "GET"][..],
                "ERR wrong number of arguments for 'config|get' command",
            ),
            (
                &["CONFIG", "help", "x"],
                "ERR wrong number of arguments for 'config|help' command",
            ),
            (
                &["CONFIG", "SET"],
                "ERR unknown subcommand 'SET'. Try CONFIG HELP.",
            ),
        ] {
            assert_eq!(check(words).unwrap_err().to_string(), told);
        }
        assert!(COMMAND
            .check(OwnedCommand::of(&["COMMAND"]).command())
            .is_ok());
    }
}
