//! The words behind `SM`. Each row has a word's form, its meaning and the modes in which it exists.
use super::answer::ControlAnswer;
use super::controller::Controller;
use super::drain::Drain;
use super::migration::Migration;
use super::refusal_names::{ERRORS, NAMES};
use super::resized_settings::resized;
use super::restart::Restart;
use super::rolling_restart::Rolling;
use super::spread::Spread;
use super::task::{Task, TaskWork};
use super::{Asked, ControlHost, Refusal, ReplyTo, Words};
use durkenzo_driver::ControlCommand;

/// The result of a command's beginning.
pub(super) enum Begun {
    /// It is answered.
    Answer(ControlAnswer),
    /// It goes on by itself, and is answered at its end.
    Work(Box<TaskWork>),
}

impl From<TaskWork> for Begun {
    fn from(work: TaskWork) -> Begun {
        Begun::Work(Box::new(work))
    }
}

impl From<ControlAnswer> for Begun {
    fn from(answer: ControlAnswer) -> Begun {
        Begun::Answer(answer)
    }
}

type Begins = Result<Begun, Refusal>;

/// A word behind `SM`, in one of its forms.
#[derive(Clone, Copy)]
pub(super) struct SmWord {
    /// Its form, with a letter for each number.
    form: &'static str,
    help: &'static str,
    does: Does,
    there: There,
    /// Whether every role may send it, because it changes nothing, or is executed for the client.
    is_of_all: bool,
    /// Whether it exists only if clients send commands with keys.
    is_of_texts: bool,
}

/// The operation of a word, by its arguments.
#[derive(Clone, Copy)]
enum Does {
    /// It has no arguments.
    Bare(fn(&mut Controller) -> Begins),
    /// It has a number.
    Number(fn(&mut Controller, u16) -> Begins),
    /// It has two numbers.
    Pair(fn(&mut Controller, u16, u16) -> Begins),
    /// It has one word, of any bytes: the name of a file, or settings.
    Word(fn(&mut Controller, &[u8]) -> Begins),
    /// It may have a name.
    Name(fn(ControlMode, Option<&str>) -> Begins),
    /// It has a shard or a server, from which this command is made.
    Makes(fn(u16) -> ControlCommand),
    /// It has a shard and a server, from which this command is made.
    Changes(fn(u16, u16) -> ControlCommand),
    /// It has no arguments, and each process answers it itself, whoever leads.
    Here(fn(&dyn ControlHost, Box<dyn ReplyTo>)),
    /// It is done before it comes to the control.
    Before,
}

/// The modes in which a word exists.
#[derive(Clone, Copy)]
enum There {
    /// In all modes.
    Everywhere,
    /// In memory mode.
    Memory,
    /// If data outlives the process.
    Stores,
    /// In a cluster of several processes.
    Cluster,
    /// If one process runs all servers.
    OneProcess,
}

/// The mode of a control, on which the available words depend.
#[derive(Clone, Copy)]
pub(super) struct ControlMode {
    /// Whether data outlives the process.
    pub(super) lasts: bool,
    /// Whether this is one of several processes.
    pub(super) has_peers: bool,
    /// Whether clients send commands with keys.
    pub(super) serves_texts: bool,
}

impl SmWord {
    const fn new(form: &'static str, help: &'static str, does: Does) -> SmWord {
        SmWord {
            form,
            help,
            does,
            there: There::Everywhere,
            is_of_all: false,
            is_of_texts: false,
        }
    }

    const fn of_texts(self) -> SmWord {
        SmWord {
            is_of_texts: true,
            ..self
        }
    }

    const fn of_all(self) -> SmWord {
        SmWord {
            is_of_all: true,
            ..self
        }
    }

    const fn only(self, there: There) -> SmWord {
        SmWord { there, ..self }
    }

    /// Returns the word itself.
    fn name(&self) -> &'static str {
        self.form.split(' ').next().unwrap_or_default()
    }

    /// Returns whether a control of this mode knows the word, though it may refuse it.
    fn is_known(&self, mode: ControlMode) -> bool {
        mode.serves_texts || !self.is_of_texts
    }

    /// Returns whether the help lists the word. A server lists the words of all its modes, because it may be started
    /// in another one. A fleet has only one mode.
    fn is_listed(&self, mode: ControlMode) -> bool {
        mode.serves_texts || self.is_known(mode) && self.refusal(mode).is_none()
    }

    /// Returns whether the command is this word, in any case.
    fn names(&self, command: &Words) -> bool {
        command.is(1, self.name())
    }

    /// Returns whether the command has the arguments that the word takes.
    fn takes(&self, command: &Words) -> bool {
        match self.does {
            Does::Bare(_) | Does::Here(_) => command.len() == 2,
            Does::Number(_) | Does::Makes(_) => command.len() == 3 && command.number(2).is_some(),
            Does::Pair(_) | Does::Changes(_) => {
                command.len() == 4 && command.number(2).and(command.number(3)).is_some()
            }
            Does::Word(_) => command.len() == 3,
            Does::Name(_) => matches!(command.len(), 2 | 3),
            Does::Before => true,
        }
    }

    /// Returns why the word doesn't exist in this mode, if it doesn't.
    fn refusal(&self, mode: ControlMode) -> Option<Refusal> {
        match (self.there, mode.lasts, mode.has_peers) {
            (There::Everywhere, ..)
            | (There::Memory, false, _)
            | (There::Stores, true, _)
            | (There::Cluster, _, true)
            | (There::OneProcess, _, false) => None,
            (There::Memory, true, _) => Some(Refusal::not_durable(self.name())),
            (There::Stores, false, _) => {
                Some(Refusal::there_alone(self.name(), "with --data or --etcd"))
            }
            (There::Cluster, _, false) => Some(Refusal::there_alone(self.name(), "with --etcd")),
            (There::OneProcess, _, true) => Some(Refusal::one_by_one()),
        }
    }

    /// Begins the command, which must be in this word's form.
    fn begun(&self, control: &mut Controller, command: &Words) -> Begins {
        let number = |index| command.number(index).unwrap_or_default();
        match self.does {
            Does::Bare(begin) => begin(control),
            Does::Number(begin) => begin(control, number(2)),
            Does::Pair(begin) => begin(control, number(2), number(3)),
            Does::Makes(command) => control.make_asked(command(number(2))),
            Does::Changes(command) => control.make_asked(command(number(2), number(3))),
            Does::Word(begin) => begin(control, command.get(2)),
            Does::Name(begin) => {
                let name = String::from_utf8_lossy(command.get(2));
                begin(control.mode(), (command.len() > 2).then_some(&*name))
            }
            Does::Here(_) | Does::Before => Err(Refusal::usage(Some(self.form))),
        }
    }
}

/// All words.
#[rustfmt::skip]
const WORDS: [SmWord; 39] = [
    SmWord::new("SHARDS", "the stand of each shard, below the columns' names; other is its next or previous owner",
        Does::Bare(|it| Ok(ControlAnswer::Lines(it.host.shard_lines()).into()))).of_all(),
    SmWord::new("SERVERS", "the state of each server, below the columns' names: the shards that it owns, admissions, \
        and what a restart of it is doing; with --etcd also the number of its process, whether that leads, up to which \
        revision it follows records, and where processes and clients reach it",
        Does::Bare(|it| Ok(ControlAnswer::Lines(it.host.server_lines()).into()))).of_all(),
    SmWord::new("SETTINGS", "the server's configuration",
        Does::Bare(|it| Ok(ControlAnswer::Lines(it.host.settings_lines()).into()))).of_all(),
    SmWord::new("CONFIGURE", "with --etcd: the line of settings in force, and its number, which rises with each change",
        Does::Bare(configuration)).only(There::Cluster),
    SmWord::new("CONFIGURE LINE", "with --etcd: the line of settings LINE is in force from now on, for all processes: \
        servers that come or go, capacities, groups, domains and caps; shards and their bounds stay",
        Does::Word(configure)).only(There::Cluster),
    SmWord::new("RESIZE n", "with --etcd: servers are 1 to n from now on; new ones are set as the last one, and one \
        that goes must have stopped or failed, and have no shard", Does::Number(resize)).only(There::Cluster),
    SmWord::new("LOOK k", "the stand of shard k", Does::Number(look)).of_all(),
    SmWord::new("KEY key", "the number of the key's shard", Does::Before).of_all().of_texts(),
    SmWord::new("ASSIGN k a", "the vacant shard k gets the owner a", Does::Changes(ControlCommand::Assign)),
    SmWord::new("PREPARE_ADD k b", "a migration of shard k from its owner to server b begins",
        Does::Changes(ControlCommand::PrepareAddShard)),
    SmWord::new("PREPARE_DROP k", "the owner stops executing, and forwards requests to b, which executes only these",
        Does::Makes(ControlCommand::PrepareDropShard)),
    SmWord::new("ADD k", "b becomes the owner; the previous one still forwards", Does::Makes(ControlCommand::AddShard)),
    SmWord::new("DROP k", "the migration ends", Does::Makes(ControlCommand::DropShard)),
    SmWord::new("CANCEL k", "before ADD: the migration is given up", Does::Makes(ControlCommand::Cancel)),
    SmWord::new("PAUSE k", "nobody executes on shard k, and its requests wait", Does::Makes(ControlCommand::Pause)),
    SmWord::new("RESUME k", "the owner of the paused shard k executes again", Does::Makes(ControlCommand::Resume)),
    SmWord::new("REASSIGN k b", "the paused shard k gets the owner b", Does::Changes(ControlCommand::Reassign)),
    SmWord::new("MIGRATE k b", "moves shard k to server b by a whole migration, under load", Does::Pair(migrate)),
    SmWord::new("DRAIN a", "migrates all shards of server a, as the library plans; drains go one by one",
        Does::Number(|_, server| Ok(TaskWork::Drain(Drain::new(server, false)).into()))),
    SmWord::new("UNDRAIN a", "where data outlives the process: server a, which was drained, gets shards by itself \
        again; SPREAD does that for all servers", Does::Number(undrain)).only(There::Stores),
    SmWord::new("SPREAD", "migrates shards from servers that have many to those that have few", Does::Bare(spread)),
    SmWord::new("WEIGHTS", "the load of each shard, below the columns' names, by which --balance evens out servers: \
        requests a second, KiB in the store, and its weight of one, one for each request and one for each MiB",
        Does::Bare(weights)).only(There::Cluster).of_all(),
    SmWord::new("PLAN a", "where DRAIN a would move shards; nothing is moved", Does::Number(plan_of)),
    SmWord::new("PLAN", "where PLACE would put vacant shards; nothing is moved", Does::Bare(|it| plan(it, 0))),
    SmWord::new("PLACE", "gives each vacant shard an owner, as planned by the library",
        Does::Bare(|it| Ok(it.place()?.into()))),
    SmWord::new("ASK a", "asks for a restart of server a", Does::Makes(ControlCommand::Ask)),
    SmWord::new("APPROVE a", "approves it, within the caps; a takes no further shards",
        Does::Makes(ControlCommand::Approve)),
    SmWord::new("STOPPED a", "server a is stopped: no request reaches it, and no thread has a pass of it",
        Does::Makes(ControlCommand::Stopped)),
    SmWord::new("BACK a", "server a is up again", Does::Makes(ControlCommand::Back)),
    SmWord::new("FAIL a", "server a has failed: no request reaches it; refused while its process keeps a lease",
        Does::Makes(ControlCommand::Fail)),
    SmWord::new("RESTART a", "restarts server a: ASK, APPROVE, DRAIN, STOPPED, BACK, and its shards come home; with \
        --etcd you must end its process and start it again once it is stopped",
        Does::Number(|_, server| Ok(TaskWork::Restart(Restart::new(server)).into()))),
    SmWord::new("RESTART", "without --etcd: restarts all servers in turn",
        Does::Bare(|it| Ok(TaskWork::Rolling(Rolling::new(it.backend.servers())).into()))).only(There::OneProcess),
    SmWord::new("DUMP FILE", "writes all shards, with their stands and generations, into the file in --folder, in \
        place of an earlier dump of that name",
        Does::Word(|it, name| Ok(TaskWork::Dump(it.backend.dump(name)?).into()))).only(There::Memory),
    SmWord::new("LOAD FILE", "gives all shards the content and the stands of that file, in place of their own",
        Does::Word(load)).only(There::Memory),
    SmWord::new("ROUTES", "with --etcd: the latest record's revision, and for each shard its owner, and where clients \
        reach that",
        Does::Here(|host, reply_to| reply_to.send(Ok(ControlAnswer::Lines(host.route_lines())))))
        .only(There::Cluster).of_all(),
    SmWord::new("CALL c n COMMAND ..", "where data outlives the process: a write without reading, once for number n of \
        client c", Does::Before).only(There::Stores).of_all().of_texts(),
    SmWord::new("COMPACT", "with --data or --etcd: makes a base of each shard of this process, which frees room",
        Does::Here(|host, reply_to| host.compact(reply_to))).only(There::Stores).of_texts(),
    SmWord::new("AT a COMMAND ..", "sends a command with keys of one shard to server a, as a client with an old map \
        does", Does::Before).of_all().of_texts(),
    SmWord::new("HELP", "these lines; SM HELP x tells what the word or the name of a refusal x means",
        Does::Name(help)).of_all(),
];

/// Returns whether every role may send commands with this word, in each of its forms, because they change nothing, or
/// are executed for the client.
pub fn is_of_all(word: &[u8]) -> bool {
    let is_so = |it: &&SmWord| it.name().as_bytes().eq_ignore_ascii_case(word);
    let mut forms = WORDS.iter().filter(is_so).peekable();
    forms.peek().is_some() && forms.all(|it| it.is_of_all)
}

/// Returns the forms of the command's word that a control of this mode knows.
fn forms(command: &Words, mode: ControlMode) -> impl Iterator<Item = &'static SmWord> + '_ {
    let is_one = move |it: &&SmWord| it.names(command) && it.is_known(mode);
    WORDS.iter().filter(is_one)
}

/// Begins the command, or refuses it.
pub(super) fn begun(control: &mut Controller, command: &Words) -> Begins {
    let mode = control.mode();
    let Some(word) = forms(command, mode).find(|it| it.takes(command)) else {
        return Err(Refusal::usage(
            forms(command, mode).next().map(|it| it.form),
        ));
    };
    match word.refusal(mode) {
        Some(refusal) => Err(refusal),
        None => word.begun(control, command),
    }
}

/// Answers the command if each process answers it itself. Otherwise gives it back.
pub(super) fn answered_here(
    host: &dyn ControlHost,
    mode: ControlMode,
    asked: Asked,
) -> Option<Asked> {
    let words = &asked.words;
    let found = forms(words, mode).find_map(|it| match it.does {
        Does::Here(answer) => (it.takes(words) && it.refusal(mode).is_none()).then_some(answer),
        Does::Bare(_)
        | Does::Number(_)
        | Does::Pair(_)
        | Does::Word(_)
        | Does::Name(_)
        | Does::Makes(_)
        | Does::Changes(_)
        | Does::Before => None,
    });
    match found {
        Some(answer) => answer(host, asked.reply_to),
        None => return Some(asked),
    }
    None
}

fn look(control: &mut Controller, shard: u16) -> Begins {
    match control.host.shard_line(shard) {
        Some(line) => Ok(ControlAnswer::Line(line).into()),
        None => Err(durkenzo::UnknownShard.into()),
    }
}

fn configuration(control: &mut Controller) -> Begins {
    let (line, number) = control.backend.settings()?;
    Ok(ControlAnswer::Lines(vec![line, format!("number {number}")]).into())
}

fn configure(control: &mut Controller, line: &[u8]) -> Begins {
    if !control.host.follows_settings() {
        return Err(Refusal::settings_stay());
    }
    let line = std::str::from_utf8(line).map_err(|_| Refusal::not_text())?;
    control.resettle(line)?;
    Ok(ControlAnswer::Done.into())
}

fn resize(control: &mut Controller, servers: u16) -> Begins {
    let (line, _) = control.backend.settings()?;
    let line = resized(&line, servers).ok_or_else(|| Refusal::not_resized(servers))?;
    configure(control, line.as_bytes())
}

fn migrate(control: &mut Controller, shard: u16, server: u16) -> Begins {
    control.forget_homes_of([shard].into_iter())?;
    Ok(TaskWork::Migration(Migration::new(shard, server)).into())
}

fn spread(control: &mut Controller) -> Begins {
    control.undrain_all()?;
    Ok(TaskWork::Spread(Spread::default()).into())
}

/// Makes the server get shards by itself again. A drain of it must have ended.
fn undrain(control: &mut Controller, server: u16) -> Begins {
    if !(1..=control.backend.servers()).contains(&server) {
        return Err(Refusal::unknown_server());
    }
    if control.tasks.iter().any(|it| it.drains() == Some(server)) {
        return Err(Refusal::under_way());
    }
    control.undrain(server)?;
    Ok(ControlAnswer::Done.into())
}

/// Returns the load of each shard, as its owner told it last, and its weight.
fn weights(control: &mut Controller) -> Begins {
    control.read_loads()?;
    let mut lines = vec!["shard owner requests kibibytes weight".to_owned()];
    for shard in 0..control.backend.shards() {
        let owner = control.backend.record(shard)?.and_then(|it| it.owner());
        let owner = owner.map_or("-".to_owned(), |it| it.to_string());
        let load = control.loads.get(&shard).copied().unwrap_or_default();
        let (requests, kibibytes, weight) = (load.requests, load.kibibytes, load.weight());
        lines.push(format!("{shard} {owner} {requests} {kibibytes} {weight}"));
    }
    Ok(ControlAnswer::Lines(lines).into())
}

fn plan_of(control: &mut Controller, server: u16) -> Begins {
    match server {
        0 => Err(Refusal::unknown_server()),
        server => plan(control, server),
    }
}

/// Returns the destinations in the proved plan, of the vacant shards or of this server's shards. Nothing is moved.
fn plan(control: &mut Controller, server: u16) -> Begins {
    let plan = control.backend.plan(server)?;
    let moves = plan.moves.iter();
    let moves: String = moves
        .map(|it| format!(" {}>{}", it.shard, it.server))
        .collect();
    let left: String = plan.left.iter().map(|it| format!(" {it}")).collect();
    Ok(ControlAnswer::Line(format!("plan{moves} left{left}")).into())
}

/// Begins to load a dump, if no other work is under way except commands that are tried again.
fn load(control: &mut Controller, name: &[u8]) -> Begins {
    match control.tasks.iter().all(Task::is_command) {
        true => Ok(TaskWork::Load(control.backend.load(name)?).into()),
        false => Err(Refusal::under_way()),
    }
}

/// Returns all words of this mode, or the meaning of the word or the name.
fn help(mode: ControlMode, name: Option<&str>) -> Begins {
    let Some(name) = name else {
        return Ok(ControlAnswer::of_lines(listed(mode)).into());
    };
    match meanings(name) {
        told if told.is_empty() => Err(Refusal::no_meaning()),
        told => Ok(ControlAnswer::Lines(told).into()),
    }
}

/// Returns a line about each word that the help lists in this mode.
fn listed(mode: ControlMode) -> impl Iterator<Item = String> {
    let words = WORDS.iter().filter(move |it| it.is_listed(mode));
    words.map(|it| format!("SM {:<16} {}", it.form, it.help))
}

/// Returns the meanings of the word, in each of its forms, or of the name of a refusal or an error; nothing if it is
/// none of these.
fn meanings(asked: &str) -> Vec<String> {
    let is_asked = |it: &str| it.eq_ignore_ascii_case(asked);
    let words = WORDS.iter().filter(|it| is_asked(it.name()));
    let names = NAMES.iter().filter(|it| is_asked(it.0));
    let errors = ERRORS.iter().filter(|it| it.0.split(", ").any(is_asked));
    let words = words.map(|it| format!("SM {}: {}", it.form, it.help));
    let names = names.map(|(name, when, advice)| format!("{name}: {when}; try: {advice}"));
    let errors = errors.map(|(names, when)| format!("{names}: {}", when.replace('`', "")));
    words.chain(names).chain(errors).collect()
}

#[cfg(test)]
mod tests {
    use super::super::plain_backend::PlainBackend;
    use super::*;
    use durkenzo::Stand;
    use durkenzo_driver::ShardLoad;

    #[test]
    fn weights_are_by_the_loads_that_owners_told() {
        let backend = PlainBackend::of(3, Stand::Serving(1));
        backend.plain().stands[2] = Stand::Vacant;
        let load = ShardLoad {
            requests: 7,
            kibibytes: 2_048,
        };
        backend.plain().loads = vec![(1, 0, load), (2, 1, load)];
        let Ok(Begun::Answer(ControlAnswer::Lines(lines))) = weights(&mut backend.control()) else {
            panic!("it isn't answered");
        };
        let named = "shard owner requests kibibytes weight";
        assert_eq!(lines, [named, "0 1 7 2048 10", "1 1 0 0 1", "2 - 0 0 1"]);
    }

    #[test]
    fn words_and_names_have_a_meaning() {
        assert_eq!(meanings("look"), ["SM LOOK k: the stand of shard k"]);
        assert_eq!(meanings("RESTART").len(), 2);
        let told = "NotNow: a process hasn't read yet that the shard was taken, or a server hasn't acked the shard's \
                    record yet; try: try again; if that server is gone, SM FAIL a";
        assert_eq!(meanings("notnow"), [told]);
        let told = "NOEXPIRY: SET with EX or the like: keys don't expire";
        assert_eq!(meanings("NOEXPIRY"), [told]);
        assert!(meanings("peerdown")[0].starts_with("PEERDOWN: "));
        assert!(meanings("LOO").is_empty());
    }

    #[test]
    fn the_page_has_each_error_with_the_same_text() {
        let path = concat!(env!("CARGO_MANIFEST_DIR"), "/../docs/SERVER.md");
        let page = std::fs::read_to_string(path).unwrap();
        for (names, when) in ERRORS {
            let names: Vec<_> = names.split(", ").map(|it| format!("`{it}`")).collect();
            let row = format!("\n| {} | {when} |\n", names.join(", "));
            assert!(page.contains(&row), "docs/SERVER.md has no row {row}");
        }
    }

    #[test]
    fn a_fleet_lists_its_own_words_alone_and_a_server_those_of_all_modes() {
        let of = |lasts, has_peers, serves_texts| {
            let mode = ControlMode {
                lasts,
                has_peers,
                serves_texts,
            };
            listed(mode).collect::<Vec<_>>().join("\n")
        };
        let (fleet, server) = (of(true, true, false), of(false, false, true));
        for word in ["MIGRATE k b", "RESIZE n", "RESTART a", "ROUTES", "HELP"] {
            assert!(fleet.contains(&format!("SM {word}")), "{word}: {fleet}");
            assert!(server.contains(&format!("SM {word}")), "{word}: {server}");
        }
        for word in ["KEY", "CALL", "AT", "COMPACT", "DUMP", "LOAD", "RESTART "] {
            assert!(!fleet.contains(&format!("SM {word} ")), "{word}: {fleet}");
            assert!(server.contains(&format!("SM {word}")), "{word}: {server}");
        }
    }

    #[test]
    fn a_word_is_of_all_roles_only_if_each_of_its_forms_is() {
        assert!(is_of_all(b"shards") && is_of_all(b"LOOK"));
        assert!(!is_of_all(b"MIGRATE") && !is_of_all(b"CONFIGURE") && !is_of_all(b"no word"));
    }

    #[test]
    fn each_command_has_its_word() {
        for command in [
            ControlCommand::Assign(0, 0),
            ControlCommand::PrepareAddShard(0, 0),
            ControlCommand::PrepareDropShard(0),
            ControlCommand::AddShard(0),
            ControlCommand::DropShard(0),
            ControlCommand::Cancel(0),
            ControlCommand::Pause(0),
            ControlCommand::Resume(0),
            ControlCommand::Reassign(0, 0),
            ControlCommand::Ask(0),
            ControlCommand::Approve(0),
            ControlCommand::Stopped(0),
            ControlCommand::Back(0),
            ControlCommand::Fail(0),
        ] {
            assert!(!meanings(command.word()).is_empty(), "{command:?}");
        }
    }
}
