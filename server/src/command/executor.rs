use super::cross_protocol;
use super::data;
use super::durable::next_request;
use super::reader::Reader;
use super::scan::Scanner;
use super::session::Session;
use super::spec::{shard_of, Spec, TalkWord, Word};
use super::split::SplitCommand;
use super::step::{Keyed, Step};
use super::stop::Stop;
use super::talk;
use super::unanswered::Unanswered;
use super::Fault;
use crate::admission::Admission;
use crate::body::BoxedBody;
use crate::cluster::Cluster;
use crate::keyspace::Keyspace;
use crate::memory::{self, CEILING};
use crate::resp::{number, Arguments, Command, Oversized, OwnedCommand, Replies, Unparsed};
use crate::wait::{NotAdmitted, Wait};
use std::ops::ControlFlow::{self, Break, Continue};
use std::sync::Arc;
use std::time::Instant;

/// After this many bytes that are written and not sent, no further command is done.
const MOST_UNSENT: usize = 1 << 20;
/// The most commands that are done under one permit, so that others get their turn on the shard.
const MOST_OF_A_PERMIT: u64 = 128;
/// How much memory must be free for a command of the control: this much, and more for the line of each shard.
const LEAST_OF_CONTROL: usize = 64 << 10;
const MOST_OF_LINE: usize = 512;

/// Executes a thread's commands.
#[derive(Debug)]
pub struct Executor {
    cluster: Arc<Cluster>,
    admission: Admission,
    keyspace: Keyspace,
    arguments: Arguments,
    /// Whether data outlives the process.
    is_durable: bool,
}

impl Executor {
    /// Makes the executor of a thread with this admission.
    pub fn new(cluster: Arc<Cluster>, admission: Admission, keyspace: Keyspace) -> Executor {
        let is_durable = !admission.has_passes();
        Executor {
            cluster,
            admission,
            keyspace,
            arguments: Arguments::default(),
            is_durable,
        }
    }

    /// Returns this moment by the clock of the process.
    pub fn now(&self) -> Instant {
        self.cluster.now()
    }

    /// Returns the thread's admission.
    pub fn admission(&mut self) -> &mut Admission {
        &mut self.admission
    }

    /// Does the commands at the front of the input until one can't be done. Returns how many bytes are done with, and
    /// why it stopped there.
    pub fn run(
        &mut self,
        session: &mut Session,
        input: &[u8],
        replies: &mut Replies,
    ) -> (usize, Stop) {
        let mut arguments = std::mem::take(&mut self.arguments);
        let mut reader = Reader::new(input, &mut arguments);
        // The next command's row and the shard of its keys, if they are known already.
        let mut next = None;
        let stop = loop {
            let is_full = replies.unsent().len() >= session.most_unsent(MOST_UNSENT);
            if is_full || !replies.has_room_for_one() {
                break Stop::Full;
            }
            match self.turn(next, session, &mut reader, replies) {
                Continue(found) => next = found,
                Break(stop) => break stop,
            }
        };
        let done = reader.at();
        self.arguments = arguments;
        (done, stop)
    }

    /// Refuses the command at the front of the input, which has waited in vain. Returns the length of the command in
    /// bytes.
    pub fn refuse(
        &mut self,
        session: &mut Session,
        input: &[u8],
        wait: Wait,
        replies: &mut Replies,
    ) -> usize {
        let mut reader = Reader::new(input, &mut self.arguments);
        let named = reader.peek().ok().and_then(|it| Spec::named(it.get(0)));
        if named.is_some_and(Spec::is_exec) {
            session.transaction = None;
        }
        reader.advance();
        match in_part(named, session) {
            Some(fault) => replies.error(fault),
            None => replies.error(wait),
        }
        self.admission.stats().refused.add(1);
        self.admission.stats().commands.add(1);
        reader.at()
    }

    /// Refuses a command that was too large, after it was read to its end.
    pub fn refuse_oversized(
        &mut self,
        session: &mut Session,
        why: Oversized,
        replies: &mut Replies,
    ) {
        session.refuse(why.into(), replies);
        self.admission.stats().commands.add(1);
    }

    /// Does the next command. If it is already known that it has keys of one shard, `next` says so. Returns the same of
    /// the command behind it, if it looked at that.
    #[inline]
    fn turn(
        &mut self,
        next: Option<Keyed>,
        session: &mut Session,
        reader: &mut Reader<'_>,
        replies: &mut Replies,
    ) -> ControlFlow<Stop, Option<Keyed>> {
        let keyed = match next {
            Some(keyed) => Some(keyed),
            None => self.step(session, reader, replies)?,
        };
        match keyed {
            Some(keyed) => self.data(keyed, session, reader, replies),
            None => Continue(None),
        }
    }

    /// Does the next command, unless it has keys of one shard: then it returns its row and that shard.
    fn step(
        &mut self,
        session: &mut Session,
        reader: &mut Reader<'_>,
        replies: &mut Replies,
    ) -> ControlFlow<Stop, Option<Keyed>> {
        if self.is_durable && self.next_request(session, reader, replies)? {
            return Continue(None);
        }
        let command = match reader.peek() {
            Ok(command) => command,
            Err(Unparsed::Incomplete(needs)) => return Break(Stop::Incomplete(needs)),
            Err(Unparsed::Oversized(why)) => return Break(Stop::Oversized(why)),
            Err(Unparsed::Malformed(fault)) => {
                replies.error(format_args!("ERR {fault}"));
                return Break(Stop::End);
            }
        };
        if command.is_empty() {
            reader.advance();
            return Continue(None);
        }
        let mark = replies.mark();
        let done = match Step::of(session, command, &self.keyspace) {
            Ok(Step::Data(keyed)) => return Continue(Some(keyed)),
            Ok(Step::Each(spec)) => self.each(spec, command, session, replies),
            Ok(Step::Other(spec)) => self.other(spec.word, command, session, replies),
            Ok(Step::Queue(shard)) => session.queue(command, shard, replies).map_err(Into::into),
            Err(fault) => Err(fault.into()),
        };
        let whole = replies.are_whole().map_err(Fault::from);
        let done = whole.map_err(Into::into).and(done);
        // If the turn or the connection ends, the command was answered before.
        if !matches!(done, Ok(()) | Err(Unanswered::Long | Unanswered::End)) {
            replies.take_back(mark);
        }
        self.settle(done, session, reader, replies)?;
        Continue(None)
    }

    /// Stops if the next commands ask something of shards whose data outlives the process. Returns whether the next
    /// command is refused.
    fn next_request(
        &self,
        session: &mut Session,
        reader: &mut Reader<'_>,
        replies: &mut Replies,
    ) -> ControlFlow<Stop, bool> {
        let over = (&self.keyspace, &self.cluster.cursors);
        match next_request(reader, session, over, replies.protocol) {
            Ok(Some(request)) => Break(Stop::Durable(request)),
            Ok(None) => Continue(false),
            Err(fault) => {
                self.settle(Err(fault.into()), session, reader, replies)?;
                Continue(true)
            }
        }
    }

    /// Advances behind a command that was done or refused. A command that waits stays.
    fn settle(
        &self,
        done: Result<(), Unanswered>,
        session: &mut Session,
        reader: &mut Reader<'_>,
        replies: &mut Replies,
    ) -> ControlFlow<Stop> {
        let stop = match done {
            Ok(()) => None,
            Err(Unanswered::Wait(wait)) => return Break(Stop::Wait(wait)),
            Err(Unanswered::PutOff(wait)) => return Break(Stop::PutOff(wait)),
            Err(Unanswered::Long) => Some(Stop::Full),
            Err(Unanswered::End) => Some(Stop::End),
            Err(Unanswered::Control) => reader
                .peek()
                .ok()
                .map(|it| Stop::Control(OwnedCommand::new(it))),
            // A web page gets no answer, and the rest of its input isn't done.
            Err(Unanswered::Fault(Fault::UnknownCommand(..)))
                if reader.peek().is_ok_and(cross_protocol::is_of_web) =>
            {
                cross_protocol::warn(session.id);
                Some(Stop::End)
            }
            Err(Unanswered::Fault(fault)) => {
                // Much was read in vain, so others have their turn first.
                let is_long = matches!(fault, Fault::ReplyTooLarge | Fault::ManyKeys);
                let named = reader.peek().ok().and_then(|it| Spec::named(it.get(0)));
                let fault = in_part(named, session).unwrap_or(fault);
                session.refuse(fault, replies);
                is_long.then_some(Stop::Full)
            }
        };
        reader.advance();
        self.admission.stats().commands.add(1);
        stop.map_or(Continue(()), Break)
    }

    /// Does the next command, and those behind it as long as they are of the same shard, under one permit. Returns the
    /// row and shard of the command behind them, if it looked at that.
    fn data(
        &mut self,
        (mut spec, shard): Keyed,
        session: &mut Session,
        reader: &mut Reader<'_>,
        replies: &mut Replies,
    ) -> ControlFlow<Stop, Option<Keyed>> {
        let (keyspace, mut count) = (&self.keyspace, 0);
        let errors = replies.error_count();
        let done = self.admission.admit(shard, |body| loop {
            if let Ok(command) = reader.peek() {
                data::answer(spec, command, body.as_mut(), replies);
            }
            reader.advance();
            count += 1;
            let is_full = replies.unsent().len() >= MOST_UNSENT || !replies.has_room_for_one();
            if count == MOST_OF_A_PERMIT || is_full {
                break None;
            }
            let next = reader.peek().ok();
            match next.and_then(|it| Step::keyed(session, it, keyspace)) {
                Some((next, other)) if other == shard => spec = next,
                next => break next,
            }
        });
        self.admission.stats().commands.add(count);
        match done {
            Ok(next) => {
                let errors = replies.error_count() - errors;
                self.admission.note_done(count, errors);
                Continue(next)
            }
            Err(refused) => {
                self.settle(Err(refused.into()), session, reader, replies)?;
                Continue(None)
            }
        }
    }

    /// Does the keys of the command one by one, each under its own permit. If a key waits, those before it stay done;
    /// but their values are read anew.
    fn each(
        &mut self,
        spec: &'static Spec,
        command: Command<'_>,
        session: &mut Session,
        replies: &mut Replies,
    ) -> Result<(), Unanswered> {
        let (mark, mut progress) = (replies.mark(), std::mem::take(&mut session.progress));
        let split = SplitCommand::new(spec, command)?;
        split.begin(replies)?;
        while let Some(key) = split.next_key(progress) {
            let next =
                |body: &mut BoxedBody| split.execute_next(body.as_mut(), &mut progress, replies);
            match self.admission.admit(self.keyspace.shard_of(key), next) {
                Ok(done) => {
                    self.admission.note_done(1, u64::from(done.is_err()));
                    done.map_err(|it| match split.has_written(progress) {
                        true => Fault::InPart,
                        false => it,
                    })?;
                }
                Err(NotAdmitted::Wait(wait)) => {
                    session.progress = split.kept(progress);
                    return Err(Unanswered::Wait(wait));
                }
                Err(NotAdmitted::Refused(_)) if split.has_written(progress) => {
                    return Err(Fault::InPart.into());
                }
                Err(refused) => return Err(refused.into()),
            }
            if replies.is_too_large(mark) {
                return Err(Fault::ReplyTooLarge.into());
            }
        }
        split.end(progress, replies);
        Ok(())
    }

    fn other(
        &mut self,
        word: Word,
        command: Command<'_>,
        session: &mut Session,
        replies: &mut Replies,
    ) -> Result<(), Unanswered> {
        match (word, &session.transaction) {
            (Word::Talk(word), _) => {
                self.may_guess(word, command, session)?;
                return talk::answer(word, command, session, &self.cluster, replies);
            }
            (Word::Multi, None) => session.transaction = Some(Box::default()),
            (Word::Multi, Some(_)) => return Err(Fault::NestedMulti.into()),
            (Word::Exec, _) => return self.exec(session, replies),
            (Word::Discard, Some(_)) => session.transaction = None,
            (Word::Discard, None) => return Err(Fault::NoMulti("DISCARD").into()),
            (
                Word::Control
                | Word::Scan
                | Word::ScanRange
                | Word::Keys
                | Word::Flush
                | Word::Data(_),
                Some(_),
            ) => return Err(Fault::NotQueued.into()),
            (Word::Control, None) => return self.control(command, replies),
            (Word::Scan, None) => {
                self.scanner().scan(command, session.cursors(), replies)?;
                return Err(Unanswered::Long);
            }
            (Word::ScanRange, None) => {
                self.scanner().scan_range(command, replies)?;
                return Err(Unanswered::Long);
            }
            (Word::Keys, None) => {
                self.scanner().keys(command, replies)?;
                return Err(Unanswered::Long);
            }
            (Word::Flush, None) => {
                self.scanner().flush(command, &mut session.progress)?;
                replies.ok();
                return Err(Unanswered::Long);
            }
            (Word::Data(_), None) => return Err(Fault::BadKey.into()),
        }
        replies.ok();
        Ok(())
    }

    /// Puts off a command that gives a password, if wrong passwords were given before it.
    fn may_guess(
        &self,
        word: TalkWord,
        command: Command<'_>,
        session: &mut Session,
    ) -> Result<(), Unanswered> {
        if !talk::gives_password(word, command) || session.may_guess {
            return Ok(());
        }
        let wait = session.wait_of_guess(&self.cluster.guesses, self.now());
        session.may_guess = wait.is_zero();
        match session.may_guess {
            true => Ok(()),
            false => Err(Unanswered::PutOff(wait)),
        }
    }

    fn scanner(&mut self) -> Scanner<'_> {
        Scanner::new(&mut self.admission, &self.keyspace, &self.cluster.cursors)
    }

    /// Does the commands that ask a server, or for a key's shard. All others go to the control.
    fn control(&mut self, command: Command<'_>, replies: &mut Replies) -> Result<(), Unanswered> {
        if command.is(1, "AT") && command.len() > 3 {
            return self.at_server(command, replies);
        }
        if command.is(1, "KEY") && command.len() == 3 {
            let shard = shard_of(command.get(2), &self.keyspace).map_err(Fault::from)?;
            replies.number(shard.into());
            return Ok(());
        }
        if command.is(1, "LOAD") && CEILING.is_passed() {
            return Err(Fault::MaxMemory.into());
        }
        // The control's answer about all shards may be long.
        let lines = MOST_OF_LINE * usize::from(self.cluster.shards());
        let most = LEAST_OF_CONTROL + lines + command.size();
        memory::has_room(most).map_err(Fault::from)?;
        Err(Unanswered::Control)
    }

    /// Does the command behind `SM AT server` at that server, as for a client that has this route.
    fn at_server(&mut self, command: Command<'_>, replies: &mut Replies) -> Result<(), Unanswered> {
        let server = number::parse(command.get(2))
            .and_then(|it| u16::try_from(it).ok())
            .filter(|it| self.cluster.presence.state(*it).is_some())
            .ok_or(Fault::UnknownServer)?;
        let inner = command.from(3);
        let spec = Spec::of(inner)?;
        spec.check_memory()?;
        let shards = spec.shards(inner, &self.keyspace).map_err(Fault::from)?;
        let Some(shard) = shards.one()? else {
            return Err(Fault::NoKeys.into());
        };
        let errors = replies.error_count();
        let execute = |body: &mut BoxedBody| data::answer(spec, inner, body.as_mut(), replies);
        self.admission.admit_as(server, shard, execute)?;
        let errors = replies.error_count() - errors;
        self.admission.note_done(1, errors);
        Ok(())
    }

    /// Does the commands of the transaction under one permit. If it waits, the transaction stays.
    fn exec(&mut self, session: &mut Session, replies: &mut Replies) -> Result<(), Unanswered> {
        let Some(transaction) = session.transaction.take() else {
            return Err(Fault::NoMulti("EXEC").into());
        };
        if transaction.is_aborted() {
            return Err(Fault::Aborted.into());
        }
        // A change must be answered truly, so there must be room for the answer.
        let kept = replies.keep_room(transaction.len() as usize);
        kept.map_err(Fault::from)?;
        let cluster = &self.cluster;
        let Some(shard) = transaction.shard() else {
            transaction.execute(None, session, cluster, replies);
            return Ok(());
        };
        let errors = replies.error_count();
        let done = self.admission.admit(shard, |body| {
            transaction.execute(Some(body.as_mut()), session, cluster, replies);
        });
        replies.owe(0);
        match done {
            Ok(()) => {
                let errors = replies.error_count() - errors;
                self.admission.note_done(transaction.len(), errors);
            }
            Err(NotAdmitted::Wait(_)) => session.transaction = Some(transaction),
            Err(NotAdmitted::Refused(_)) => {}
        }
        Ok(done?)
    }
}

/// Returns the refusal of the session's next command, which is of this row, if the command is refused after it has
/// waited. Returns nothing if nothing has changed. The command behind it begins anew.
fn in_part(named: Option<&Spec>, session: &mut Session) -> Option<Fault> {
    let progress = std::mem::take(&mut session.progress);
    named.and_then(|it| it.in_part(progress))
}

#[cfg(test)]
mod tests {
    use super::*;
    use crate::chance::Chance;
    use crate::command::found_keys::MOST_FOUND;
    use crate::command::spec::Keys;
    use crate::command::table::COMMANDS;
    use crate::command::MOST_OF_A_STRANGER;
    use crate::configuration::Configuration;
    use crate::keyspace::Rule;
    use crate::resp::MAX_REPLY;
    use crate::settings::MAX_CEILING;
    use crate::stats::Stats;
    use durkenzo::{ServerId, ShardId};

    /// Returns a cluster of two servers, the first of which owns both shards, and a thread's executor there.
    fn begun() -> (Arc<Cluster>, Executor) {
        begun_below(MAX_CEILING)
    }

    fn shard_id(number: u16) -> ShardId {
        ShardId::new(number).unwrap()
    }

    /// Does the same, with generations below this one.
    fn begun_below(ceiling: u64) -> (Arc<Cluster>, Executor) {
        let rule = Rule::Bounds(vec![Vec::new(), b"m".to_vec()]);
        let keyspace = Keyspace::new(&rule).unwrap();
        let configuration = Configuration {
            servers: 2,
            ceiling,
            ..Configuration::new(rule)
        };
        let cluster = Arc::new(Cluster::in_memory(configuration).unwrap());
        for shard in cluster.board().shards() {
            let control = cluster.board().control();
            control.assign(shard, ServerId::FIRST).unwrap();
        }
        let admission = Admission::new(cluster.clone(), Arc::new(Stats::new(2))).unwrap();
        let executor = Executor::new(cluster.clone(), admission, keyspace);
        (cluster, executor)
    }

    /// Does commands in as many turns as they take. Returns how many bytes are done with, and why it stopped there.
    fn done(
        executor: &mut Executor,
        session: &mut Session,
        bytes: &[u8],
        replies: &mut Replies,
    ) -> (usize, Stop) {
        let mut at = 0;
        loop {
            let (more, stop) = executor.run(session, &bytes[at..], replies);
            at += more;
            if more == 0 || !matches!(stop, Stop::Full) {
                return (at, stop);
            }
        }
    }

    /// Returns the answers to lines, and why it stopped.
    fn told(executor: &mut Executor, session: &mut Session, lines: &str) -> (String, Stop) {
        let mut replies = Replies::default();
        let (_, stop) = done(executor, session, lines.as_bytes(), &mut replies);
        let text = String::from_utf8_lossy(replies.unsent()).replace("\r\n", " ");
        (text.trim_end().to_owned(), stop)
    }

    fn answers(executor: &mut Executor, lines: &str) -> String {
        told(executor, &mut Session::new(1, true), lines).0
    }

    #[test]
    fn pipelines_are_answered_in_order() {
        let (_, mut executor) = begun();
        let lines = "SET a 1\nSET z 2\nINCR a\nPING\nGET z\nGET nothing\nNOSUCH\nMGET a b\n";
        assert_eq!(
            answers(&mut executor, lines),
            "+OK +OK :2 +PONG $1 2 $-1 \
             -ERR unknown command 'NOSUCH', with args beginning with:  *2 $1 2 $-1"
        );
        assert_eq!(executor.admission.stats().commands.get(), 8);
    }

    #[test]
    fn a_transaction_is_of_one_shard() {
        let (_, mut executor) = begun();
        let lines = "MULTI\nSET a 1\nINCR a\nPING\nINCR a x\nEXEC\nMULTI\nINCR a\nINCR b\nEXEC\n";
        assert_eq!(
            answers(&mut executor, lines),
            "+OK +QUEUED +QUEUED +QUEUED -ERR wrong number of arguments for 'incr' command \
             -EXECABORT Transaction discarded because of previous errors. \
             +OK +QUEUED +QUEUED *2 :1 :1"
        );
        let crossing = answers(&mut executor, "MULTI\nINCR a\nINCR z\nEXEC\nGET a\n");
        assert!(
            crossing.contains("-CROSSSHARD") && crossing.ends_with("$1 1"),
            "{crossing}"
        );
    }

    #[test]
    fn a_reply_of_exec_that_is_full_has_each_write_made_and_told() {
        let (_, mut executor) = begun();
        let mut session = Session::new(1, true);
        let mut told = |lines: &str| told(&mut executor, &mut session, lines).0;
        told(&format!("SET a {}\nSET f 1\n", "x".repeat(60_000)));
        let refused = "-TOOLARGE a reply has at most 8388608 bytes";
        // Among so many commands, some have no room.
        told(&format!("MULTI\n{}", "GET a\n".repeat(200)));
        told("INCR b\nSET c 1\nSET d 1 NX\nSET e 1 GET\nGET f\nCLIENT ID\nDEL f\n");
        told("SETRANGE h 1 x\nINCRBYFLOAT i 1\nGETDEL c\n");
        let text = told("EXEC\n");
        let behind =
            format!("{refused} :1 +OK +OK {refused} {refused} :1 :1 :2 {refused} {refused}");
        assert!(text.starts_with("*210 $60000 ") && text.ends_with(&behind));
        assert_eq!(text.matches(refused).count(), 200 - 139 + 4);
        assert_eq!(told("MGET b c d e f i\n"), "*6 $1 1 $1 1 $1 1 $-1 $-1 $-1");
        // A command that is too large by itself takes no room from others.
        told(&format!(
            "MULTI\nMGET{}\nGET b\nSET b 2 GET\n",
            " a".repeat(200)
        ));
        assert_eq!(told("EXEC\n"), format!("*3 {refused} $1 1 $1 1"));
        assert_eq!(told("GET b\n"), "$1 2");
    }

    #[test]
    fn no_command_passes_the_bound_of_a_reply_of_exec() {
        for spec in COMMANDS.iter().filter(|it| it.is_queued()) {
            let (_, mut executor) = begun();
            let mut session = Session::new(1, true);
            let set = format!("SET a {}\n", "x".repeat(60_000));
            told(&mut executor, &mut session, &set);
            // If a command takes any number of keys, it has as many as make its answer large, but not too large.
            let arguments = match (spec.keys, spec.arity) {
                (Keys::All, ..=0) => 100,
                (_, arity) => arity.unsigned_abs() as usize - 1,
            };
            let line = format!("{}{}\n", spec.name, " a".repeat(arguments));
            told(
                &mut executor,
                &mut session,
                &format!("MULTI\n{}", line.repeat(200)),
            );
            let mut replies = Replies::default();
            done(&mut executor, &mut session, b"EXEC\n", &mut replies);
            let most = MAX_REPLY + 200 * 100;
            assert!(replies.unsent().len() < most, "{}", spec.name);
        }
    }

    #[test]
    fn keys_are_counted_as_they_are_within_a_transaction() {
        let (_, mut executor) = begun();
        let lines = "SET z 1\nMULTI\nDBSIZE\nMSET a 1 b 2\nDBSIZE\nDEL a\nDBSIZE\nINFO keyspace\nEXEC\nDBSIZE\n";
        let text = answers(&mut executor, lines);
        let behind = "*6 :1 +OK :3 :1 :2 $";
        assert!(
            text.contains(behind) && text.contains("db0:keys=2,"),
            "{text}"
        );
        assert!(text.ends_with(" :2"), "{text}");
    }

    #[test]
    fn who_is_let_in_within_a_transaction_is_so_at_its_end() {
        let (_, mut executor) = begun();
        let lines = "MULTI\nAUTH x\nHELLO 3\nGET a\nEXEC\nGET a\nMULTI\nRESET\nEXEC\n";
        let text = answers(&mut executor, lines);
        assert!(text.starts_with("+OK +QUEUED +QUEUED +QUEUED *3 -ERR AUTH <password> called"));
        assert!(
            text.ends_with("*0 _ _ +OK +RESET -ERR EXEC without MULTI"),
            "{text}"
        );
    }

    #[test]
    fn a_transaction_is_refused_as_by_redis() {
        let (_, mut executor) = begun();
        for (lines, told) in [
            (
                "MULTI\nINCR a\nMULTI\nINCR a\nEXEC\n",
                "+OK +QUEUED -ERR MULTI calls can not be nested +QUEUED *2 :1 :2",
            ),
            (
                "MULTI\nMSET a 7 b\nINCR a\nEXEC\nMSET a 7 b\n",
                "+OK +QUEUED +QUEUED *2 -ERR wrong number of arguments for 'mset' command :3 \
                 -ERR wrong number of arguments for 'mset' command",
            ),
            (
                "MULTI\nMSET a\nEXEC\n",
                "+OK -ERR wrong number of arguments for 'mset' command \
                 -EXECABORT Transaction discarded because of previous errors.",
            ),
        ] {
            assert_eq!(answers(&mut executor, lines), told);
        }
    }

    #[test]
    fn what_a_scan_says_first_is_refused_first() {
        let (_, mut executor) = begun();
        for (line, told) in [
            ("SCAN x COUNT 0\n", "-ERR invalid cursor"),
            ("SCAN 99 COUNT 0\n", "-ERR syntax error"),
            ("SCAN 0 COUNT 0 COUNT 5\n", "-ERR syntax error"),
            ("SCAN 0 COUNT 0 COUNT x\n", "-ERR syntax error"),
            ("SCAN 0 COUNT 5 COUNT 1\n", "*2 $1 0 *0"),
        ] {
            assert_eq!(answers(&mut executor, line), told, "{line}");
        }
    }

    #[test]
    fn what_goes_over_shards_ends_a_turn() {
        let (_, mut executor) = begun();
        let mut session = Session::new(1, true);
        for line in ["SCAN 0 COUNT 1000 MATCH zz*\n", "SCANRANGE a z 9\n"] {
            let lines = format!("SET a 1\n{}PING\n", line.repeat(9));
            let (mut at, mut turns) = (0, 0);
            while at < lines.len() {
                let mut replies = Replies::default();
                let rest = &lines.as_bytes()[at..];
                at += executor.run(&mut session, rest, &mut replies).0;
                turns += 1;
                let text = String::from_utf8_lossy(replies.unsent());
                assert_eq!(
                    text.matches("*2\r\n").count(),
                    usize::from(turns < 10),
                    "{text}"
                );
            }
            assert_eq!(turns, 10);
        }
    }

    #[test]
    fn who_asks_for_too_many_keys_ends_a_turn() {
        let (_, mut executor) = begun();
        let mut session = Session::new(1, true);
        let lines: String = (0..=MOST_FOUND)
            .map(|it| format!("SET a{it} 1\n"))
            .collect();
        told(&mut executor, &mut session, &lines);
        let mut replies = Replies::default();
        let (done, stop) = executor.run(&mut session, b"KEYS *\nKEYS *\n", &mut replies);
        assert!(done == 7 && matches!(stop, Stop::Full), "{stop:?}");
        assert!(replies.unsent().starts_with(b"-TOOLARGE KEYS"));
    }

    #[test]
    fn many_scans_leave_the_cursors_of_others_known() {
        let (_, mut executor) = begun();
        let (mut one, mut other) = (Session::new(1, true), Session::new(2, true));
        let lines = "MSET a 1 b 2\nSCAN 0 COUNT 1\n";
        let (text, _) = told(&mut executor, &mut one, lines);
        let words: Vec<&str> = text.split(' ').collect();
        assert_eq!(words[4..], ["*1", "$1", "a"]);
        let first: u64 = words[3].parse().unwrap();
        told(&mut executor, &mut other, &"SCAN 0 COUNT 1\n".repeat(5_000));
        let again = format!("SCAN {first} COUNT 1\n");
        let (text, _) = told(&mut executor, &mut one, &again);
        let behind = format!(" {} *1 $1 b", first + 5_001);
        assert!(text.ends_with(&behind), "{text}");
        let (text, _) = told(&mut executor, &mut other, &again);
        assert_eq!(text, "-ERR invalid cursor");
    }

    #[test]
    fn keys_of_several_shards_are_done_one_by_one() {
        let (cluster, mut executor) = begun();
        let lines =
            "MSET a 1 z 2\nMGET a z no\nEXISTS a z no a\nDEL a no\nMULTI\nMGET a z\nDISCARD\n";
        let told_all = answers(&mut executor, lines);
        assert!(
            told_all.starts_with("+OK *3 $1 1 $1 2 $-1 :3 :1 +OK -CROSSSHARD"),
            "{told_all}"
        );
        let mut session = Session::new(1, true);
        answers(&mut executor, "MSET a 1 z 2\n");
        cluster.board().control().pause(shard_id(1)).unwrap();
        let (text, stop) = told(&mut executor, &mut session, "DEL a z\n");
        assert!(text.is_empty() && matches!(stop, Stop::Wait(_)), "{text}");
        let (text, _) = told(
            &mut executor,
            &mut Session::new(2, true),
            "EXISTS a\nSET a 2\n",
        );
        assert_eq!(text, ":0 +OK");
        cluster.board().control().resume(shard_id(1)).unwrap();
        assert_eq!(told(&mut executor, &mut session, "DEL a z\n").0, ":2");
        cluster.board().control().pause(shard_id(1)).unwrap();
        for (line, answer) in [
            ("MSET z 1 a 1\n", "-SHARDPAUSED"),
            ("MSET a 3 z 1\n", "-UNKNOWN some of these keys"),
            ("DEL a z\n", "-UNKNOWN some of these keys"),
            ("EXISTS a z\n", "-SHARDPAUSED"),
            ("DEL a z\n", "-SHARDPAUSED"),
        ] {
            told(&mut executor, &mut session, line);
            let mut replies = Replies::default();
            executor.refuse(&mut session, line.as_bytes(), Wait::Paused(1), &mut replies);
            assert!(replies.unsent().starts_with(answer.as_bytes()), "{line}");
        }
        cluster.board().control().resume(shard_id(1)).unwrap();
        answers(&mut executor, "SET a 2\n");
        assert_eq!(answers(&mut executor, "MGET a z\n"), "*2 $1 2 $-1");
    }

    #[test]
    fn what_is_refused_after_it_waited_leaves_nothing_to_the_next_command() {
        let (cluster, mut executor) = begun();
        for (lines, why) in [
            ("MSET a 1 z 2\n", "-UNKNOWN some of these keys"),
            ("FLUSHDB\n", "-UNKNOWN some keys are deleted"),
            ("DEL none z\n", "-NOAUTH"),
        ] {
            answers(&mut executor, "MSET a 1 z 2\n");
            cluster.board().control().pause(shard_id(1)).unwrap();
            let mut session = Session::new(1, true);
            let (text, stop) = told(&mut executor, &mut session, lines);
            assert!(text.is_empty() && matches!(stop, Stop::Wait(_)), "{text}");
            cluster.board().control().resume(shard_id(1)).unwrap();
            session.is_known = false;
            let (text, _) = told(&mut executor, &mut session, lines);
            assert!(text.starts_with(why), "{text}");
            session.is_known = true;
            answers(&mut executor, "MSET a 1 z 2\n");
            let (text, _) = told(&mut executor, &mut session, "FLUSHDB\nKEYS *\n");
            assert_eq!(text, "+OK *0", "{lines}");
        }
    }

    #[test]
    fn all_keys_are_listed_and_deleted() {
        let (cluster, mut executor) = begun();
        answers(&mut executor, "MSET a 1 b text z 2\n");
        for (lines, told) in [
            ("KEYS *\n", "*3 $1 a $1 b $1 z"),
            ("KEYS [az]\nKEYS nothing\n", "*2 $1 a $1 z *0"),
            ("FLUSHDB NOW\nDBSIZE\n", "-ERR syntax error :3"),
            (
                "MULTI\nFLUSHDB\nEXEC\n",
                "+OK -ERR Command not allowed inside a transaction \
                 -EXECABORT Transaction discarded because of previous errors.",
            ),
            ("FLUSHDB\nDBSIZE\nMGET a b z\n", "+OK :0 *3 $-1 $-1 $-1"),
            ("INCR a\nFLUSHDB async\nKEYS *\n", ":1 +OK *0"),
        ] {
            assert_eq!(answers(&mut executor, lines), told, "{lines}");
        }
        // It goes on at the key where it waited. A shard before that keeps the value that was written meanwhile.
        answers(&mut executor, "MSET a 1 z 2\n");
        cluster.board().control().pause(shard_id(1)).unwrap();
        let mut session = Session::new(1, true);
        let (text, stop) = told(&mut executor, &mut session, "FLUSHDB\n");
        assert!(text.is_empty() && matches!(stop, Stop::Wait(_)), "{text}");
        assert_eq!(answers(&mut executor, "GET a\nSET b 1\n"), "$-1 +OK");
        cluster.board().control().resume(shard_id(1)).unwrap();
        let (text, _) = told(&mut executor, &mut session, "FLUSHDB\n");
        assert_eq!(text, "+OK");
        assert_eq!(answers(&mut executor, "KEYS *\n"), "*1 $1 b");
        for (shard, answer) in [(1, "-UNKNOWN some keys are deleted"), (0, "-SHARDPAUSED")] {
            cluster.board().control().pause(shard_id(shard)).unwrap();
            told(&mut executor, &mut session, "FLUSHDB\n");
            let mut replies = Replies::default();
            executor.refuse(
                &mut session,
                b"FLUSHDB\n",
                Wait::Paused(shard),
                &mut replies,
            );
            assert!(replies.unsent().starts_with(answer.as_bytes()), "{shard}");
            cluster.board().control().resume(shard_id(shard)).unwrap();
        }
    }

    #[test]
    fn each_phase_of_a_migration_is_served() {
        let (cluster, mut executor) = begun();
        let control = cluster.board().control();
        assert_eq!(answers(&mut executor, "INCR a\n"), ":1");
        control
            .prepare_add_shard(shard_id(0), ServerId::new(2).unwrap())
            .unwrap();
        assert_eq!(answers(&mut executor, "INCR a\n"), ":2");
        control.prepare_drop_shard(shard_id(0)).unwrap();
        assert_eq!(answers(&mut executor, "INCR a\nINCR a\n"), ":3 :4");
        assert_eq!(executor.admission.stats().forwarded.get(), 1);
        control.add_shard(shard_id(0)).unwrap();
        assert_eq!(answers(&mut executor, "INCR a\n"), ":5");
        control.drop_shard(shard_id(0)).unwrap();
        assert_eq!(answers(&mut executor, "INCR a\nINCR z\n"), ":6 :1");
        let refused = answers(&mut executor, "SM AT 1 INCR a\nSM AT 2 INCR a\n");
        assert!(
            refused.starts_with("-REFUSED NotExecutor") && refused.ends_with(":7"),
            "{refused}"
        );
    }

    #[test]
    fn a_command_waits_where_its_shard_is_paused() {
        let (cluster, mut executor) = begun();
        let mut session = Session::new(1, true);
        let control = cluster.board().control();
        control.pause(shard_id(0)).unwrap();
        let (text, stop) = told(&mut executor, &mut session, "INCR z\nINCR a\nINCR z\n");
        assert!(
            text == ":1" && matches!(stop, Stop::Wait(Wait::Paused(0))),
            "{stop:?}"
        );
        let (text, stop) = told(&mut executor, &mut session, "MULTI\nINCR a\nEXEC\n");
        assert!(
            text == "+OK +QUEUED" && matches!(stop, Stop::Wait(_)),
            "{text}"
        );
        control.resume(shard_id(0)).unwrap();
        assert_eq!(told(&mut executor, &mut session, "EXEC\n").0, "*1 :1");
        control.pause(shard_id(0)).unwrap();
        let mut replies = Replies::default();
        let wait = Wait::Paused(0);
        let done = executor.refuse(&mut session, b"INCR a\nPING\n", wait, &mut replies);
        assert!(done == 7 && replies.unsent().starts_with(b"-SHARDPAUSED"));
    }

    #[test]
    fn who_quits_is_answered_and_no_more_is_done() {
        let (_, mut executor) = begun();
        for lines in ["PING\nQUIT\nPING\n", "PING\nQUIT now\nPING\n"] {
            let (text, stop) = told(&mut executor, &mut Session::new(1, false), lines);
            assert_eq!(text, "-NOAUTH Authentication required. +OK");
            assert!(matches!(stop, Stop::End), "{stop:?}");
        }
    }

    #[test]
    fn who_gave_no_password_has_few_bytes_of_answers() {
        let (_, mut executor) = begun();
        let lines = "GET a\n".repeat(MOST_OF_A_STRANGER);
        let (mut session, mut replies) = (Session::new(1, false), Replies::default());
        let (done, stop) = executor.run(&mut session, lines.as_bytes(), &mut replies);
        let held = replies.unsent().len();
        assert!(
            matches!(stop, Stop::Full) && held >= MOST_OF_A_STRANGER,
            "{stop:?}"
        );
        assert!(held < MOST_OF_A_STRANGER + 100, "{held} bytes");
        let rest = &lines.as_bytes()[done..];
        assert_eq!(executor.run(&mut session, rest, &mut replies).0, 0);
        session.is_known = true;
        assert_eq!(executor.run(&mut session, rest, &mut replies).0, rest.len());
    }

    #[test]
    fn a_line_of_http_ends_the_connection_without_an_answer() {
        let (_, mut executor) = begun();
        for (lines, answer) in [
            ("POST / HTTP/1.1\nSET a 1\n", ""),
            ("PING\nhost: x\nSET a 1\n", "+PONG"),
            ("MULTI\nINCR b\nHost: x\nEXEC\n", "+OK +QUEUED"),
        ] {
            let (text, stop) = told(&mut executor, &mut Session::new(1, true), lines);
            assert_eq!(text, answer);
            assert!(matches!(stop, Stop::End), "{stop:?}");
        }
        let (text, _) = told(&mut executor, &mut Session::new(1, false), "post\nPING\n");
        assert_eq!(text, "");
        let asked = "EXISTS a b\nPOSTS\nSM AT 1 POST\nPING\n";
        let text = answers(&mut executor, asked);
        assert!(text.starts_with(":0 -ERR unknown") && text.ends_with("+PONG"));
    }

    #[test]
    fn who_may_not_control_looks_alone() {
        let (_, mut executor) = begun();
        let mut session = Session::new(1, true);
        session.may_control = false;
        let lines = "SM PAUSE 0\nsm at 1 get a\nsm key z\nMULTI\nSM DROP 0\nEXEC\nSM LOOK 0\n";
        let (text, stop) = told(&mut executor, &mut session, lines);
        assert_eq!(
            text,
            "-NOPERM this user has no permissions to run the 'sm|pause' command $-1 :1 \
             +OK -NOPERM this user has no permissions to run the 'sm|drop' command \
             -EXECABORT Transaction discarded because of previous errors."
        );
        assert!(matches!(stop, Stop::Control(_)), "{stop:?}");
    }

    #[test]
    fn a_command_waits_where_another_thread_has_its_shard() {
        let (cluster, mut executor) = begun();
        let mut other = Admission::new(cluster, Arc::new(Stats::new(2))).unwrap();
        let (mut session, mut replies) = (Session::new(1, true), Replies::default());
        other
            .admit(0, |_| {
                let (text, stop) = told(&mut executor, &mut session, "INCR z\nINCR a\n");
                assert!(
                    text == ":1" && matches!(stop, Stop::Wait(Wait::Busy(0))),
                    "{stop:?}"
                );
                executor.refuse(&mut session, b"INCR a\n", Wait::Busy(0), &mut replies);
            })
            .unwrap();
        assert_eq!(
            replies.unsent(),
            b"-SHARDBUSY shard 0 was with others all the time: try again\r\n"
        );
        assert_eq!(told(&mut executor, &mut session, "INCR a\n").0, ":1");
    }

    #[test]
    fn a_shard_whose_generations_are_spent_is_refused_by_name() {
        let (_, mut executor) = begun_below(6);
        assert_eq!(
            answers(&mut executor, "INCR a\nINCR a\nPING\nINCR a\n"),
            ":1 :2 +PONG :3"
        );
        let refused = answers(&mut executor, "INCR a\nINCR z\n");
        assert_eq!(
            refused,
            "-REFUSED Spent: the shard's generations are spent; try: start anew with a greater ceiling :1"
        );
    }

    #[test]
    fn long_patterns_are_refused() {
        let (_, mut executor) = begun();
        for (front, found) in [
            ("SCAN 0 MATCH", "*2 $1 0 *0"),
            ("CONFIG GET save", "*2 $4 save $0"),
        ] {
            let mut told =
                |length: usize| answers(&mut executor, &format!("{front} {:x<length$}\n", "*["));
            assert_eq!(told(1_024), found);
            assert_eq!(told(1_025), "-TOOLONG a pattern has at most 1024 bytes");
        }
    }

    /// Returns commands of all kinds, good ones and bad ones.
    fn some_commands(chance: &mut Chance) -> Vec<u8> {
        let lines = [
            "GET a",
            "SET a 1",
            "SET z hello",
            "INCR a",
            "INCR z",
            "APPEND a 2",
            "MGET a b",
            "MGET a z",
            "PING",
            "MULTI",
            "EXEC",
            "DISCARD",
            "SCAN 0",
            "SCANRANGE a z 9",
            "DBSIZE",
            "SM AT 1 GET a",
            "SM AT 2 GET a",
            "NOSUCH",
            "GET",
            "ECHO \"two words\"",
            "",
            "HELLO 3",
            "HELLO 2",
            "CLIENT ID",
            "RESET",
            "DEL a z",
            "MSET a 1 b 2",
        ];
        let mut bytes = Vec::new();
        for _ in 0..200 {
            bytes.extend_from_slice(chance.one(&lines).as_bytes());
            bytes.extend_from_slice(b"\r\n");
            let text = chance.bytes(30);
            bytes.extend(format!("*3\r\n$3\r\nSET\r\n$1\r\nb\r\n${}\r\n", text.len()).bytes());
            bytes.extend(text);
            bytes.extend_from_slice(b"\r\n");
        }
        bytes
    }

    #[test]
    fn commands_in_pieces_are_answered_as_whole_ones() {
        let mut chance = Chance::new(6_364_136_223_846_793_005);
        for _ in 0..20 {
            let bytes = some_commands(&mut chance);
            let (mut whole, mut pieces) = (Replies::default(), Replies::default());
            let (mut one, mut two) = (Session::new(1, true), Session::new(1, true));
            done(&mut begun().1, &mut one, &bytes, &mut whole);
            let (_, mut executor) = begun();
            let (mut at, mut end) = (0, 0);
            while end < bytes.len() {
                end = (end + 1 + chance.below(40)).min(bytes.len());
                at += done(&mut executor, &mut two, &bytes[at..end], &mut pieces).0;
            }
            assert_eq!(at, bytes.len());
            assert!(whole.unsent() == pieces.unsent());
        }
    }
}
