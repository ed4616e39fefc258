use super::answers::Answers;
use super::findings::VisitResult;
use super::join::Join;
use super::keyed_work::{keys_of_all, KeyedWork};
use super::keys_walk::KeysWalk;
use super::query::Query;
use super::shard_visit::ShardVisit;
use super::shard_walk::{Visit, Walk, Walker};
use super::stored_exec::StoredExec;
use crate::cluster::Cluster;
use crate::command::found_keys::FoundKeys;
use crate::command::spec::{Effect, Spec};
use crate::command::split::{Combine, Split};
use crate::command::transaction::MultiTransaction;
use crate::io::ReplyAddress;
use crate::resp::{OwnedCommand, Protocol};
use durkenzo_driver::{Durable, Numbered};
use std::collections::BTreeMap;
use std::sync::Arc;

/// The command for one key of several, with its row and the key's shard.
pub(super) type CommandPart = (u16, &'static Spec, OwnedCommand);

/// A connection's request to shards whose data outlives the process, in the client's version of the protocol.
#[derive(Debug)]
pub struct ShardRequest {
    protocol: Protocol,
    what: What,
}

#[derive(Debug)]
enum What {
    /// Commands with keys of this shard, one after another.
    Keyed(u16, Vec<(&'static Spec, OwnedCommand)>),
    /// A command with keys of this shard, which has a number that its client gave.
    Numbered(u16, Numbered, (&'static Spec, OwnedCommand)),
    /// One command with keys of several shards, each by itself.
    Each(&'static Spec, Split, Vec<CommandPart>),
    /// The commands of EXEC.
    Exec(u16, Box<MultiTransaction>),
    /// A walk over shards, one after another.
    Walk(Box<dyn Walk>),
    /// KEYS, which searches several shards at once.
    Keys(FoundKeys),
    /// The number of keys of all shards.
    Count,
}

impl ShardRequest {
    /// Makes the request of these commands, all of this shard.
    pub(in crate::command) fn keyed(
        protocol: Protocol,
        shard: u16,
        commands: Vec<(&'static Spec, OwnedCommand)>,
    ) -> ShardRequest {
        let what = What::Keyed(shard, commands);
        ShardRequest { protocol, what }
    }

    /// Makes the request of a command of this shard, which has a number that its client gave.
    pub(in crate::command) fn numbered(
        protocol: Protocol,
        shard: u16,
        numbered: Numbered,
        command: (&'static Spec, OwnedCommand),
    ) -> ShardRequest {
        let what = What::Numbered(shard, numbered, command);
        ShardRequest { protocol, what }
    }

    /// Makes the request of a command that is split: one command for each of its keys.
    pub(super) fn each(
        protocol: Protocol,
        (spec, split): (&'static Spec, Split),
        parts: Vec<CommandPart>,
    ) -> ShardRequest {
        let what = What::Each(spec, split, parts);
        ShardRequest { protocol, what }
    }

    /// Makes the request of EXEC, whose commands are all of this shard.
    pub(in crate::command) fn exec(
        protocol: Protocol,
        shard: u16,
        transaction: Box<MultiTransaction>,
    ) -> ShardRequest {
        let what = What::Exec(shard, transaction);
        ShardRequest { protocol, what }
    }

    /// Makes the request of a walk over shards, one after another.
    pub(super) fn walk(protocol: Protocol, walk: Box<dyn Walk>) -> ShardRequest {
        let what = What::Walk(walk);
        ShardRequest { protocol, what }
    }

    /// Makes the request of KEYS, for this search.
    pub(super) fn keys(protocol: Protocol, found: FoundKeys) -> ShardRequest {
        let what = What::Keys(found);
        ShardRequest { protocol, what }
    }

    /// Makes the request of the number of keys of all shards.
    pub(super) fn count(protocol: Protocol) -> ShardRequest {
        let what = What::Count;
        ShardRequest { protocol, what }
    }

    /// Submits the request, and has the answer sent to this address.
    pub fn submit(self, durable: &Durable, cluster: &Arc<Cluster>, reply_to: ReplyAddress) {
        let protocol = self.protocol;
        let in_order =
            |parts, reply_to| Answers::new(parts, parts as u64, protocol, Join::InOrder, reply_to);
        match self.what {
            What::Keyed(shard, commands) => {
                let answers = in_order(commands.len(), reply_to);
                let steps = commands.into_iter().enumerate();
                let steps =
                    steps.map(|(place, it)| KeyedWork::step(it, shard, answers.clone(), place));
                durable.submit(shard, steps.collect());
            }
            What::Numbered(shard, numbered, command) => {
                let answers = in_order(1, reply_to);
                submit_numbered(durable, shard, numbered, command, &answers);
            }
            What::Each(spec, split, parts) => {
                let join = Join::Each(split.joined, spec.effect);
                let answers = Answers::new(parts.len(), 1, protocol, join, reply_to);
                submit_each(durable, parts, &answers);
            }
            What::Exec(shard, transaction) => {
                // Each of its commands was counted when it was queued.
                let answers = in_order(1, reply_to);
                let keys = keys_of_all(transaction.data());
                let step = StoredExec::step(transaction, cluster.clone(), shard, keys, answers);
                durable.submit(shard, vec![step]);
            }
            What::Walk(walk) => Walker::new(walk, cluster, protocol, reply_to).go_on(),
            What::Keys(found) => {
                KeysWalk::new(found, durable.shards(), protocol, reply_to).go_on(cluster);
            }
            What::Count => count(durable, protocol, reply_to),
        }
    }
}

/// Has the shard do the numbered command, unless the command can't have a number.
fn submit_numbered(
    durable: &Durable,
    shard: u16,
    numbered: Numbered,
    command: (&'static Spec, OwnedCommand),
    answers: &Arc<Answers>,
) {
    match KeyedWork::numbered(numbered, command, shard, answers.clone()) {
        Ok(step) => durable.submit(shard, vec![step]),
        Err(fault) => {
            let mut refused = answers.part();
            refused.error(fault);
            answers.bring(0, refused);
        }
    }
}

/// Has each shard do its parts of a command. The parts of one shard are one run there, so they take only one client's
/// turn.
fn submit_each(durable: &Durable, parts: Vec<CommandPart>, answers: &Arc<Answers>) {
    let mut of_shards = BTreeMap::<_, Vec<_>>::new();
    for (place, (shard, part, command)) in parts.into_iter().enumerate() {
        let step = KeyedWork::step((part, command), shard, answers.clone(), place);
        of_shards.entry(shard).or_default().push(step);
    }
    for (shard, steps) in of_shards {
        durable.submit(shard, steps);
    }
}

/// Has each shard count its keys.
fn count(durable: &Durable, protocol: Protocol, reply_to: ReplyAddress) {
    let shards = durable.shards();
    let join = Join::Each(Combine::Sum, Effect::Reads);
    let answers = Answers::new(shards.into(), 1, protocol, join, reply_to);
    for shard in 0..shards {
        let (whose, answers) = ((answers.caller().clone(), protocol), answers.clone());
        let then = move |told: VisitResult| {
            let part = told.map_or_else(
                |refused| refused,
                |found| {
                    let mut part = answers.part();
                    part.count(found.count);
                    part
                },
            );
            answers.bring(shard.into(), part);
        };
        let step = ShardVisit::step(Visit::Query(Query::Count), shard, whose, Box::new(then));
        durable.submit(shard, vec![step]);
    }
}
