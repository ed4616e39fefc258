//! The commands that each process answers itself, whoever leads.
use super::Refusal;
use crate::cluster::Cluster;
use crate::works::Peers;
use durkenzo_control::control::{ControlAnswer, ReplyTo};
use durkenzo_driver::CompactFault;
use durkenzo_store::Revision;
use std::fmt::Display;
use std::sync::mpsc::channel;
use std::sync::Arc;
use std::thread;

/// Returns the owner of each shard, and the address at which clients reach it; before them the revision of the latest
/// of these records.
pub(super) fn routes(cluster: &Cluster, peers: &Peers) -> Vec<String> {
    let (members, mut revision) = (peers.member().members(), Revision::NEVER);
    let mut lines = vec![String::new()];
    for shard in 0..cluster.shards() {
        let standing = cluster.storage.durable().and_then(|it| it.standing(shard));
        let owner = standing.as_ref().and_then(|it| it.record()?.owner());
        revision = revision.max(standing.map_or(Revision::NEVER, |it| it.revision()));
        let live = owner.and_then(|it| members.get(&it));
        let address = live.map_or("-", |it| &*it.addresses.clients);
        lines.push(format!("{shard} {} {address}", owner.unwrap_or(0)));
    }
    lines[0] = format!("revision {revision}");
    lines
}

/// Makes room in a thread of its own, because that takes long.
pub(super) fn compact(cluster: &Arc<Cluster>, reply_to: Box<dyn ReplyTo>) {
    let (cluster, (give, given)) = (cluster.clone(), channel::<Box<dyn ReplyTo>>());
    let told = |error: &dyn Display| Refusal::new("StoreDown", format!("{error}"), "try again");
    let compacting = move || {
        // The address is sent to the thread once it runs, because a thread that can't be started would take it along.
        if let Ok(reply_to) = given.recv() {
            let durable = cluster.storage.durable();
            let done = durable.map_or(Ok(()), |it| it.compact());
            let done = done.map_err(|fault| match fault {
                CompactFault::Store(error) => told(&error),
                CompactFault::NoBase(_) => {
                    let advice = "if the disk is full make room, as by DEL, and then this again";
                    Refusal::new("NoBase", fault.to_string(), advice)
                }
            });
            reply_to.send(done.map(|()| ControlAnswer::Done));
        }
    };
    let thread = thread::Builder::new().name("compact".to_owned());
    match thread.spawn(compacting) {
        // A thread that has not answered has panicked, and said so.
        Ok(_) => drop(give.send(reply_to)),
        Err(error) => reply_to.send(Err(told(&error))),
    }
}
