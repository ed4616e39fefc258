use crate::{Workload, KEYS};
use durkenzo_store::{Access, Etcd, Outcome, Revision, Store, Transaction};
use std::sync::Arc;

/// A client of etcd. Each of its transactions compares a key's revision and puts the key. It sends them to each member
/// in turn, because the servers of a cluster are spread over the members too.
pub(crate) struct Transactions {
    members: Vec<Arc<Etcd>>,
    name: u64,
    revisions: Vec<Revision>,
}

impl Transactions {
    /// Returns `count` clients. They share one `Etcd` for each member, which tries that member first.
    pub(crate) fn several(
        endpoints: &[&str],
        count: u64,
    ) -> Result<Vec<Box<dyn Workload>>, String> {
        let on = |at: usize| {
            let turned = (0..endpoints.len()).map(|it| endpoints[(at + it) % endpoints.len()]);
            Etcd::new(Access::new(turned)).map(Arc::new)
        };
        let stores: Vec<_> = (0..endpoints.len())
            .map(on)
            .collect::<Result<_, _>>()
            .map_err(|error| error.to_string())?;
        let made = |it: u64| -> Box<dyn Workload> {
            Box::new(Transactions {
                members: stores.clone(),
                name: it,
                revisions: vec![Revision::NEVER; KEYS as usize],
            })
        };
        Ok((0..count).map(made).collect())
    }
}

impl Workload for Transactions {
    /// Writes all keys of the client.
    fn prepare(&mut self, _writes: bool) -> Result<(), String> {
        (0..KEYS).try_for_each(|it| self.call(it))
    }

    fn call(&mut self, number: u64) -> Result<(), String> {
        let at = (number % KEYS) as usize;
        // The key has the number of this process, because an earlier run may have written the other parts of it.
        let key = format!("bench/{}/{:05}/{at:02}", std::process::id(), self.name);
        let transaction = Transaction::new()
            .compare(key.as_str(), self.revisions[at])
            .put(key.as_str(), format!("{number:032}"));
        let member = &self.members[(self.name + number) as usize % self.members.len()];
        match member.make(transaction) {
            Ok(Outcome::Made(revision)) => {
                self.revisions[at] = revision;
                Ok(())
            }
            Ok(Outcome::Lost(_)) => Err(format!("{key} was written by another")),
            Err(error) => Err(error.to_string()),
        }
    }
}
