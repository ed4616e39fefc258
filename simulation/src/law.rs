//! The law. It judges the transactions that a store made, and the claims that clients were told. It is written from the
//! documents only, and uses no code of the proved library.
use crate::claim::{Claim, Listed, Said};
use crate::decoded_settings::DecodedSettings;
use crate::key::{DecodedKey, Written};
use crate::reading::{self, DecodedRecord, Item, Made, MapModel, Replied};
use durkenzo_store::Transaction;
use std::collections::{HashMap, HashSet};

/// The numbers of the servers' states.
const UP: u64 = 0;
const APPROVED: u64 = 2;
const STOPPED: u64 = 3;
const FAILED: u64 = 4;
/// How often a request may be forwarded.
const MOST_HOPS: u64 = 4;

/// A law that was broken, and how.
#[derive(Debug)]
pub struct Broken {
    pub law: &'static str,
    pub by: String,
}

fn broken<T>(law: &'static str, by: String) -> Result<T, Broken> {
    Err(Broken { law, by })
}

fn found<T>(read: Option<T>, by: &Written) -> Result<T, Broken> {
    read.map_or_else(|| broken("bytes can be read", format!("{by:?}")), Ok)
}

/// A request that was made.
struct One {
    client: u64,
    number: u64,
    body: Vec<u8>,
    reply: Replied,
    /// The revision of its batch.
    since: u64,
    /// The map before the request.
    before: MapModel,
}

impl One {
    /// Returns whether the keys had these values before the request.
    fn is_after(&self, held: &Listed) -> bool {
        let mut held = held.iter();
        held.all(|(key, told)| *told == Some(self.before.get(key)))
    }
}

/// Returns whether these are the replies to the requests that were made. There must be `count` of them.
fn is_told(made: &[One], replies: &[(u8, u64)], count: usize) -> bool {
    let replied = made.iter().map(|it| (it.reply.0, it.reply.1));
    replied.eq(replies.iter().copied()) && made.len() == count
}

#[derive(Default)]
struct ShardModel {
    record: DecodedRecord,
    /// The revision that wrote the record.
    stood: u64,
    batches: u64,
    /// How many batches the base stands for that the head names.
    base: u64,
    now: Made,
    /// The state after each batch. The first one is the state after one batch.
    after: Vec<Made>,
    /// The numbers of the bases in the store.
    bases: HashSet<u64>,
    /// The number of each client's last request.
    lasts: HashMap<u64, u64>,
    /// The numbers below which clients are forgotten, each with the revision that set it.
    floors: Vec<(u64, u64)>,
    /// All requests, in the order in which they were made.
    made: Vec<One>,
    /// The index of each request in `made`, by its bytes, and by its client and number. If several requests have the
    /// same bytes, only the last one is found by them.
    places: HashMap<Vec<u8>, usize>,
    numbered: HashMap<(u64, u64), usize>,
    /// The map after each revision that changed it.
    past: Vec<(u64, MapModel)>,
}

impl ShardModel {
    fn floor_at(&self, revision: u64) -> u64 {
        let until = self.floors.iter().filter(|it| it.0 <= revision);
        until.map(|it| it.1).max().unwrap_or(0)
    }

    fn map_at(&self, revision: u64) -> MapModel {
        let found = self.past.iter().rev().find(|it| it.0 <= revision);
        found.map_or_else(MapModel::default, |it| it.1.clone())
    }
}

#[derive(Default)]
struct WorldModel {
    leader: u64,
    /// The settings in force.
    settings: Option<DecodedSettings>,
    /// The progress of each server's restart.
    states: HashMap<u64, u64>,
    /// The process that each server's state names.
    named: HashMap<u64, u64>,
    /// The servers whose keys are there, with the revision since which each key has been there without a break.
    there: HashMap<u64, u64>,
    /// The revision up to which each server says that it has read, if its key is there.
    followed: HashMap<u16, u64>,
    /// The revision at which each server's key was last written, if it is there.
    told: HashMap<u16, u64>,
    /// The revision at which a process of each server last wrote that it executes.
    ran: HashMap<u16, u64>,
    /// The greatest generation that each server has acked for a shard, by any of its processes.
    acks: HashMap<(u16, u64), u64>,
    shards: HashMap<u16, ShardModel>,
    /// The bytes of all requests that must be unique.
    bodies: HashSet<Vec<u8>>,
}

/// Checks all transactions in their order, and then all claims. Returns the map of each shard in the end.
pub fn check(
    made: &[(u64, Transaction)],
    claims: &[Claim],
) -> Result<HashMap<u16, MapModel>, Broken> {
    let mut world = WorldModel::default();
    for (revision, transaction) in made {
        let Some(written) = Written::of(transaction) else {
            return broken("keys can be read", format!("{transaction:?}"));
        };
        world.make(*revision, &written)?;
    }
    claims.iter().try_for_each(|it| world.judge(it))?;
    let maps = world.shards.into_iter();
    Ok(maps.map(|(shard, it)| (shard, it.now.map)).collect())
}

impl WorldModel {
    fn make(&mut self, revision: u64, txn: &Written) -> Result<(), Broken> {
        let count =
            |is_such: fn(&DecodedKey) -> bool| txn.puts.iter().filter(|it| is_such(&it.0)).count();
        let heads = count(|it| matches!(it, DecodedKey::Head(_)));
        let batches = count(|it| matches!(it, DecodedKey::Batch(..)));
        if heads < batches {
            return broken("a batch is written with its head", format!("{txn:?}"));
        }
        for (key, bytes) in &txn.puts {
            match *key {
                DecodedKey::Process | DecodedKey::Commands | DecodedKey::Lowest(_) => {}
                DecodedKey::Drain(_) | DecodedKey::Home(_) => {}
                DecodedKey::Drained(_) | DecodedKey::Load(_) => {}
                DecodedKey::Settings => self.settle(bytes, txn)?,
                DecodedKey::Leader => self.leader = found(reading::process(bytes), txn)?,
                DecodedKey::Server(server) => self.follow(server, bytes, revision, txn)?,
                DecodedKey::Ran(server) => self.run(server, revision, txn)?,
                DecodedKey::Ack(shard, server) => self.ack(shard, server, bytes, txn)?,
                DecodedKey::State(server) => self.restart(u64::from(server), bytes, txn)?,
                DecodedKey::Record(shard) => self.change(shard, bytes, revision, txn)?,
                DecodedKey::Head(shard) if batches > 0 => self.head(shard, bytes, txn)?,
                DecodedKey::Head(shard) => self.name(shard, bytes, txn)?,
                DecodedKey::Batch(shard, number) => {
                    self.batch(shard, number, bytes, revision, txn)?
                }
                DecodedKey::Part(shard, number, 0) => self.part(shard, number, bytes, txn)?,
                DecodedKey::Part(..) => {
                    return broken("a base has one part here", format!("{txn:?}"))
                }
            }
        }
        let told = txn.puts.iter().filter_map(|it| match it.0 {
            DecodedKey::Server(server) => Some((server, revision)),
            _ => None,
        });
        self.told.extend(told);
        txn.deletes.iter().try_for_each(|it| self.delete(*it))
    }

    /// Checks that a server writes its key only over its own key. Notes up to which revision it has read. If it has
    /// read nothing, it executes by no record, so nothing is noted.
    fn follow(
        &mut self,
        server: u16,
        bytes: &[u8],
        revision: u64,
        txn: &Written,
    ) -> Result<(), Broken> {
        let told = self.told.get(&server).copied().unwrap_or(0);
        if !txn.compares.contains(&(DecodedKey::Server(server), told)) {
            return broken(
                "a server tells over its own key",
                format!("{server}, told at {told}, {txn:?}"),
            );
        }
        self.there.entry(u64::from(server)).or_insert(revision);
        match reading::followed(bytes) {
            None | Some(0) => self.followed.remove(&server),
            Some(followed) => self.followed.insert(server, followed),
        };
        Ok(())
    }

    /// Checks a process that is about to execute. It must compare its server's key, because another process may have
    /// taken the server over. It must also compare the key that it writes, because another process of the server may
    /// have executed since this one did.
    fn run(&mut self, server: u16, revision: u64, txn: &Written) -> Result<(), Broken> {
        let told = self.told.get(&server).copied().unwrap_or(0);
        if !txn.compares.contains(&(DecodedKey::Server(server), told)) {
            return broken(
                "who executes looks at its server's key",
                format!("{server}, told at {told}, {txn:?}"),
            );
        }
        let ran = self.ran.insert(server, revision).unwrap_or(0);
        if !txn.compares.contains(&(DecodedKey::Ran(server), ran)) {
            return broken(
                "who executes looks at who executed last",
                format!("{server}, written at {ran}, {txn:?}"),
            );
        }
        Ok(())
    }

    /// Checks an ack. The record must be replaced, or the server must not execute by it. The same transaction must
    /// write the server's key.
    fn ack(&mut self, shard: u16, server: u16, bytes: &[u8], txn: &Written) -> Result<(), Broken> {
        let generation = found(reading::process(bytes), txn)?;
        let record = self.shards.entry(shard).or_default().record;
        let executor = match record.phase {
            1 | 2 | 4 => record.owner,
            3 => record.other,
            _ => 0,
        };
        let is_free = generation < record.generation
            || generation == record.generation && executor != u64::from(server);
        let is_told = txn.puts.iter().any(|it| it.0 == DecodedKey::Server(server));
        if !is_free || !is_told {
            return broken(
                "a server acks no record by which it executes",
                format!("{record:?} by {txn:?}"),
            );
        }
        let acked = self.acks.entry((shard, u64::from(server))).or_default();
        *acked = generation.max(*acked);
        Ok(())
    }

    /// Returns whether the server has let go of this record of the shard. If the server has failed, it has.
    fn has_let_go(&self, shard: u16, server: u64, record: &DecodedRecord) -> bool {
        let acked = self.acks.get(&(shard, server));
        let is_failed = self.states.get(&server) == Some(&FAILED);
        is_failed || acked.is_some_and(|&it| it >= record.generation)
    }

    /// Checks a command. The process that it names must lead, and the transaction must write that process to the key of
    /// commands.
    fn command(&self, process: u64, txn: &Written) -> Result<(), Broken> {
        let is_noted = txn
            .puts
            .iter()
            .any(|it| it.0 == DecodedKey::Commands && reading::process(&it.1) == Some(process));
        if process != self.leader || !is_noted {
            return broken(
                "who leads changes records and states",
                format!("{} led, {txn:?}", self.leader),
            );
        }
        Ok(())
    }

    /// Checks settings. If they aren't the first ones, the leader must write them, and must compare the leader's key
    /// and the key of commands. Then it has judged all records and states as they are. The present state must keep to
    /// the settings.
    fn settle(&mut self, bytes: &[u8], txn: &Written) -> Result<(), Broken> {
        let is_first = txn.compares.contains(&(DecodedKey::Settings, 0));
        let compares = |key| txn.compares.iter().any(|it| it.0 == key);
        if is_first != self.settings.is_none() {
            return broken("settings are first once", format!("{txn:?}"));
        }
        if !is_first {
            self.command(self.leader, txn)?;
            if !(compares(DecodedKey::Leader) && compares(DecodedKey::Commands)) {
                return broken(
                    "settings compare what they were judged by",
                    format!("{txn:?}"),
                );
            }
        }
        self.settings = Some(found(DecodedSettings::of(bytes), txn)?);
        self.keep_capacities(txn)?;
        // Only approved and stopped servers count here, and not those that have failed.
        self.keep_ops(|it| it == APPROVED || it == STOPPED, txn)
    }

    /// Checks that no server has more shards than its capacity, and that the settings in force have each server that a
    /// record names.
    fn keep_capacities(&self, txn: &Written) -> Result<(), Broken> {
        let mut loads = HashMap::new();
        for record in self.shards.values().map(|it| it.record) {
            let named = [record.owner, record.other];
            let named = named.into_iter().filter(|it| *it > 0);
            named.for_each(|it| *loads.entry(it).or_insert(0) += 1);
        }
        let capacities = self.settings.as_ref().map(|it| &it.capacities);
        let room = |server| capacities.and_then(|it| it.get(server)).copied();
        match loads
            .iter()
            .all(|(server, load)| room(server) >= Some(*load))
        {
            true => Ok(()),
            false => broken(
                "capacities of the settings in force are kept",
                format!("{:?}, {loads:?}, {txn:?}", self.settings),
            ),
        }
    }

    /// Checks that no more servers are away than the settings in force allow. `counts` says whether a state counts as
    /// away. Servers that aren't in these settings don't count.
    fn keep_ops(&self, counts: fn(u64) -> bool, txn: &Written) -> Result<(), Broken> {
        let settings = found(self.settings.as_ref(), txn)?;
        let counted = |(server, state): &(&u64, &u64)| {
            counts(**state) && settings.capacities.contains_key(server)
        };
        match self.states.iter().filter(counted).count() as u64 <= settings.ops {
            true => Ok(()),
            false => broken(
                "no more servers are away than the settings in force let",
                format!("{settings:?}, {:?}, {txn:?}", self.states),
            ),
        }
    }

    /// Returns whether a server that was there before this revision hasn't read up to it. A server that came later,
    /// because its lease had ended, doesn't count: the leader may not know about it.
    fn has_left_behind(&self, stood: u64) -> bool {
        let mut followed = self.followed.iter();
        followed.any(|(server, &it)| {
            let since = self.there.get(&u64::from(*server));
            it < stood && since.is_some_and(|&since| since < stood)
        })
    }

    fn is_leaving(&self, server: u64) -> bool {
        self.states.get(&server).is_some_and(|&it| it > 1)
    }

    fn change(
        &mut self,
        shard: u16,
        bytes: &[u8],
        revision: u64,
        txn: &Written,
    ) -> Result<(), Broken> {
        let next = found(DecodedRecord::of(bytes), txn)?;
        self.command(next.process, txn)?;
        let ShardModel { record, stood, .. } = *self.shards.entry(shard).or_default();
        if !record.may_become(&next) {
            return broken("a change is legal", format!("{record:?} to {next:?}"));
        }
        let comes = match (record.phase, next.phase) {
            (0 | 5, 1) => next.owner,
            (1, 2) => next.other,
            _ => 0,
        };
        if self.is_leaving(comes) {
            return broken(
                "a server that is leaving gets no shard",
                format!("{record:?} to {next:?}"),
            );
        }
        let awaited = match (record.phase, next.phase) {
            (2, 3) | (3, 1) => Some(record.other),
            (3, 4) => Some(record.owner),
            (5, 1) if next.owner != record.owner => Some(record.owner),
            _ => None,
        };
        if awaited.is_some_and(|it| !self.has_let_go(shard, it, &record)) {
            return broken(
                "a change waits for who has to let go",
                format!("{record:?} to {next:?}: {:?}", self.acks),
            );
        }
        if record.phase == 4 && self.has_left_behind(stood) {
            return broken(
                "a shard is dropped once all who were there have read that it is taken",
                format!("{:?}, {record:?} at {stood}", self.followed),
            );
        }
        let shard = self.shards.entry(shard).or_default();
        (shard.record, shard.stood) = (next, revision);
        match comes {
            0 => Ok(()),
            _ => self.keep_capacities(txn),
        }
    }

    /// Checks a step of a server's restart. If the step is an approval, no more servers may be leaving than the
    /// settings in force allow.
    fn restart(&mut self, server: u64, bytes: &[u8], txn: &Written) -> Result<(), Broken> {
        let (state, process, named) = found(reading::state(bytes), txn)?;
        self.command(process, txn)?;
        self.name_process(server, state, named, txn)?;
        if state == FAILED && self.there.contains_key(&server) {
            return broken(
                "a server is failed while its key isn't there",
                format!("{server} by {txn:?}"),
            );
        }
        let before = self.states.insert(server, state).unwrap_or(0);
        let is_step = match (before, state) {
            (0, 1) | (1, 2) | (2, 3) => true,
            (from, 0) => from != 0,
            (from, FAILED) => from != FAILED,
            _ => false,
        };
        let is_idle = self.shards.values().all(|it| {
            it.record.phase == 5 || it.record.owner != server && it.record.other != server
        });
        if state == APPROVED {
            self.keep_ops(|it| it > 1, txn)?;
        }
        if !is_step || state == 3 && !is_idle {
            return broken(
                "a step of a restart is legal",
                format!("{server} from {before} to {state}: {:?}", self.states),
            );
        }
        if state == STOPPED {
            return self.stop(server);
        }
        Ok(())
    }

    /// Checks that the server has let go of all shards that are paused for it. If it hasn't, it must not be stopped.
    fn stop(&self, server: u64) -> Result<(), Broken> {
        let held = self.shards.iter().filter(|(&shard, it)| {
            let is_paused = it.record.phase == 5 && it.record.owner == server;
            is_paused && !self.has_let_go(shard, server, &it.record)
        });
        match held.min_by_key(|it| it.0) {
            None => Ok(()),
            Some((shard, it)) => broken(
                "a server is stopped once it has let go of its paused shards",
                format!("{server}, shard {shard}, {:?}: {:?}", it.record, self.acks),
            ),
        }
    }

    /// Checks the process that a server's state names. It must not have begun earlier than the process that the last
    /// state named. If the server was stopped and is up again, it must have begun later. If the server is stopped, the
    /// state must name a process.
    fn name_process(
        &mut self,
        server: u64,
        state: u64,
        named: u64,
        txn: &Written,
    ) -> Result<(), Broken> {
        let was_stopped = self.states.get(&server) == Some(&STOPPED);
        let before = self.named.insert(server, named).unwrap_or(0);
        let is_later = before < named || before == named && !(was_stopped && state == UP);
        if !is_later || state == STOPPED && named == 0 {
            return broken(
                "a stopped server is up again by a later process",
                format!("{server} of {before}, then {txn:?}"),
            );
        }
        Ok(())
    }

    fn head(&mut self, shard: u16, bytes: &[u8], txn: &Written) -> Result<(), Broken> {
        let [batches, base, parts] = found(reading::head(bytes), txn)?;
        let shard = self.shards.entry(shard).or_default();
        let before = shard.batches;
        if batches != before + 1 || (base, parts) != (shard.base, shard.base.min(1)) {
            return broken(
                "a batch is the next one",
                format!("{before} batches with base {}, then {txn:?}", shard.base),
            );
        }
        Ok(())
    }

    /// Checks a head that names another base.
    fn name(&mut self, shard: u16, bytes: &[u8], txn: &Written) -> Result<(), Broken> {
        let [batches, base, parts] = found(reading::head(bytes), txn)?;
        let shard = self.shards.entry(shard).or_default();
        let is_newer = shard.base < base && base <= batches;
        if !is_newer || batches != shard.batches || parts != 1 || !shard.bases.contains(&base) {
            return broken("a base that is named is there", format!("{txn:?}"));
        }
        shard.base = base;
        Ok(())
    }

    fn part(&mut self, shard: u16, number: u64, bytes: &[u8], txn: &Written) -> Result<(), Broken> {
        let holds = found(reading::base(bytes), txn)?;
        let shard = self.shards.entry(shard).or_default();
        let made = number
            .checked_sub(1)
            .and_then(|at| shard.after.get(at as usize));
        if made != Some(&holds) {
            return broken(
                "a base holds what its batches made",
                format!("{holds:?} for {made:?}"),
            );
        }
        shard.bases.insert(number);
        Ok(())
    }

    fn delete(&mut self, key: DecodedKey) -> Result<(), Broken> {
        let is_behind = match key {
            DecodedKey::Batch(shard, number) => {
                number <= self.shards.entry(shard).or_default().base
            }
            DecodedKey::Part(shard, number, _) => {
                let shard = self.shards.entry(shard).or_default();
                shard.bases.remove(&number);
                number < shard.base
            }
            // These keys lay under a lease that ended.
            DecodedKey::Leader => {
                self.leader = 0;
                true
            }
            DecodedKey::Server(server) => {
                self.there.remove(&u64::from(server));
                self.followed.remove(&server);
                self.told.remove(&server);
                true
            }
            DecodedKey::Ack(..) | DecodedKey::Load(_) => true,
            // These intents are done, or are withdrawn.
            DecodedKey::Drain(_) | DecodedKey::Home(_) | DecodedKey::Drained(_) => true,
            _ => false,
        };
        if is_behind {
            return Ok(());
        }
        broken("what is deleted is behind the base", format!("{key:?}"))
    }

    fn batch(
        &mut self,
        shard: u16,
        number: u64,
        bytes: &[u8],
        revision: u64,
        txn: &Written,
    ) -> Result<(), Broken> {
        let (server, items) = found(reading::batch(bytes), txn)?;
        for item in &items {
            self.item(shard, server, item, revision)?;
        }
        let shard = self.shards.entry(shard).or_default();
        if number != shard.batches + 1 {
            return broken(
                "a batch is the next one",
                format!("{} batches, then {number}", shard.batches),
            );
        }
        shard.batches = number;
        shard.after.push(shard.now.clone());
        shard.past.push((revision, shard.now.map.clone()));
        Ok(())
    }

    fn item(&mut self, shard: u16, server: u64, item: &Item, revision: u64) -> Result<(), Broken> {
        let body = &item.request;
        // Each put, append and add of the simulator has a text or an amount of its own, so its bytes must be unique.
        if matches!(body.first(), Some(2..=4)) && !self.bodies.insert(body.clone()) {
            return broken("a client's request is made once", format!("{item:?}"));
        }
        let shard = self.shards.entry(shard).or_default();
        if !shard.record.accepts(server, item.from) {
            return broken(
                "the accepted server executes",
                format!("{server}, {:?}, {item:?}", shard.record),
            );
        }
        if item.client < shard.floor_at(revision) {
            return broken("a forgotten client asks nothing", format!("{item:?}"));
        }
        if item.hops > MOST_HOPS {
            return broken(
                "a request is forwarded so often at most",
                format!("{item:?}"),
            );
        }
        shard.floors.push((revision, item.forgets));
        let last = shard.lasts.insert(item.client, item.number).unwrap_or(0);
        if item.number <= last {
            return broken("a client's numbers rise", format!("{last}, then {item:?}"));
        }
        shard.apply(item, revision);
        Ok(())
    }

    fn judge(&mut self, claim: &Claim) -> Result<(), Broken> {
        let shard = self.shards.entry(claim.shard).or_default();
        let (promise, is_kept) = shard.keeps(claim);
        match is_kept {
            true => Ok(()),
            false => broken(promise, format!("{claim:?}")),
        }
    }
}

impl ShardModel {
    /// Carries out a request and notes it.
    fn apply(&mut self, item: &Item, since: u64) {
        let Item {
            client,
            number,
            forgets,
            request: body,
            ..
        } = item.clone();
        let before = self.now.map.clone();
        let reply = self.now.map.answer(&body);
        let lasts = &mut self.now.lasts;
        lasts.insert(client, (number, reply.0, reply.1));
        lasts.retain(|&client, _| client >= forgets);
        self.now.floor = self.now.floor.max(forgets);
        let place = self.made.len();
        self.places.insert(body.clone(), place);
        self.numbered.insert((client, number), place);
        self.made.push(One {
            client,
            number,
            body,
            reply,
            since,
            before,
        });
    }

    /// Returns those of the requests with these bytes that were made. They were asked together, and the bytes of the
    /// first one must be unique.
    fn made_of(&self, claim: &Claim, bodies: &[Vec<u8>]) -> &[One] {
        let place = match claim.numbered {
            Some((client, number)) => self.numbered.get(&(first_of(client), number)),
            None => bodies.first().and_then(|it| self.places.get(it)),
        };
        let made = place.map_or(&[][..], |it| &self.made[*it..]);
        let is_one = |it: &(&One, &Vec<u8>)| it.0.body == *it.1 && it.0.since == made[0].since;
        let count = made.iter().zip(bodies).take_while(is_one).count();
        &made[..count]
    }

    /// Returns the promise that this kind of claim gives, and whether the claim keeps it.
    fn keeps(&self, claim: &Claim) -> (&'static str, bool) {
        match &claim.said {
            Said::Made {
                bodies,
                replies,
                held,
            } => {
                let made = self.made_of(claim, bodies);
                let is_in_time = made.iter().all(|it| it.since <= claim.at);
                let is_kept = is_in_time && is_told(made, replies, bodies.len());
                let is_decided = made.iter().take(1).all(|it| it.is_after(held));
                let law = "a reply that was told is that of one thread";
                (law, is_kept && is_decided)
            }
            Said::Passed => ("what is passed isn't made", self.is_passed(claim)),
            Said::NotMade { bodies } => {
                let is_made = |it: &Vec<u8>| it[0] != 5 && self.places.contains_key(it);
                let is_made = bodies.iter().any(is_made);
                ("what wasn't made isn't made", !is_made)
            }
            Said::Unknown { bodies } => {
                let count = self.made_of(claim, bodies).len();
                let is_whole = count == 0 || count == bodies.len();
                ("what is asked together is made together", is_whole)
            }
            Said::Read {
                asked,
                listed,
                since,
            } => {
                let mut moments = *since..=claim.at;
                let is_of_one = moments.any(|it| self.map_at(it).listed(asked) == *listed);
                ("a read is of a moment after it was asked", is_of_one)
            }
            Said::Damaged(_) => ("what lies there can be read", false),
        }
    }

    /// Returns whether a later request of the client had been made when the client was told. If this request was made
    /// after that, returns false.
    fn is_passed(&self, claim: &Claim) -> bool {
        let Some((client, number)) = claim.numbered else {
            return false;
        };
        let of_client = |it: &&One| it.client == first_of(client);
        let mut made = self.made.iter().filter(of_client);
        let is_passed = |it: &One| it.number > number && it.since <= claim.at;
        let is_late = |it: &One| it.number == number && it.since > claim.at;
        made.clone().any(is_passed) && !made.any(is_late)
    }
}

/// Returns the number under which a shard keeps the first request of a client that numbers its requests.
fn first_of(client: u64) -> u64 {
    1 << 63 | client << 8
}
