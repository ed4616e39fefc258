use super::arrived::Arrived;
use super::connection::{Connection, Turn};
use super::half_closed::HalfClosed;
use super::inlet::{Brought, Delivery, Inlet};
use super::patience::Patience;
use super::put_off::PutOff;
use super::readiness::Readiness;
use super::reply_address::ReplyAddress;
use super::sockets::Sockets;
use super::strangers::Whereabouts;
use super::stream::Stream;
use crate::cluster::Cluster;
use crate::command::{is_of_all, Executor, Session, ShardRequest};
use crate::control::{asked, Asked, Refusal};
use crate::memory;
use crate::resp::OwnedCommand;
use crate::wait::Wait;
use slab::Slab;
use std::io::{self, ErrorKind};
use std::sync::mpsc::{SyncSender, TrySendError};
use std::sync::Arc;
use std::time::{Duration, Instant};

/// How many bytes are read at once.
const ROOM: usize = 64 << 10;
/// How often it looks for connections that took too long to log in.
const SWEEP: Duration = Duration::from_millis(500);

/// The connections of one thread, and their due work. It never waits: it is told events, and says how long the
/// thread may wait for more.
#[derive(Debug)]
pub struct Clients {
    cluster: Arc<Cluster>,
    inlet: Arc<Inlet>,
    sockets: Box<dyn Sockets>,
    executor: Executor,
    control: SyncSender<Asked>,
    connections: Slab<Connection>,
    /// The places of connections that began in this round.
    begun: Vec<usize>,
    /// Connections that have a turn in the next round.
    queue: Vec<usize>,
    /// Connections whose next command waits for a shard that no server executes.
    waiting: Vec<usize>,
    /// Connections whose next command isn't looked at for now.
    put_off: PutOff,
    /// Whether everything in the queue waits for shards that other threads have.
    is_racing: bool,
    changes: u64,
    /// Connections that wait, and whose clients may have left.
    half_closed: HalfClosed,
    /// When it last looked for connections that took too long.
    swept: Instant,
    /// When it ends at the latest, once the cluster stops.
    end: Option<Instant>,
    buffer: Box<[u8]>,
}

impl Clients {
    /// Makes the connections of the thread with this inlet, which asks this control.
    pub(super) fn new(
        cluster: Arc<Cluster>,
        inlet: Arc<Inlet>,
        sockets: Box<dyn Sockets>,
        executor: Executor,
        control: SyncSender<Asked>,
    ) -> Clients {
        let half_closed = HalfClosed::new(cluster.inlets().len());
        let swept = cluster.now();
        Clients {
            cluster,
            inlet,
            sockets,
            executor,
            control,
            connections: Slab::new(),
            begun: Vec::new(),
            queue: Vec::new(),
            waiting: Vec::new(),
            put_off: PutOff::default(),
            is_racing: false,
            changes: 0,
            half_closed,
            swept,
            end: None,
            buffer: vec![0; ROOM].into(),
        }
    }

    /// Returns how long the thread may wait for events.
    pub fn patience(&self) -> Patience {
        match self.queue.is_empty() {
            false if self.is_racing => Patience::Races,
            false => Patience::Turns,
            true if !self.waiting.is_empty() || self.cluster.is_stopping() => Patience::Tick,
            true => Patience::Idle,
        }
    }

    /// Returns how long nothing is due, if anything will be. Counts only for a thread that is idle.
    pub fn timeout(&self) -> Option<Duration> {
        let sweep = (self.inlet.strangers() > 0).then_some(SWEEP);
        let next = self.put_off.next().into_iter();
        let next = next.chain(self.half_closed.next_end()).min();
        let next = next.map(|it| it.saturating_duration_since(self.cluster.now()));
        sweep.into_iter().chain(next).min()
    }

    /// Returns the inlet of the thread.
    pub fn inlet(&self) -> &Arc<Inlet> {
        &self.inlet
    }

    /// Begins a round. Its events are noted next.
    pub fn begin_round(&mut self) {
        self.begun.clear();
        self.inlet.note_turn();
    }

    /// Notes an event of the stream at this place.
    pub fn note(&mut self, place: usize, ready: Readiness) {
        // All events of a round are there before it begins, so this one is of a connection that has ended.
        if self.begun.contains(&place) {
            return;
        }
        let Some(connection) = self.connections.get_mut(place) else {
            return;
        };
        if connection.note(ready, &mut self.executor) {
            self.enqueue(place);
        } else if connection.is_held() && !self.may_wait(place) {
            self.close(place);
        }
    }

    /// Returns whether the thread ends: the cluster stops, and every request that came is answered, or the grace period
    /// is over. If the thread waited in vain, `is_calm` is true.
    pub fn are_over(&self, is_calm: bool) -> bool {
        // If there is an end, the thread waited after the stop, so it was told about everything that came before.
        self.end
            .is_some_and(|it| is_calm && self.is_quiet() || self.cluster.now() >= it)
    }

    /// Does everything that is due, once all events of the round are noted.
    ///
    /// # Errors
    ///
    /// If there is no memory for the thread's access to shards.
    pub fn end_round(&mut self) -> io::Result<()> {
        self.refresh()?;
        self.close_strangers();
        self.close_half_closed();
        self.look_at_put_off();
        self.look_at_waiting();
        self.run_queue();
        if self.end.is_none() && self.cluster.is_stopping() {
            self.end = Some(self.cluster.now() + self.cluster.configuration.grace);
        }
        Ok(())
    }

    /// Returns whether the connection at this place may wait. It may not if its client has left, or if its client sends
    /// no more and many such connections wait already.
    fn may_wait(&mut self, place: usize) -> bool {
        let connection = &self.connections[place];
        let (id, may_have_left) = (connection.session.id, connection.may_have_left());
        let is_there = !connection.has_left();
        is_there && (!may_have_left || self.half_closed.begin(id, place, self.cluster.now()))
    }

    /// Closes the connections that have waited too long for clients that may have left.
    fn close_half_closed(&mut self) {
        if self.half_closed.next_end().is_some() {
            for place in self.half_closed.due(self.cluster.now()) {
                self.close(place);
            }
        }
    }

    /// Takes the connections and the answers that other threads brought.
    pub fn take_brought(&mut self) {
        let Brought {
            streams,
            leaving,
            answers,
        } = self.inlet.take();
        for arrived in streams {
            let id = arrived.id;
            if let Err(error) = self.open(arrived) {
                self.inlet.note_lost(id);
                tracing::warn!(%error, "a connection isn't served");
            }
        }
        for (place, id) in leaving {
            let connection = self.connections.get(place);
            let is_it = |it: &&Connection| it.session.id == id && it.stranger_since().is_some();
            if connection.filter(is_it).is_some() {
                self.refuse(place);
            }
        }
        answers.into_iter().for_each(|it| self.take_answer(it));
    }

    fn take_answer(&mut self, answer: Delivery) {
        let connection = self.connections.get_mut(answer.place);
        let Some(connection) = connection.filter(|it| it.session.id == answer.id) else {
            return;
        };
        let took = connection.take_answer(answer.bytes, self.cluster.now());
        self.half_closed.end(answer.id);
        if answer.commands > 0 {
            let stats = self.inlet.stats();
            stats.commands.add(answer.commands);
            stats.latency.note(took, answer.commands);
        }
        self.enqueue(answer.place);
    }

    fn open(&mut self, mut arrived: Arrived<Stream>) -> io::Result<()> {
        let (id, from) = (arrived.id, arrived.from);
        let Some(place) = self.place_of(id) else {
            arrived.stream.refuse();
            self.inlet.note_lost(id);
            return Ok(());
        };
        self.sockets.begin(&mut arrived.stream, place)?;
        if self.connections.len() == self.connections.capacity() {
            // A list that grows takes twice as much, beside its old memory.
            let more = 2 * (self.connections.len() + 1) * size_of::<Connection>();
            memory::has_room(more).map_err(|_| ErrorKind::OutOfMemory)?;
        }
        let safety = &self.cluster.configuration.safety;
        let connection = Connection::new(arrived, Session::of(id, from, safety));
        let is_known = connection.stranger_since().is_none();
        let is_readable = connection.is_readable();
        self.connections.insert(connection);
        self.begun.push(place);
        self.inlet.stats().accepted.add(1);
        if is_known {
            self.inlet.note_stranger_less(id);
        }
        if is_known && self.has_too_many() {
            self.refuse(place);
        } else if is_readable {
            self.enqueue(place);
        }
        Ok(())
    }

    /// Returns the place for the connection of a stranger, unless it had to give way on its way here.
    fn place_of(&mut self, id: u64) -> Option<usize> {
        if self.inlet.has_door() {
            let place = self.connections.vacant_entry().key();
            let may_stay = self.inlet.note_moved(id, Whereabouts::Connection(place));
            return may_stay.then_some(place);
        }
        self.make_room();
        let place = self.connections.vacant_entry().key();
        self.inlet.note_met(id, Whereabouts::Connection(place));
        Some(place)
    }

    /// Makes the strangers that came first give way to one more, so that nobody can keep others out with many
    /// connections that say nothing. A client that logs in at once has done so before so many others have come.
    fn make_room(&mut self) {
        while let Some((_, at)) = self.inlet.give_way() {
            match at {
                Whereabouts::Connection(place) => self.refuse(place),
                // These are strangers that another thread meets.
                Whereabouts::Handshake(_) | Whereabouts::Between => {}
            }
        }
    }

    /// Returns whether more clients have logged in than there are places.
    fn has_too_many(&self) -> bool {
        self.cluster.known_clients() > self.cluster.configuration.most_clients
    }

    /// From time to time closes the connections that took too long to log in.
    fn close_strangers(&mut self) {
        if self.inlet.strangers() == 0 {
            return;
        }
        let now = self.cluster.now();
        if now.saturating_duration_since(self.swept) < SWEEP {
            return;
        }
        self.swept = now;
        let most = self.cluster.configuration.safety.login_time;
        for place in self.inlet.places_of_strangers() {
            let connection = self.connections.get(place);
            let since = connection.and_then(Connection::stranger_since);
            if since.is_some_and(|it| now.saturating_duration_since(it) >= most) {
                self.close(place);
            }
        }
    }

    /// Lets the connections go on whose next command was put off long enough.
    fn look_at_put_off(&mut self) {
        if self.put_off.next().is_none() {
            return;
        }
        let now = self.cluster.now();
        while let Some((place, id)) = self.put_off.take_due(now) {
            let connection = self.connections.get_mut(place);
            if let Some(connection) = connection.filter(|it| it.session.id == id) {
                connection.go_on();
                self.enqueue(place);
            }
        }
    }

    fn enqueue(&mut self, place: usize) {
        if let Some(connection) = self.connections.get_mut(place) {
            if !std::mem::replace(&mut connection.is_queued, true) {
                self.queue.push(place);
            }
        }
    }

    /// Gives back the passes of servers that went away, and notes that.
    fn refresh(&mut self) -> io::Result<()> {
        let version = self.executor.admission().refresh();
        let version = version.map_err(io::Error::other)?;
        self.inlet.set_version(version);
        Ok(())
    }

    /// Returns how long a command waits. During a stop it is refused at once, because it won't be done.
    fn most_wait(&self) -> Duration {
        match self.cluster.is_stopping() {
            true => Duration::ZERO,
            false => self.cluster.configuration.wait,
        }
    }

    /// Gives a turn to waiting connections: to all after a change, otherwise to those that have waited in vain.
    fn look_at_waiting(&mut self) {
        if self.waiting.is_empty() {
            return;
        }
        let changes = self.cluster.changes();
        let is_changed = std::mem::replace(&mut self.changes, changes) != changes;
        let (wait, now, connections) = (self.most_wait(), self.cluster.now(), &self.connections);
        // Another connection may have the place of one that was closed while it waited.
        let since = |place: &usize| connections.get(*place).and_then(Connection::waits_since);
        self.waiting.retain(|it| since(it).is_some());
        let is_due = |place: &usize| is_changed || connections[*place].has_waited(wait, now);
        let (due, waiting) = self.waiting.drain(..).partition::<Vec<_>, _>(is_due);
        self.waiting = waiting;
        for place in due {
            self.enqueue(place);
        }
    }

    /// Gives each queued connection a turn.
    fn run_queue(&mut self) {
        if self.queue.is_empty() {
            return self.inlet.stats().waiting.set(self.waiting.len() as u64);
        }
        let mut queue = std::mem::take(&mut self.queue);
        let began = self.cluster.now();
        self.is_racing = true;
        for place in queue.drain(..) {
            match self.turn(place, began) {
                Turn::Rest => self.is_racing = false,
                Turn::Again => {
                    self.is_racing = false;
                    self.enqueue(place);
                }
                Turn::PutOff(until) => {
                    self.is_racing = false;
                    let id = self.connections[place].session.id;
                    self.put_off.add(until, place, id);
                }
                Turn::Wait(Wait::Busy(_)) => self.enqueue(place),
                Turn::Wait(_) => self.waiting.push(place),
                Turn::Control(command) => {
                    self.is_racing = false;
                    self.ask(place, command);
                }
                Turn::Durable(asked) => {
                    self.is_racing = false;
                    self.ask_shards(place, asked);
                }
                Turn::Over => self.close(place),
            }
        }
        if self.queue.is_empty() {
            self.queue = queue;
        }
        self.inlet.stats().waiting.set(self.waiting.len() as u64);
    }

    /// Gives the connection at this place a turn, in a round that began then, and counts the result.
    fn turn(&mut self, place: usize, began: Instant) -> Turn {
        let wait = self.most_wait();
        let Some(connection) = self.connections.get_mut(place) else {
            return Turn::Rest;
        };
        connection.is_queued = false;
        let id = connection.session.id;
        if connection.may_have_left() {
            self.half_closed.end(id);
        }
        let stats = self.inlet.stats();
        let (done, since) = (stats.commands.get(), connection.waits_since());
        let turn = connection.turn(&mut self.executor, &mut self.buffer, wait);
        let done = stats.commands.get() - done;
        if done > 0 {
            let now = self.cluster.now();
            let took = now.saturating_duration_since(since.unwrap_or(began));
            stats.latency.note(took, done);
        }
        let becomes_known = connection.becomes_known();
        if becomes_known {
            self.inlet.note_stranger_less(id);
        }
        if let Some(errors) = connection.take_errors() {
            stats.note_errors(errors);
        }
        // A client that had to log in first finds out only now that others have all places.
        let is_over = becomes_known && self.has_too_many();
        match is_over || turn.waits() && !self.may_wait(place) {
            true => Turn::Over,
            false => turn,
        }
    }

    /// Returns the address for the answer that is owed to this connection.
    fn reply_to(&mut self, place: usize) -> ReplyAddress {
        let connection = &mut self.connections[place];
        let to = (place, connection.session.id);
        ReplyAddress::connection(self.inlet.clone(), to, connection.caller())
    }

    fn ask_shards(&mut self, place: usize, asked: ShardRequest) {
        let reply_to = self.reply_to(place);
        if let Some(durable) = self.cluster.storage.durable() {
            asked.submit(durable, &self.cluster, reply_to);
        }
    }

    fn ask(&mut self, place: usize, command: OwnedCommand) {
        let mut reply_to = self.reply_to(place);
        if !is_of_all(command.command()) {
            let (shown, session) = (command.shown(), &self.connections[place].session);
            let (from, role) = (session.address, session.role.name());
            tracing::info!(asked = shown, %from, role, "a client asks the control");
            reply_to = reply_to.logged(shown);
        }
        match self.control.try_send(asked(command.command(), reply_to)) {
            Ok(()) => {}
            Err(TrySendError::Full(asked)) => asked.refuse(Refusal::crowded()),
            // The control ends after all threads that ask it, or by its own fault.
            Err(error @ TrySendError::Disconnected(_)) => {
                tracing::error!(%error, "the control is gone");
                self.close(place);
            }
        }
    }

    /// Closes the connection at this place, and tells the client that there is no place for it.
    fn refuse(&mut self, place: usize) {
        self.connections[place].stream().refuse();
        self.close(place);
    }

    fn close(&mut self, place: usize) {
        let mut connection = self.connections.remove(place);
        self.half_closed.end(connection.session.id);
        if connection.stranger_since().is_some() {
            self.inlet.note_stranger_less(connection.session.id);
        }
        // Dropping it closes it.
        self.sockets.end(connection.stream());
        self.inlet.stats().open.note_less();
    }

    /// Returns whether nothing is under way, and other threads brought nothing and won't bring connections.
    fn is_quiet(&self) -> bool {
        // This must be read first. Then everything that was brought before they ended is seen below.
        let is_coming = self.cluster.is_accepting() || self.inlet.has_open_door();
        let is_idle = !is_coming && self.inlet.is_empty();
        let is_idle = is_idle && self.queue.is_empty();
        is_idle && self.connections.iter().all(|it| it.1.is_quiet())
    }
}

/// The functions of a simulation, which notes the events of its streams itself.
#[cfg(feature = "simulated")]
impl Clients {
    /// Makes the connections of a thread without a poll.
    pub fn simulated(
        cluster: Arc<Cluster>,
        inlet: Arc<Inlet>,
        executor: Executor,
        control: SyncSender<Asked>,
    ) -> Clients {
        let sockets = Box::new(super::sockets::SimulatedSockets);
        Clients::new(cluster, inlet, sockets, executor, control)
    }

    /// Returns how much the thread holds for its clients.
    pub fn held(&self) -> super::HeldForClients {
        let connections = self.connections.iter().map(|it| it.1);
        super::HeldForClients {
            connections: self.connections.len(),
            queued: self.queue.len() + self.waiting.len() + self.put_off.len(),
            half_closed: self.half_closed.len(),
            most_unsent: connections.map(Connection::unsent).max().unwrap_or(0),
        }
    }
}

#[cfg(test)]
mod tests {
    use super::super::sockets::PolledSockets;
    use super::*;
    use crate::admission::Admission;
    use crate::configuration::Configuration;
    use crate::keyspace::{Keyspace, Rule};
    use durkenzo_control::links::Secret;
    use mio::net::TcpStream;
    use mio::Poll;
    use std::io::Write;
    use std::net::{TcpListener, TcpStream as Client};
    use std::sync::mpsc::sync_channel;

    const GONE: Readiness = Readiness {
        is_readable: true,
        is_half_closed: true,
        has_left: true,
    };

    /// Returns the connections of a thread to which clients must log in, and which has room for one that hasn't.
    fn begun() -> Clients {
        let mut configuration = Configuration::new(Rule::Hash(1));
        configuration.safety.password = Secret::of(b"a password");
        begun_by(configuration, Some(2))
    }

    /// Returns the connections of a thread that has at most so many strangers, if there is a bound.
    fn begun_by(configuration: Configuration, most_strangers: Option<usize>) -> Clients {
        let keyspace = Keyspace::new(&configuration.rule).unwrap();
        let cluster = Arc::new(Cluster::in_memory(configuration).unwrap());
        let poll = Poll::new().unwrap();
        let inlet = Inlet::new(&poll, 1).unwrap();
        let inlet = Arc::new(inlet.with_most_strangers(most_strangers));
        cluster.set_inlets([inlet.clone()].into());
        let admission = Admission::new(cluster.clone(), inlet.stats().clone()).unwrap();
        let executor = Executor::new(cluster.clone(), admission, keyspace);
        let sockets = PolledSockets(poll.registry().try_clone().unwrap());
        let control = sync_channel(1).0;
        Clients::new(cluster, inlet, Box::new(sockets), executor, control)
    }

    /// Brings the connection of a client to this thread. Returns the client.
    fn bring(clients: &Clients) -> Client {
        let listener = TcpListener::bind("127.0.0.1:0").unwrap();
        let client = Client::connect(listener.local_addr().unwrap()).unwrap();
        let (socket, from) = listener.accept().unwrap();
        socket.set_nonblocking(true).unwrap();
        let (socket, now) = (TcpStream::from_std(socket), clients.cluster.now());
        assert!(clients.inlet.bring(socket, from, now).is_none());
        client
    }

    #[test]
    fn who_left_while_its_command_waited_waits_no_more_though_another_has_its_place() {
        let mut configuration = Configuration::new(Rule::Hash(1));
        configuration.wait = Duration::from_secs(60);
        let mut clients = begun_by(configuration, None);
        let mut others = Vec::new();
        for _ in 0..3 {
            let mut client = bring(&clients);
            clients.begin_round();
            // The one before leaves, and this one gets its place.
            if !others.is_empty() {
                clients.note(0, GONE);
            }
            clients.take_brought();
            clients.end_round().unwrap();
            assert_eq!(clients.connections.len(), 1);
            assert_eq!(clients.patience(), Patience::Idle);
            client.write_all(b"GET a\r\n").unwrap();
            let is_readable = true;
            while clients.patience() == Patience::Idle {
                clients.begin_round();
                let came = Readiness {
                    is_readable,
                    ..Readiness::default()
                };
                clients.note(0, came);
                clients.end_round().unwrap();
            }
            // Nobody owns its shard.
            assert_eq!(clients.patience(), Patience::Tick);
            assert_eq!(clients.inlet.stats().waiting.get(), 1);
            others.push(client);
        }
    }

    #[test]
    fn an_event_of_who_gave_way_is_not_that_of_the_next_one() {
        let (mut clients, mut others) = (begun(), Vec::new());
        for _ in 0..2 {
            others.push(bring(&clients));
            clients.begin_round();
            clients.take_brought();
            // The first one has left, gives way in this round, and its event comes behind that.
            clients.note(0, GONE);
            assert!(!clients.connections[0].has_left());
            clients.end_round().unwrap();
        }
        assert_eq!(clients.connections.len(), 1);
        clients.begin_round();
        clients.note(0, GONE);
        assert!(clients.connections[0].has_left());
    }
}
