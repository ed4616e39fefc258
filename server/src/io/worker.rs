use super::busy_poll::BusyPoll;
use super::clients::Clients;
use super::inlet::{Inlet, WAKE};
use super::patience::Patience;
use super::readiness::Readiness;
use super::sockets::PolledSockets;
use crate::cluster::Cluster;
use crate::command::Executor;
use crate::control::Asked;
use mio::{Events, Poll};
use std::io::{self, ErrorKind};
use std::sync::mpsc::SyncSender;
use std::sync::Arc;
use std::time::{Duration, Instant};

/// How many events are taken at once.
const EVENTS: usize = 256;
/// How long a thread with waiting commands sleeps if nobody wakes it. Waiting times are this exact.
const TICK: Duration = Duration::from_millis(5);

/// A thread that owns connections. It only waits for events: [`Clients`] handles them.
#[derive(Debug)]
pub struct Worker {
    cluster: Arc<Cluster>,
    poll: Poll,
    clients: Clients,
    busy_poll: BusyPoll,
}

impl Worker {
    /// Makes a thread with this poll, which asks this control.
    ///
    /// # Errors
    ///
    /// If the system refuses another descriptor of the poll.
    pub fn new(
        cluster: Arc<Cluster>,
        inlet: Arc<Inlet>,
        poll: Poll,
        executor: Executor,
        control: SyncSender<Asked>,
    ) -> io::Result<Worker> {
        let sockets = PolledSockets(poll.registry().try_clone()?);
        let busy_poll = BusyPoll::new(cluster.configuration.busy_poll);
        let clients = Clients::new(cluster.clone(), inlet, Box::new(sockets), executor, control);
        Ok(Worker {
            cluster,
            poll,
            clients,
            busy_poll,
        })
    }

    /// Serves until the cluster stops, and then until every request that came is answered, but no longer than the grace
    /// period.
    pub fn run(mut self) -> io::Result<()> {
        let mut events = Events::with_capacity(EVENTS);
        loop {
            self.wait(&mut events)?;
            self.clients.begin_round();
            for event in &events {
                match event.token() {
                    WAKE => self.clients.take_brought(),
                    place => self.clients.note(place.0, Readiness::from(event)),
                }
            }
            if self.clients.are_over(events.is_empty()) {
                return Ok(());
            }
            self.clients.end_round()?;
        }
    }

    /// Waits for events, but no longer than until something else is due.
    fn wait(&mut self, events: &mut Events) -> io::Result<()> {
        match self.clients.patience() {
            Patience::Races => {
                std::thread::yield_now();
                self.look(events, Some(Duration::ZERO))
            }
            Patience::Turns => self.look(events, Some(Duration::ZERO)),
            Patience::Tick => self.look(events, Some(TICK)),
            Patience::Idle => self.wait_idly(events),
        }
    }

    /// Waits for events while nothing is under way.
    fn wait_idly(&mut self, events: &mut Events) -> io::Result<()> {
        let since = Instant::now();
        events.clear();
        if self.busy_poll.begins() && self.cluster.begin_to_poll() {
            let polled = self.poll_from(since, events);
            self.cluster.end_to_poll();
            polled?;
        }
        if events.is_empty() {
            self.look(events, self.clients.timeout())?;
        }
        self.busy_poll.note(since.elapsed());
        Ok(())
    }

    /// Takes events as soon as they are there, without sleeping, for a short time.
    fn poll_from(&mut self, since: Instant, events: &mut Events) -> io::Result<()> {
        while events.is_empty() && self.busy_poll.goes_on(since.elapsed()) {
            self.look(events, Some(Duration::ZERO))?;
        }
        Ok(())
    }

    /// Takes the events that are there, or that come within this time, whatever signals come meanwhile.
    fn look(&mut self, events: &mut Events, timeout: Option<Duration>) -> io::Result<()> {
        loop {
            match self.poll.poll(events, timeout) {
                Err(error) if error.kind() == ErrorKind::Interrupted => {}
                looked => return looked,
            }
        }
    }
}

#[cfg(test)]
mod tests {
    use super::*;
    use crate::admission::Admission;
    use crate::configuration::Configuration;
    use crate::keyspace::{Keyspace, Rule};
    use durkenzo::{ServerId, ShardId};
    use mio::net::TcpStream;
    use std::io::{Read, Write};
    use std::net::{TcpListener, TcpStream as Client};
    use std::sync::mpsc::{sync_channel, Receiver};
    use std::thread;
    use tokio::net::TcpSocket;

    /// So many texts of so many bytes make a reply of which a socket with this room takes only a part.
    const TEXTS: usize = 15;
    const TEXT: usize = 60_000;
    const SOCKET_ROOM: u32 = 64 << 10;
    /// The answers to a slow client behind these.
    const BEHIND: &str =
        "-SHARDPAUSED shard 1 is paused: SM RESUME 1 has its owner execute again\r\n+PONG\r\n";

    /// Makes a thread whose commands wait so long, in a cluster of one server, which owns both shards.
    fn begun(wait: Duration) -> (Arc<Cluster>, Worker) {
        // Nobody asks the control.
        let (cluster, worker, _) = begun_below(wait, 0);
        (cluster, worker)
    }

    /// Does the same. At most so many commands wait for the control, which takes none.
    fn begun_below(wait: Duration, most: usize) -> (Arc<Cluster>, Worker, Receiver<Asked>) {
        let rule = Rule::Bounds(vec![Vec::new(), b"m".to_vec()]);
        let keyspace = Keyspace::new(&rule).unwrap();
        let configuration = Configuration {
            wait,
            ..Configuration::new(rule)
        };
        let cluster = Arc::new(Cluster::in_memory(configuration).unwrap());
        for shard in cluster.board().shards() {
            let control = cluster.board().control();
            control.assign(shard, ServerId::FIRST).unwrap();
        }
        let poll = Poll::new().unwrap();
        let inlet = Arc::new(Inlet::new(&poll, 1).unwrap());
        cluster.set_inlets([inlet.clone()].into());
        let admission = Admission::new(cluster.clone(), inlet.stats().clone()).unwrap();
        let executor = Executor::new(cluster.clone(), admission, keyspace);
        let (control, asked) = sync_channel(most);
        let worker = Worker::new(cluster.clone(), inlet, poll, executor, control).unwrap();
        (cluster, worker, asked)
    }

    /// Makes clients whose connections are brought to this inlet.
    fn clients(inlet: &Inlet, count: usize) -> Vec<Client> {
        let listener = TcpListener::bind("127.0.0.1:0").unwrap();
        let address = listener.local_addr().unwrap();
        let client = |_| {
            let client = Client::connect(address).unwrap();
            let timeout = Some(Duration::from_secs(20));
            client.set_read_timeout(timeout).unwrap();
            let (stream, from) = listener.accept().unwrap();
            stream.set_nonblocking(true).unwrap();
            let same = TcpSocket::from_std_stream(stream.try_clone().unwrap());
            same.set_send_buffer_size(SOCKET_ROOM).unwrap();
            assert!(inlet
                .bring(TcpStream::from_std(stream), from, Instant::now())
                .is_none());
            client
        };
        (0..count).map(client).collect()
    }

    /// Makes a client that hasn't read its answers yet, and whose command waits for a paused shard.
    fn slow(cluster: &Cluster, inlet: &Inlet) -> Client {
        cluster
            .board()
            .control()
            .pause(ShardId::new(1).unwrap())
            .unwrap();
        let mut client = clients(inlet, 1).remove(0);
        let (text, keys) = ("v".repeat(TEXT), " a".repeat(TEXTS));
        let set = format!("*3\r\n$3\r\nSET\r\n$1\r\na\r\n${TEXT}\r\n{text}\r\n");
        client.write_all(set.as_bytes()).unwrap();
        client.read_exact(&mut [0; "+OK\r\n".len()]).unwrap();
        let lines = format!("MGET{keys}\r\nGET z\r\nPING\r\n");
        client.write_all(lines.as_bytes()).unwrap();
        let end = Instant::now() + Duration::from_secs(20);
        while inlet.stats().waited.get() == 0 && Instant::now() < end {
            thread::sleep(Duration::from_millis(1));
        }
        client
    }

    /// Returns how many bytes such a client's answers have.
    fn slow_bytes() -> usize {
        let reply = format!("${TEXT}\r\n").len() + TEXT + 2;
        format!("*{TEXTS}\r\n").len() + TEXTS * reply + BEHIND.len()
    }

    #[test]
    fn connections_are_counted_from_when_they_are_brought_until_they_end() {
        let (cluster, worker) = begun(Duration::ZERO);
        let inlet = worker.clients.inlet().clone();
        let mut clients = clients(&inlet, 3);
        assert_eq!(inlet.stats().open.get(), 3);
        clients[1].write_all(b"QUIT\r\n").unwrap();
        cluster.stop();
        worker.run().unwrap();
        assert_eq!(inlet.stats().open.get(), 2);
    }

    #[test]
    fn who_asks_a_control_of_which_many_wait_is_refused() {
        let (cluster, worker, asked) = begun_below(Duration::ZERO, 2);
        let mut clients = clients(worker.clients.inlet(), 3);
        let thread = thread::spawn(move || worker.run());
        for client in &mut clients {
            client.write_all(b"SM SHARDS\r\n").unwrap();
        }
        let end = Instant::now() + Duration::from_secs(20);
        let is_refused = |it: &Client| {
            it.set_nonblocking(true).unwrap();
            let mut told = [0; 18];
            it.peek(&mut told).is_ok() && told == *b"-REFUSED Crowded: "
        };
        while !clients.iter().any(is_refused) && Instant::now() < end {
            thread::sleep(Duration::from_millis(1));
        }
        assert_eq!(clients.iter().filter(|it| is_refused(it)).count(), 1);
        for it in asked.try_iter() {
            it.reply_to.pass_on(b"+OK\r\n".to_vec());
        }
        cluster.stop();
        thread.join().unwrap().unwrap();
    }

    #[test]
    fn a_stop_answers_what_came_by_more_connections_than_a_poll_tells() {
        let (cluster, worker) = begun(Duration::ZERO);
        let mut clients = clients(worker.clients.inlet(), EVENTS + 44);
        for client in &mut clients {
            client.write_all(b"PING\r\n").unwrap();
        }
        cluster.stop();
        worker.run().unwrap();
        for mut client in clients {
            let mut told = String::new();
            client.read_to_string(&mut told).unwrap();
            assert_eq!(told, "+PONG\r\n");
        }
    }

    #[test]
    fn a_stop_answers_who_is_brought_behind_it() {
        let (cluster, worker) = begun(Duration::ZERO);
        cluster.begin_to_accept();
        cluster.stop();
        let inlet = worker.clients.inlet().clone();
        let thread = thread::spawn(move || worker.run());
        thread::sleep(Duration::from_millis(100));
        let mut client = clients(&inlet, 1).remove(0);
        client.write_all(b"PING\r\n").unwrap();
        thread::sleep(Duration::from_millis(100));
        cluster.end_to_accept();
        let mut told = String::new();
        client.read_to_string(&mut told).unwrap();
        thread.join().unwrap().unwrap();
        assert_eq!(told, "+PONG\r\n");
    }

    #[test]
    fn a_stop_answers_commands_that_wait_and_those_around_them() {
        let (cluster, worker) = begun(Duration::from_secs(60));
        let inlet = worker.clients.inlet().clone();
        let thread = thread::spawn(move || worker.run());
        let mut client = slow(&cluster, &inlet);
        cluster.stop();
        thread::sleep(Duration::from_millis(100));
        let mut told = Vec::new();
        client.read_to_end(&mut told).unwrap();
        thread.join().unwrap().unwrap();
        assert_eq!(told.len(), slow_bytes());
        assert!(told.ends_with(BEHIND.as_bytes()));
    }

    #[test]
    fn what_was_answered_before_a_command_that_waits_is_sent_meanwhile() {
        let (cluster, worker) = begun(Duration::from_secs(60));
        let inlet = worker.clients.inlet().clone();
        let thread = thread::spawn(move || worker.run());
        let mut client = slow(&cluster, &inlet);
        let mut told = vec![0; slow_bytes() - BEHIND.len()];
        client.read_exact(&mut told).unwrap();
        cluster.stop();
        let mut told = String::new();
        client.read_to_string(&mut told).unwrap();
        thread.join().unwrap().unwrap();
        assert_eq!(told, BEHIND);
    }

    #[test]
    fn a_client_that_reads_late_is_told_that_its_command_waited_in_vain() {
        let (cluster, worker) = begun(Duration::from_millis(20));
        let inlet = worker.clients.inlet().clone();
        let thread = thread::spawn(move || worker.run());
        let mut client = slow(&cluster, &inlet);
        thread::sleep(Duration::from_millis(200));
        let mut told = vec![0; slow_bytes()];
        client.read_exact(&mut told).unwrap();
        cluster.stop();
        thread.join().unwrap().unwrap();
        assert!(told.ends_with(BEHIND.as_bytes()));
    }
}
