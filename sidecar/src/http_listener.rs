use crate::gateway::Gateway;
use crate::http_connection::converse;
use std::io;
use std::sync::Arc;
use std::time::Duration;
use tokio::io::{AsyncReadExt, AsyncWriteExt};
use tokio::net::{TcpListener, TcpStream};
use tokio::sync::{watch, Semaphore};
use tokio::time::{sleep, timeout};

/// How long no connection is accepted after the system had no room for one.
const PAUSE: Duration = Duration::from_millis(20);
/// The most connections beyond those that are served, which are told so, and the longest time for that.
const REFUSED: usize = 64;
const TOLD: Duration = Duration::from_secs(1);
/// The longest time for requests that are under way when this process ends.
const UNDER_WAY: Duration = Duration::from_secs(5);
/// The reason if as many clients are connected as may be.
const FULL: &str =
    "{\"error\":\"Busy\",\"why\":\"as many clients are connected here as may be\"}\n";

/// The socket at which clients connect, and their connections.
pub(crate) struct HttpListener {
    gateway: Arc<Gateway>,
    room: Arc<Semaphore>,
    most: u32,
    refused: Arc<Semaphore>,
    ending: watch::Sender<bool>,
}

impl HttpListener {
    /// Returns a listener for so many connections at once.
    pub(crate) fn new(gateway: Arc<Gateway>, most: usize) -> HttpListener {
        let most = u32::try_from(most.min(Semaphore::MAX_PERMITS)).unwrap_or(u32::MAX);
        HttpListener {
            gateway,
            room: Arc::new(Semaphore::new(most as usize)),
            most,
            refused: Arc::new(Semaphore::new(REFUSED)),
            ending: watch::channel(false).0,
        }
    }

    /// Accepts connections until this process ends.
    pub(crate) async fn accept(&self, socket: TcpListener) {
        let mut ending = self.ending.subscribe();
        loop {
            let accepted = tokio::select! {
                accepted = socket.accept() => accepted,
                _ = ending.changed() => return,
            };
            let (stream, from) = match accepted {
                Ok(accepted) => accepted,
                Err(error) => {
                    tracing::warn!(%error, "a client's connection isn't accepted");
                    sleep(PAUSE).await;
                    continue;
                }
            };
            let Ok(room) = self.room.clone().try_acquire_owned() else {
                self.refuse(stream);
                continue;
            };
            // Without it, an answer may wait for the client's acknowledgement of its head.
            let _ = stream.set_nodelay(true);
            let (gateway, ending) = (self.gateway.clone(), self.ending.subscribe());
            tokio::spawn(async move {
                converse(gateway, (stream, from), ending).await;
                drop(room);
            });
        }
    }

    /// Tells a client that there is no room for it.
    fn refuse(&self, stream: TcpStream) {
        if let Ok(refused) = self.refused.clone().try_acquire_owned() {
            tokio::spawn(async move {
                // The client may have gone already.
                let _ = timeout(TOLD, tell_busy(stream)).await;
                drop(refused);
            });
        }
    }

    /// Stops accepting connections, and waits until requests that are under way are answered.
    pub(crate) async fn end(&self) {
        self.ending.send_replace(true);
        let _ = timeout(UNDER_WAY, self.room.acquire_many(self.most)).await;
    }
}

/// Writes the answer, and reads until the client closes, because the answer is lost if bytes are unread then.
async fn tell_busy(mut stream: TcpStream) -> io::Result<()> {
    let length = FULL.len();
    let head = format!(
        "HTTP/1.1 503 Service Unavailable\r\ndurkenzo-error: Busy\r\nretry-after: 1\r\ncontent-type: \
         application/json\r\ncontent-length: {length}\r\nconnection: close\r\n\r\n"
    );
    stream.write_all(head.as_bytes()).await?;
    stream.write_all(FULL.as_bytes()).await?;
    stream.shutdown().await?;
    let mut room = [0; 512];
    while stream.read(&mut room).await? > 0 {}
    Ok(())
}
