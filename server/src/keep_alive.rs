//! How the server finds out that a client's machine has gone without a word, for instance because it lost power.
use socket2::{SockRef, TcpKeepalive};
use std::io;
use std::os::fd::AsRawFd;
use std::time::Duration;

/// After this long without a byte, a client's system is asked whether it is there, as by Redis.
const CLIENT: Duration = Duration::from_secs(300);
/// How long it may take to acknowledge bytes, or to have room for them.
const CLIENT_SILENT: Duration = Duration::from_secs(600);
/// How often it is asked in vain.
const ASKED: u32 = 3;

/// Makes a client's connection end ten minutes after its machine has gone, whether bytes were sent to it or not; or
/// after it has taken no bytes for ten minutes although some were waiting for it.
///
/// # Errors
///
/// If the system refuses that.
pub fn of_client(socket: &impl AsRawFd) -> io::Result<()> {
    let socket = SockRef::from(socket);
    let kept = TcpKeepalive::new().with_time(CLIENT);
    socket.set_tcp_keepalive(&kept.with_interval(CLIENT / ASKED).with_retries(ASKED))?;
    socket.set_tcp_user_timeout(Some(CLIENT_SILENT))
}

#[cfg(test)]
mod tests {
    use super::*;
    use std::net::{TcpListener, TcpStream};

    #[test]
    fn who_says_nothing_is_asked_whether_it_is_there() {
        let listener = TcpListener::bind("127.0.0.1:0").unwrap();
        let client = TcpStream::connect(listener.local_addr().unwrap()).unwrap();
        assert!(!SockRef::from(&client).keepalive().unwrap());
        of_client(&client).unwrap();
        let client = SockRef::from(&client);
        assert!(client.keepalive().unwrap());
        assert_eq!(client.keepalive_time().unwrap(), CLIENT);
        assert_eq!(client.tcp_user_timeout().unwrap(), Some(CLIENT_SILENT));
    }
}
