use super::super::KEEP_ALIVE;
use socket2::{SockRef, TcpKeepalive};
use std::io;
use std::net::TcpStream;

/// Makes the connection end some seconds after the other machine has gone, whether bytes were sent to it or not.
///
/// # Errors
///
/// If the system refuses that.
pub(super) fn keep_alive(socket: &TcpStream) -> io::Result<()> {
    let socket = SockRef::from(socket);
    let kept = TcpKeepalive::new().with_time(KEEP_ALIVE.idle);
    let kept = kept.with_interval(KEEP_ALIVE.again);
    socket.set_tcp_keepalive(&kept.with_retries(KEEP_ALIVE.asked))?;
    socket.set_tcp_user_timeout(Some(KEEP_ALIVE.silent))
}

#[cfg(test)]
mod tests {
    use super::*;
    use std::net::TcpListener;

    #[test]
    fn a_machine_that_says_nothing_is_asked_whether_it_is_there() {
        let listener = TcpListener::bind("127.0.0.1:0").unwrap();
        let socket = TcpStream::connect(listener.local_addr().unwrap()).unwrap();
        assert!(!SockRef::from(&socket).keepalive().unwrap());
        keep_alive(&socket).unwrap();
        let socket = SockRef::from(&socket);
        assert!(socket.keepalive().unwrap());
        assert_eq!(socket.keepalive_time().unwrap(), KEEP_ALIVE.idle);
        assert_eq!(socket.keepalive_interval().unwrap(), KEEP_ALIVE.again);
        assert_eq!(socket.keepalive_retries().unwrap(), KEEP_ALIVE.asked);
        assert_eq!(socket.tcp_user_timeout().unwrap(), Some(KEEP_ALIVE.silent));
    }
}
