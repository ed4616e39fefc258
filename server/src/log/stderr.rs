use rustix::io::Errno;
use std::io;
use std::thread;
use std::time::Duration;

/// How long it pauses if the reader takes nothing now, and standard error is nonblocking.
const PAUSE: Duration = Duration::from_millis(10);

/// Standard error, without the standard library's lock. A thread that writes may wait for the reader, and must not hold
/// up other threads.
#[derive(Clone, Copy, Debug)]
pub(super) struct Stderr;

impl Stderr {
    /// Writes all bytes, and waits for the reader. Returns whether it succeeded.
    pub(super) fn put(self, mut bytes: &[u8]) -> bool {
        while !bytes.is_empty() {
            match rustix::io::write(io::stderr(), bytes) {
                Ok(0) => return false,
                Ok(count) => bytes = &bytes[count..],
                Err(Errno::INTR) => {}
                Err(Errno::AGAIN) => thread::sleep(PAUSE),
                Err(_) => return false,
            }
        }
        true
    }
}

impl io::Write for Stderr {
    /// If standard error can't be written, there is nobody to tell.
    fn write(&mut self, bytes: &[u8]) -> io::Result<usize> {
        self.put(bytes);
        Ok(bytes.len())
    }

    fn flush(&mut self) -> io::Result<()> {
        Ok(())
    }
}
