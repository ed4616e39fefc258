use super::frames::{locked, SharedFrames, TO_ASKER, TO_SERVER};
use durkenzo_fleet::simulated::{EndOfRequests, Talk};
use std::future::poll_fn;
use std::io;

/// How many bytes state the length of a frame. That length counts only the bytes behind them.
const LENGTH: usize = 4;

/// A connection, on the side of the process that is asked.
pub struct FrameTalk {
    pub number: u64,
    pub frames: SharedFrames,
}

/// Ends the requests of a connection.
pub struct FrameEnd {
    pub number: u64,
    pub frames: SharedFrames,
}

impl Talk for FrameTalk {
    async fn read_frame(&mut self, room: &mut Vec<u8>) -> io::Result<()> {
        let received =
            poll_fn(|context| locked(&self.frames).received(self.number, TO_SERVER, context));
        let frame = received.await?;
        room.clear();
        room.extend_from_slice(&frame[LENGTH..]);
        Ok(())
    }

    async fn write(&mut self, bytes: &[u8]) -> io::Result<()> {
        locked(&self.frames).send(self.number, TO_ASKER, bytes.to_vec())
    }

    fn is_open(&self) -> bool {
        locked(&self.frames).is_open(self.number)
    }
}

impl Drop for FrameTalk {
    fn drop(&mut self) {
        locked(&self.frames).close(self.number, TO_ASKER);
    }
}

impl EndOfRequests for FrameEnd {
    fn end_reading(&self) {
        locked(&self.frames).end_requests(self.number);
    }
}
