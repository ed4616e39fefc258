//! The messages between clients and servers of a fleet: frames with a length, a kind and fields, in big-endian order.
use crate::copy_name::CopyName;
use durkenzo_control::links::{Fields, WireFault};
use durkenzo_store_sys::HandOver;
use std::io::{self, Read};
use std::time::Duration;

/// The most bytes of a whole body in one frame. Only one frame of a body is under way at a time.
pub(crate) const CHUNK: usize = 256 << 10;
/// The most bytes of a request, and of an answer.
pub(crate) const MOST: usize = 1 << 20;
/// The most bytes of a frame. It has fields besides its payload.
pub(crate) const LONGEST: usize = MOST + 64;
/// The longest time for writing a frame to a connection.
pub(crate) const WRITTEN: Duration = Duration::from_secs(5);
/// The number of bytes that are read at once. Most frames are shorter.
pub(crate) const FIRST: usize = 512;
/// The most words of a command.
const WORDS: u32 = 64;

/// A request to a process.
#[derive(Clone, Copy, Debug, PartialEq, Eq)]
pub(crate) enum Request<'a> {
    /// A client's call, or a call that another server sends on.
    Call(CallFrame<'a>),
    /// The next owner asks for the piece of a copy that begins after `at` bytes, under the record of this generation.
    Copy {
        shard: u16,
        generation: u64,
        name: CopyName,
        at: u64,
    },
    /// The owner hands over a piece of the body.
    Hand(HandFrame<'a>),
    /// A command for the control. If another server passed it on, it goes no further.
    Command { is_passed_on: bool, words: &'a [u8] },
    /// A client asks for the owner of each shard, and for the addresses of the servers.
    Routes,
}

/// A call, as it is sent.
#[derive(Clone, Copy, Debug, PartialEq, Eq)]
pub(crate) struct CallFrame<'a> {
    pub(crate) shard: u16,
    /// The server that forwarded the call as the shard's owner or previous owner, or 0.
    pub(crate) from: u16,
    pub(crate) hops: u8,
    /// The revision of the shard's record under which the call was sent here.
    pub(crate) revision: u64,
    /// The rest of the call's budget, in milliseconds.
    pub(crate) budget: u32,
    pub(crate) request: &'a [u8],
}

/// A piece of a body that is handed over, and the hand-over to which it belongs.
#[derive(Clone, Copy, Debug, PartialEq, Eq)]
pub(crate) struct HandFrame<'a> {
    pub(crate) shard: u16,
    pub(crate) hand: HandOver,
    /// The copy to which the piece belongs. There is none if it belongs to the bytes of a whole body.
    pub(crate) copy: Option<CopyName>,
    /// The number of bytes that came before the piece.
    pub(crate) at: u64,
    pub(crate) is_last: bool,
    pub(crate) bytes: &'a [u8],
}

/// The response of a process.
#[derive(Clone, Copy, Debug, PartialEq, Eq)]
pub(crate) enum Response<'a> {
    /// The call was made.
    Answered {
        server: u16,
        hops: u8,
        fence: u64,
        answer: &'a [u8],
    },
    /// Nothing was done. The request may be sent again.
    Again(&'a str),
    /// The call or the command may have been done.
    Unsure(&'a str),
    /// A piece of a copy, and about how many bytes are left.
    Piece { left: u64, bytes: &'a [u8] },
    /// The piece was taken.
    Taken,
    /// The control's answer, or a map of routes.
    Text(&'a [u8]),
    /// The piece isn't taken, because this process has no copy that it continues.
    NoCopy(&'a str),
}

impl CallFrame<'_> {
    fn write(&self, out: &mut Vec<u8>) {
        out.push(1);
        out.extend(self.shard.to_be_bytes());
        out.extend(self.from.to_be_bytes());
        out.push(self.hops);
        out.extend(self.revision.to_be_bytes());
        out.extend(self.budget.to_be_bytes());
        out.extend(self.request);
    }
}

impl CopyName {
    fn write(&self, out: &mut Vec<u8>) {
        out.extend(self.server.to_be_bytes());
        out.extend(self.joined.to_be_bytes());
        out.extend(self.count.to_be_bytes());
    }

    fn read(fields: &mut Fields<'_>) -> Result<CopyName, WireFault> {
        Ok(CopyName {
            server: fields.short()?,
            joined: fields.long()?,
            count: fields.long()?,
        })
    }
}

impl HandFrame<'_> {
    fn write(&self, out: &mut Vec<u8>) {
        out.push(3);
        out.extend(self.shard.to_be_bytes());
        out.extend(self.hand.server.to_be_bytes());
        out.extend(self.hand.joined.to_be_bytes());
        out.extend(self.hand.generation.to_be_bytes());
        out.push(u8::from(self.copy.is_some()));
        if let Some(name) = &self.copy {
            name.write(out);
        }
        out.extend(self.at.to_be_bytes());
        out.push(u8::from(self.is_last));
        out.extend(self.bytes);
    }
}

impl<'a> Request<'a> {
    /// Returns the bytes of the frame, with room for the bytes of a response.
    pub(crate) fn written(&self) -> Vec<u8> {
        let mut bytes = Vec::with_capacity(FIRST);
        self.write(&mut bytes);
        bytes
    }

    pub(crate) fn write(&self, out: &mut Vec<u8>) {
        framed(out, |out| match self {
            Request::Call(call) => call.write(out),
            Request::Copy {
                shard,
                generation,
                name,
                at,
            } => {
                out.push(2);
                out.extend(shard.to_be_bytes());
                out.extend(generation.to_be_bytes());
                name.write(out);
                out.extend(at.to_be_bytes());
            }
            Request::Hand(hand) => hand.write(out),
            Request::Command {
                is_passed_on,
                words,
            } => {
                out.push(4);
                out.push(u8::from(*is_passed_on));
                out.extend(*words);
            }
            Request::Routes => out.push(5),
        });
    }

    pub(crate) fn read(bytes: &'a [u8]) -> Result<Request<'a>, WireFault> {
        let mut fields = Fields::new(bytes);
        let request = match fields.byte()? {
            1 => Request::Call(CallFrame {
                shard: fields.short()?,
                from: fields.short()?,
                hops: fields.byte()?,
                revision: fields.long()?,
                budget: fields.word()?,
                request: fields.rest(),
            }),
            2 => Request::Copy {
                shard: fields.short()?,
                generation: fields.long()?,
                name: CopyName::read(&mut fields)?,
                at: fields.long()?,
            },
            3 => Request::Hand(HandFrame {
                shard: fields.short()?,
                hand: HandOver {
                    server: fields.short()?,
                    joined: fields.long()?,
                    generation: fields.long()?,
                },
                copy: match fields.flag()? {
                    true => Some(CopyName::read(&mut fields)?),
                    false => None,
                },
                at: fields.long()?,
                is_last: fields.flag()?,
                bytes: fields.rest(),
            }),
            4 => Request::Command {
                is_passed_on: fields.flag()?,
                words: fields.rest(),
            },
            5 => Request::Routes,
            kind => return Err(WireFault::Kind(kind)),
        };
        fields.end().map(|()| request)
    }
}

impl<'a> Response<'a> {
    pub(crate) fn write(&self, out: &mut Vec<u8>) {
        framed(out, |out| match self {
            Response::Answered {
                server,
                hops,
                fence,
                answer,
            } => {
                out.push(1);
                out.extend(server.to_be_bytes());
                out.push(*hops);
                out.extend(fence.to_be_bytes());
                out.extend(*answer);
            }
            Response::Again(why) => {
                out.push(2);
                out.extend(why.as_bytes());
            }
            Response::Unsure(why) => {
                out.push(3);
                out.extend(why.as_bytes());
            }
            Response::Piece { left, bytes } => {
                out.push(4);
                out.extend(left.to_be_bytes());
                out.extend(*bytes);
            }
            Response::Taken => out.push(5),
            Response::Text(bytes) => {
                out.push(6);
                out.extend(*bytes);
            }
            Response::NoCopy(why) => {
                out.push(7);
                out.extend(why.as_bytes());
            }
        });
    }

    pub(crate) fn read(bytes: &'a [u8]) -> Result<Response<'a>, WireFault> {
        let mut fields = Fields::new(bytes);
        let response = match fields.byte()? {
            1 => Response::Answered {
                server: fields.short()?,
                hops: fields.byte()?,
                fence: fields.long()?,
                answer: fields.rest(),
            },
            2 => Response::Again(text(fields.rest())?),
            3 => Response::Unsure(text(fields.rest())?),
            4 => Response::Piece {
                left: fields.long()?,
                bytes: fields.rest(),
            },
            5 => Response::Taken,
            6 => Response::Text(fields.rest()),
            7 => Response::NoCopy(text(fields.rest())?),
            kind => return Err(WireFault::Answer(kind)),
        };
        fields.end().map(|()| response)
    }
}

fn text(bytes: &[u8]) -> Result<&str, WireFault> {
    std::str::from_utf8(bytes).map_err(|_| WireFault::Text)
}

/// Writes a frame. `write` writes its fields.
fn framed(out: &mut Vec<u8>, write: impl FnOnce(&mut Vec<u8>)) {
    let begin = out.len();
    out.extend([0; 4]);
    write(out);
    // A request, an answer or a piece that is too long was refused before, so the length fits.
    let length = (out.len() - begin - 4) as u32;
    out[begin..begin + 4].copy_from_slice(&length.to_be_bytes());
}

/// Writes the words of a command.
pub(crate) fn spelled<'a>(words: impl IntoIterator<Item = &'a [u8]>) -> Vec<u8> {
    let mut out = Vec::new();
    for word in words {
        out.extend((word.len() as u32).to_be_bytes());
        out.extend(word);
    }
    out
}

/// Reads the words of a command.
pub(crate) fn words(bytes: &[u8]) -> Result<Vec<&[u8]>, WireFault> {
    let (mut fields, mut words, mut left) = (Fields::new(bytes), Vec::new(), bytes.len());
    while left > 0 {
        let word = fields.bytes(left)?;
        left -= 4 + word.len();
        words.push(word);
        if words.len() > WORDS as usize {
            return Err(WireFault::Words);
        }
    }
    Ok(words)
}

/// Reads the first frame of these bytes both as a request, with the words of a command, and as a response. For each of
/// the two, returns the bytes written anew, if the frame can be read so. Only fuzzing uses this.
#[doc(hidden)]
pub fn respelled(mut bytes: &[u8]) -> [Option<Vec<u8>>; 2] {
    let mut room = Vec::new();
    if receive(&mut bytes, &mut room).is_err() {
        return [None, None];
    }
    let request = Request::read(&room).ok().and_then(|request| {
        let mut out = Vec::new();
        let Request::Command {
            is_passed_on,
            words: told,
        } = request
        else {
            request.write(&mut out);
            return Some(out);
        };
        let words = &spelled(words(told).ok()?);
        let again = Request::Command {
            is_passed_on,
            words,
        };
        again.write(&mut out);
        Some(out)
    });
    let response = Response::read(&room).ok().map(|response| {
        let mut out = Vec::new();
        response.write(&mut out);
        out
    });
    [request, response]
}

/// Reads a frame into the room. If the frame is longer than [`LONGEST`], refuses it before making room for it.
pub(crate) fn receive(from: &mut impl Read, room: &mut Vec<u8>) -> io::Result<()> {
    let mut length = [0; 4];
    from.read_exact(&mut length)?;
    let length = u32::from_be_bytes(length) as usize;
    if length > LONGEST {
        return Err(io::Error::new(
            io::ErrorKind::InvalidData,
            WireFault::TooLong,
        ));
    }
    room.clear();
    // This makes room only for the bytes that have come, because the length may be false.
    from.take(length as u64).read_to_end(room)?;
    match room.len() == length {
        true => Ok(()),
        false => Err(io::ErrorKind::UnexpectedEof.into()),
    }
}

/// Reads a frame into the room, as [`receive`] does, but reads most frames at once. Returns whether nothing was read
/// behind the frame. If something was, it is dropped, so the caller must not read from there again.
pub(crate) fn receive_last(from: &mut impl Read, room: &mut Vec<u8>) -> io::Result<bool> {
    room.clear();
    room.resize(FIRST, 0);
    let mut count = 0;
    while count < 4 {
        match from.read(&mut room[count..]) {
            Ok(0) => return Err(io::ErrorKind::UnexpectedEof.into()),
            Ok(more) => count += more,
            Err(error) if error.kind() == io::ErrorKind::Interrupted => {}
            Err(error) => return Err(error),
        }
    }
    room.truncate(count);
    let length = room
        .drain(..4)
        .fold(0, |it, byte| it << 8 | usize::from(byte));
    if length > LONGEST {
        return Err(io::Error::new(
            io::ErrorKind::InvalidData,
            WireFault::TooLong,
        ));
    }
    let is_alone = room.len() <= length;
    room.truncate(length);
    from.take((length - room.len()) as u64).read_to_end(room)?;
    match room.len() == length {
        true => Ok(is_alone),
        false => Err(io::ErrorKind::UnexpectedEof.into()),
    }
}

#[cfg(test)]
mod tests {
    use super::*;

    #[test]
    fn requests_are_read_as_they_were_written() {
        let hand = HandOver {
            joined: 7,
            generation: 9,
            server: 2,
        };
        let name = CopyName {
            server: 4,
            joined: 6,
            count: 5,
        };
        let handed = |copy| {
            Request::Hand(HandFrame {
                shard: 3,
                hand,
                copy,
                at: 4,
                is_last: true,
                bytes: b"abc",
            })
        };
        for request in [
            Request::Call(CallFrame {
                shard: 3,
                from: 1,
                hops: 2,
                revision: 1 << 40,
                budget: 500,
                request: b"hit",
            }),
            Request::Copy {
                shard: 3,
                generation: 8,
                name,
                at: 1 << 33,
            },
            handed(Some(name)),
            handed(None),
            Request::Command {
                is_passed_on: true,
                words: b"x",
            },
            Request::Routes,
        ] {
            let mut out = Vec::new();
            request.write(&mut out);
            let mut room = Vec::new();
            receive(&mut &out[..], &mut room).unwrap();
            assert_eq!(Request::read(&room), Ok(request));
        }
    }

    #[test]
    fn responses_are_read_as_they_were_written() {
        for response in [
            Response::Answered {
                server: 2,
                hops: 1,
                fence: 77,
                answer: b"7",
            },
            Response::Again("paused"),
            Response::Unsure("late"),
            Response::Piece {
                left: 9,
                bytes: b"piece",
            },
            Response::Taken,
            Response::Text(b"lines"),
            Response::Text(&[7; 2 * FIRST]),
            Response::NoCopy("begin"),
        ] {
            let mut out = Vec::new();
            response.write(&mut out);
            assert_eq!(Response::read(&out[4..]), Ok(response));
            let mut room = Vec::new();
            assert!(receive_last(&mut &out[..], &mut room).unwrap());
            assert_eq!(room, out[4..]);
            // The server may leave as soon as it has answered, and say so.
            let length = out.len();
            Response::Again("it leaves").write(&mut out);
            let is_alone = receive_last(&mut &out[..], &mut room).unwrap();
            assert_eq!(room, out[4..length]);
            assert_eq!(is_alone, length > FIRST);
        }
    }

    #[test]
    fn frames_that_are_none_are_refused() {
        let mut room = Vec::new();
        let endless = receive(&mut &[0xff; 8][..], &mut room);
        assert_eq!(endless.unwrap_err().kind(), io::ErrorKind::InvalidData);
        assert_eq!(room.capacity(), 0);
        for (bytes, kind) in [
            (&[0xff; 8][..], io::ErrorKind::InvalidData),
            (&[0, 0, 0, 3, 1, 2], io::ErrorKind::UnexpectedEof),
            (&[0, 0], io::ErrorKind::UnexpectedEof),
        ] {
            let last = receive_last(&mut &bytes[..], &mut Vec::new());
            assert_eq!(last.unwrap_err().kind(), kind, "{bytes:?}");
        }
        let cut = receive(&mut &[0, 16, 0, 0, 1, 2][..], &mut room);
        assert_eq!(cut.unwrap_err().kind(), io::ErrorKind::UnexpectedEof);
        assert!(room.capacity() < 1 << 10, "{}", room.capacity());
        assert_eq!(Request::read(&[9]), Err(WireFault::Kind(9)));
        assert_eq!(Request::read(&[1, 0]), Err(WireFault::TooShort));
        assert_eq!(Request::read(&[5, 0]), Err(WireFault::TooMuch));
        assert_eq!(Request::read(&[4, 2]), Err(WireFault::Flag(2)));
        assert_eq!(Response::read(&[2, 0xff]), Err(WireFault::Text));
        let command = spelled([&b"SM"[..], b"MIGRATE", b""]);
        assert_eq!(words(&command), Ok(vec![&b"SM"[..], b"MIGRATE", b""]));
        assert!(words(&command[..5]).is_err() && words(&[0, 0, 0, 9, 1]).is_err());
    }
}
