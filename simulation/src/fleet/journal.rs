use super::book::{locked, Execution, JournalBody, SharedBook};
use crate::time::Time;
use durkenzo_fleet::{Call, Came, Changes, Fault, Piece, Service, Shard};

/// How many bytes a number has.
const NUMBER: usize = 8;

/// A service that keeps all calls of a shard in their order, and notes them in the book.
pub struct Journal {
    pub book: SharedBook,
    pub time: Time,
    pub life: u64,
    /// Whether its bodies move in pieces.
    pub is_in_pieces: bool,
    /// Whether its calls are judged. They are unless a clock may be slower than the bound.
    pub is_judged: bool,
}

fn number(bytes: &[u8]) -> Result<u64, Fault> {
    Ok(u64::from_be_bytes(bytes.try_into()?))
}

fn spelled(numbers: &[u64]) -> Vec<u8> {
    numbers.iter().flat_map(|it| it.to_be_bytes()).collect()
}

impl Journal {
    fn note_handed(&self, shard: Shard, body: &JournalBody) {
        let holder = (self.life, self.time.passed());
        locked(&self.book).note_handed(shard.number(), holder, body);
    }
}

impl Service for Journal {
    type Body = JournalBody;

    fn add(&self, shard: Shard, came: Came<'_>) -> Result<JournalBody, Fault> {
        let bytes = match came {
            Came::New => return Ok(locked(&self.book).begin_body(shard.number(), true)),
            Came::Lost => return Ok(locked(&self.book).begin_body(shard.number(), false)),
            Came::Handed(bytes) => bytes,
        };
        let mut body = JournalBody::default();
        self.add_piece(&mut body, bytes)?;
        self.note_handed(shard, &body);
        Ok(body)
    }

    fn answer(&self, body: &mut JournalBody, call: Call<'_>) -> Vec<u8> {
        let made = Execution {
            call: number(call.request()).expect("clients send numbers"),
            shard: call.shard().number(),
            fence: call.fence(),
            life: self.life,
            at: self.time.passed(),
        };
        let place = locked(&self.book).make(body, made, self.is_judged);
        place.to_be_bytes().to_vec()
    }

    fn hand_over(&self, body: &mut JournalBody) -> Vec<u8> {
        spelled(&body.numbers())
    }

    fn changes(&self) -> Option<&dyn Changes<JournalBody>> {
        self.is_in_pieces.then_some(self)
    }
}

impl Changes<JournalBody> for Journal {
    fn begin_copy(&self, body: &mut JournalBody) {
        body.copied = Some(0);
    }

    fn next_piece(&self, body: &mut JournalBody, most: usize) -> Piece {
        let copied = body.copied.expect("the copy has begun");
        let numbers = body.numbers();
        let count = (most / NUMBER).max(1).min(numbers.len() - copied);
        let end = copied + count;
        body.copied = Some(end);
        let left = NUMBER * (numbers.len() - end);
        Piece {
            bytes: spelled(&numbers[copied..end]),
            left: left as u64,
        }
    }

    fn end_copy(&self, body: &mut JournalBody) {
        body.copied = None;
    }

    fn begin_body(&self, _shard: Shard) -> Result<JournalBody, Fault> {
        Ok(JournalBody::default())
    }

    fn add_piece(&self, body: &mut JournalBody, piece: &[u8]) -> Result<(), Fault> {
        let mut numbers = piece.chunks(NUMBER).map(number);
        if body.epoch == 0 {
            body.epoch = numbers.next().ok_or("the body is empty")??;
        }
        for call in numbers {
            body.calls.push(call?);
        }
        Ok(())
    }

    fn end_body(&self, shard: Shard, body: &mut JournalBody) -> Result<(), Fault> {
        self.note_handed(shard, body);
        Ok(())
    }
}
