//! Reading lines and answering them.

use crate::fakes::{FailingFlush, FailingReader, FailingWriter};
use sm_lines::{
    AnswerFault, Dialogue, LineReader, Next, PIECE, PieceWriter, Responder, Watched, answer_lines,
    write_whole,
};
use std::alloc::{AllocError, Global};
use std::io::{Read, Write};
use std::test::Fail;

/// Answers a line by itself, and a longer one by `long ` and its first bytes.
#[derive(Drop)]
pub(crate) struct Echo;

impl Responder for Echo {
    ghost use Rattle.std.specs.Prelude.{◌≡◌, ◌++◌, ◌∷◌, [], codes};

    ghost gives = { λ _ line text _. text ≡ line ++ 10 ∷ [] };

    ghost gives_long = { λ _ start text. text ≡ codes "long " ++ start ++ 10 ∷ [] };

    fn respond(&mut self, line: &[u8], out: &mut Vec<u8>) -> Result<(), AllocError> {
        out.extend_from_slice(line)?;
        out.push(b'\n')?;
        Ok(())
    }

    fn respond_long(&self, start: &[u8], out: &mut Vec<u8>) -> Result<(), AllocError> {
        out.extend_from_slice(b"long ")?;
        out.extend_from_slice(start)?;
        out.push(b'\n')?;
        Ok(())
    }
}

/// Answers all lines of the reader, of which those over four bytes are long.
fn answer<R: Read + Drop>(
    alloc: Global,
    inner: R,
    written: &mut Vec<u8>,
    writes: usize,
) -> Result<(), AnswerFault> {
    let mut dialogue = Dialogue::new(alloc, inner, FailingWriter::new(written, writes))?;
    answer_lines(alloc, &mut dialogue, &mut Echo, 4)
}

/// Whether all lines of the reader are answered by these texts, where the writer takes so many pieces of two bytes.
fn is_answered<R: Read + Drop>(
    alloc: Global,
    inner: R,
    writes: usize,
    end: Result<(), AnswerFault>,
    want: &[u8],
) -> bool {
    let mut written = Vec::new(alloc);
    answer(alloc, inner, &mut written, writes) == end && written.as_slice() == want
}

#[test]
fn answers_each_line(rt: HostRuntime) {
    let cases: [(&[u8], &[u8]); 9] = [
        (b"", b""),
        (b"\n", b"\n"),
        (b"ab", b"ab\n"),
        (b"ab\n", b"ab\n"),
        (b"ab\n\ncd", b"ab\n\ncd\n"),
        (b"a\r\n b", b"a\r\n b\n"),
        (b"abcd\nabcde\nx", b"abcd\nlong abcd\nx\n"),
        (b"abcdefgh", b"long abcd\n"),
        (b"\xff\x00\n\xfe", b"\xff\x00\n\xfe\n"),
    ];
    for (input, want) in cases {
        let by_byte = FailingReader::new(input, 1000);
        assert!(rt; is_answered(rt.alloc(), input, 1000, Ok(()), want));
        assert!(rt; is_answered(rt.alloc(), by_byte, 1000, Ok(()), want));
    }
}

#[test]
fn stops_where_the_reader_fails(rt: HostRuntime) {
    // In the last case there are fifteen bytes and the end, which is read once.
    let cases: [(usize, Result<(), AnswerFault>, &[u8]); 7] = [
        (0, Err(AnswerFault::Read), b""),
        (3, Err(AnswerFault::Read), b""),
        (4, Err(AnswerFault::Read), b"one\n"),
        (5, Err(AnswerFault::Read), b"one\n\n"),
        (9, Err(AnswerFault::Read), b"one\n\n"),
        (12, Err(AnswerFault::Read), b"one\n\nlong thre\n"),
        (16, Ok(()), b"one\n\nlong thre\nend\n"),
    ];
    for (left, end, want) in cases {
        let reader = FailingReader::new(b"one\n\nthree!\nend", left);
        assert!(rt;
            is_answered(rt.alloc(), reader, 1000, end, want),
            "at {left}"
        );
    }
}

#[test]
fn stops_where_the_writer_fails(rt: HostRuntime) {
    let cases: [(usize, Result<(), AnswerFault>, &[u8]); 5] = [
        (0, Err(AnswerFault::Write), b""),
        (1, Err(AnswerFault::Write), b"on"),
        (2, Err(AnswerFault::Write), b"one\n"),
        (3, Err(AnswerFault::Write), b"one\ntw"),
        (4, Ok(()), b"one\ntwo\n"),
    ];
    for (writes, end, want) in cases {
        let reader = b"one\ntwo\n".as_slice();
        assert!(rt;
            is_answered(rt.alloc(), reader, writes, end, want),
            "at {writes}"
        );
    }
}

/// A line of so many bytes, and its line feed.
fn long_line(alloc: Global, length: usize) -> Result<Vec<u8>, AllocError> {
    let mut line = vec![in alloc; b'a'; length]?;
    line.push(b'\n')?;
    Ok(line)
}

#[test]
fn reads_a_line_of_two_pieces(rt: HostRuntime) -> Result<(), Fail> {
    let input = long_line(rt.alloc(), 2 * PIECE)?;
    let mut lines = LineReader::new(rt.alloc(), input.as_slice())?;
    assert!(rt; lines.next_line(2 * PIECE) == Ok(Next::Line));
    assert!(rt; lines.line().len() == 2 * PIECE);
    assert!(rt; !lines.holds_line());
    Ok(())
}

#[test]
fn keeps_the_front_of_a_line_of_two_pieces(rt: HostRuntime) -> Result<(), Fail> {
    let input = long_line(rt.alloc(), 2 * PIECE)?;
    let mut lines = LineReader::new(rt.alloc(), input.as_slice())?;
    assert!(rt; lines.next_line(2 * PIECE - 1) == Ok(Next::LongLine));
    assert!(rt; lines.line().len() == 2 * PIECE - 1);
    assert!(rt; !lines.holds_line());
    Ok(())
}

#[test]
fn the_end_is_read_once(rt: HostRuntime) -> Result<(), Fail> {
    let mut lines = LineReader::new(rt.alloc(), b"a\n".as_slice())?;
    assert!(rt; lines.next_line(4) == Ok(Next::Line));
    assert!(rt; lines.next_line(4) == Ok(Next::End));
    assert!(rt; lines.next_line(4) == Ok(Next::End));
    assert!(rt; lines.reader().calls() == 2);
    assert!(rt; lines.reader().has_ended());
    assert!(rt; !lines.reader().has_read_past_end());
    Ok(())
}

#[test]
fn a_read_past_the_end_is_told(rt: HostRuntime) -> Result<(), Fail> {
    let mut reader = Watched::new(b"".as_slice());
    assert!(rt; matches!(reader.read(&mut [0u8; 1]), Ok(0)));
    assert!(rt; reader.has_ended() && !reader.has_read_past_end());
    assert!(rt; matches!(reader.read(&mut [0u8; 1]), Ok(0)));
    assert!(rt; reader.has_read_past_end());
    Ok(())
}

#[test]
fn a_failed_read_is_passed_on_once(rt: HostRuntime) -> Result<(), Fail> {
    let mut inner = FailingReader::new(b"ab", 1);
    let mut reader = Watched::new(&mut inner);
    assert!(rt; matches!(reader.read(&mut [0u8; 4]), Ok(1)));
    assert!(rt; !reader.has_failed());
    assert!(rt; reader.read(&mut [0u8; 4]).is_err());
    assert!(rt; reader.has_failed());
    assert!(rt; reader.calls() == 2);
    assert!(rt; inner.faults == 1);
    Ok(())
}

#[test]
fn a_failed_write_is_passed_on_once(rt: HostRuntime) -> Result<(), Fail> {
    let mut written = Vec::new(rt.alloc());
    let mut inner = FailingWriter::new(&mut written, 1);
    let mut writer = Watched::new(&mut inner);
    assert!(rt; matches!(writer.write(b"abc"), Ok(2)));
    assert!(rt; !writer.has_failed());
    assert!(rt; writer.write(b"c").is_err());
    assert!(rt; writer.has_failed());
    assert!(rt; writer.calls() == 2);
    assert!(rt; inner.faults == 1);
    Ok(())
}

#[test]
fn a_failed_flush_is_passed_on_once(rt: HostRuntime) -> Result<(), Fail> {
    let mut inner = FailingFlush { faults: 0 };
    let mut pieces = PieceWriter::new(rt.alloc(), &mut inner)?;
    assert!(rt; pieces.write(b"a").is_ok());
    assert!(rt; !pieces.writer().has_failed());
    assert!(rt; pieces.flush().is_err());
    assert!(rt; pieces.writer().has_failed());
    assert!(rt; inner.faults == 1);
    Ok(())
}

#[test]
fn writes_in_pieces(rt: HostRuntime) -> Result<(), Fail> {
    let alloc = rt.alloc();
    let mut written = Vec::new(alloc);
    let mut pieces = PieceWriter::new(alloc, &mut written)?;
    let large = long_line(alloc, PIECE)?;
    assert!(rt; pieces.write(b"b").is_ok());
    assert!(rt; pieces.writer().calls() == 0);
    assert!(rt; pieces.write(large.as_slice()).is_ok());
    assert!(rt; pieces.write(b"c").is_ok());
    assert!(rt; pieces.writer().calls() == 2);
    assert!(rt; pieces.flush().is_ok());
    assert!(rt; pieces.writer().calls() == 3);
    assert!(rt; written.starts_with(b"baa"));
    assert!(rt; written.ends_with(b"a\nc"));
    Ok(())
}

#[test]
fn writes_whole(rt: HostRuntime) -> Result<(), Fail> {
    let mut written = Vec::new(rt.alloc());
    let mut writer = Watched::new(FailingWriter::new(&mut written, 3));
    assert!(rt; write_whole(&mut writer, b"abcde").is_ok());
    assert!(rt; writer.calls() == 3);
    assert!(rt; written.as_slice() == b"abcde".as_slice());
    Ok(())
}

#[test]
fn reads_a_line_and_a_front_of_a_longer_one(rt: HostRuntime) -> Result<(), Fail> {
    let alloc = rt.alloc();
    let mut lines = LineReader::new(alloc, b"one\nthree".as_slice())?;
    assert!(rt; lines.next_line(4) == Ok(Next::Line));
    assert!(rt; lines.line() == b"one".as_slice());
    assert!(rt; lines.next_line(4) == Ok(Next::LongLine));
    assert!(rt; lines.line() == b"thre".as_slice());
    Ok(())
}
