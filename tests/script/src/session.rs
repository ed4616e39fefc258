//! A session over a backend of its own, on which no call runs.

ghost use Rattle.std.specs.Prelude.{◌≡◌, [], Ok, OnOk};
ghost use Rattle.sm_script.specs.declared.fault.LineFault.TheVariants.{NotHere};
ghost use Rattle.sm_script.specs.declared.line_answer.LineAnswer.TheVariants.{Error};
ghost use Rattle.sm_session.specs.Responses.{Responds};

use sm_desk::Command;
use sm_lines::Responder;
use sm_ranges::key::Key;
use sm_ranges::{ServerId, ShardId};
use sm_script::{LineAnswer, LineFault, LoadClients};
use sm_service::Request;
use sm_session::{Backend, Session};
use std::alloc::{AllocError, Global};
use std::test::Fail;

/// A backend on which no call runs.
#[derive(Clone, Copy, PartialEq, Eq, Drop)]
struct Nowhere;

/// The answer to each call.
fn not_here() -> Result<LineAnswer, AllocError>
    ensures { result ≡ Ok (Error NotHere) }
{
    Ok(LineAnswer::Error(LineFault::NotHere))
}

impl Backend for Nowhere {
    ghost use Rattle.std.specs.Prelude.{◌≡◌};
    ghost use Rattle.sm_script.specs.declared.fault.LineFault.TheVariants.{NotHere};
    ghost use Rattle.sm_script.specs.declared.line_answer.LineAnswer.TheVariants.{Error};

    ghost answers = { λ before _ answer after. (answer ≡ Error NotHere) × (after ≡ before) };

    fn command(&mut self, _command: Command) -> Result<LineAnswer, AllocError> {
        not_here()
    }

    fn hold(&mut self, _shard: ShardId, _server: ServerId) -> Result<LineAnswer, AllocError> {
        not_here()
    }

    fn free(&mut self, _shard: ShardId) -> Result<LineAnswer, AllocError> {
        not_here()
    }

    fn checkpoint(&mut self, _shard: ShardId, _server: ServerId) -> Result<LineAnswer, AllocError> {
        not_here()
    }

    fn publish(&mut self, _shard: ShardId) -> Result<LineAnswer, AllocError> {
        not_here()
    }

    fn route(&mut self, _key: Key) -> Result<LineAnswer, AllocError> {
        not_here()
    }

    fn look(&mut self, _shard: ShardId) -> Result<LineAnswer, AllocError> {
        not_here()
    }

    fn load(
        &mut self,
        _key: Key,
        _clients: LoadClients,
        _each: u16,
    ) -> Result<LineAnswer, AllocError> {
        not_here()
    }

    fn place(&mut self) -> Result<LineAnswer, AllocError> {
        not_here()
    }

    fn drain(&mut self, _server: ServerId) -> Result<LineAnswer, AllocError> {
        not_here()
    }

    fn request(&mut self, _request: Request) -> Result<LineAnswer, AllocError> {
        not_here()
    }

    fn request_at(
        &mut self,
        _server: ServerId,
        _request: Request,
    ) -> Result<LineAnswer, AllocError> {
        not_here()
    }

    fn request_by_route(&mut self, _request: Request) -> Result<LineAnswer, AllocError> {
        not_here()
    }
}

/// Puts the answer to the line into `out`. At a session on this backend nothing is owed but that `out` is empty.
fn respond_nowhere(
    session: &mut Session<Nowhere>,
    line: &[u8],
    out: &mut Vec<u8>,
) -> Result<(), AllocError>
    requires { out.old.items ≡ [] }
    ensures { OnOk result (Responds (λ before _ answer after. (answer ≡ Error NotHere) × (after ≡ before))
        session.old line.now out.new.items session.new) }
{
    session.respond(line, out)
}

#[test]
fn documented_example(rt: HostRuntime) -> Result<(), Fail> {
    let alloc = rt.alloc();
    let backend = Nowhere;
    let mut session = Session::new(alloc, backend);
    let mut out = Vec::new(alloc);
    session.respond(b"look 0", &mut out)?;
    assert_eq!(rt; out.as_slice(), b"error NotHere\n".as_slice());
    Ok(())
}

#[test]
fn lines_without_a_call_ask_no_backend(rt: HostRuntime) -> Result<(), Fail> {
    let alloc = rt.alloc();
    let mut session = Session::new(alloc, Nowhere);
    let mut comment = Vec::new(alloc);
    respond_nowhere(&mut session, b"# look 0", &mut comment)?;
    assert!(rt; comment.is_empty());
    let mut unknown = Vec::new(alloc);
    respond_nowhere(&mut session, b"stare 0", &mut unknown)?;
    assert_eq!(rt; unknown.as_slice(), b"error UnknownWord\n".as_slice());
    assert!(rt; *session.backend() == Nowhere);
    Ok(())
}
