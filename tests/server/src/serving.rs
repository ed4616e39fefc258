//! What a server answers, and refuses.
use crate::calls::{
    get_of, inc_of, is_text_at, new_full, new_owner, new_server, place_of, put_of, shard, told,
};
use crate::server::{Server, note_of};
use sm_envelope::Envelope;
use sm_ownership::admit_fault::AdmitFault;
use sm_ownership::change::Change;
use sm_ranges::{ServerId, ShardId};
use sm_rule::AdmitRefusal;
use sm_server::{Answer, CheckpointFault, Outcome, Refusal, serve};
use sm_service::{CounterText, Reply, Service};
use std::alloc::Global;
use std::process::Abort;
use std::test::Fail;

// Why the server refuses the request for the shard; none where it doesn't.
fn refusal<S: Service>(server: &mut Server<S>, k: ShardId, request: S::Request) -> Option<Refusal> {
    Some(server.refused(k, request)?.0)
}

fn is_vacant(fault: AdmitRefusal) -> bool {
    match fault {
        AdmitRefusal::Refused(fault, _) => fault == AdmitFault::Vacant,
        _ => false,
    }
}

fn is_for_vacant(refusal: Option<Refusal>) -> bool {
    match refusal {
        Some(Refusal::Admit(refusal)) => is_vacant(refusal),
        _ => false,
    }
}

// A server that has refused a request whose key is another shard's, and one for a shard that is vacant. Then it was given the shard.
fn new_refuser<R: Abort>(rt: &R, alloc: Global) -> Server<CounterText> {
    let mut server = new_server(rt, alloc, 100);
    let elsewhere = refusal(&mut server, shard(1), get_of(rt, alloc));
    assert!(rt; elsewhere == Some(Refusal::WrongShard));
    assert!(rt; is_for_vacant(refusal(&mut server, shard(0), get_of(rt, alloc))));
    assert!(rt; server.change(shard(0), Change::Assign(ServerId::of(1))));
    server
}

// Whether the server answered nothing.
fn is_nothing_by(answer: Answer<CounterText>, server: ServerId) -> bool {
    answer.server() == server && matches!(answer.parts().0, Reply::Nothing)
}

// A request for another shard, for a vacant one, and for one that the server owns. It is the example of the crate's documentation.
#[test]
fn serve_refuses_then_answers(rt: HostRuntime) -> Result<(), Fail> {
    let (alloc, k) = (rt.alloc(), shard(0));
    let (board, layout, mut pass) = new_refuser(&rt, alloc).parts();
    let (request, note) = (get_of(&rt, alloc), note_of(&board));
    let envelope = Envelope::new(7, k, request, note);
    let answer = match serve(&board, &layout, &mut pass, envelope) {
        Outcome::Answered(answer) => answer,
        _ => return Err("not answered by the owner".into()),
    };
    assert_eq!(rt; (answer.number(), answer.place()), (7, 0));
    assert!(rt; is_nothing_by(answer, ServerId::of(1)));
    Ok(())
}

/// The place of a request that a full shard hands back, once a checkpoint is made.
pub(crate) fn place_past_full<S: Service, R: Abort>(
    rt: &R,
    server: &mut Server<S>,
    k: ShardId,
    request: S::Request,
) -> Option<u64> {
    let (refusal, back) = server.refused(k, request).expect(rt, "a refusal");
    assert!(rt; refusal == Refusal::KeptFull);
    assert!(rt; server.checkpoint(rt, k).is_none());
    place_of(server.serve_again(back))
}

// A full shard hands the envelope back, which is answered after a checkpoint. That changes no place.
#[test]
fn full_shard_hands_back(rt: HostRuntime) {
    let (alloc, k) = (rt.alloc(), shard(0));
    let mut server = new_owner(&rt, alloc, 1);
    assert!(rt; place_of(server.serve(k, inc_of(&rt, alloc))) == Some(0));
    assert!(rt; place_past_full(&rt, &mut server, k, get_of(&rt, alloc)) == Some(1));
}

// A checkpoint is refused as an admission is.
#[test]
fn vacant_shard_makes_no_checkpoint(rt: HostRuntime) {
    let mut server = new_server(&rt, rt.alloc(), 1);
    let is_vacant = match server.checkpoint(&rt, shard(0)) {
        Some(CheckpointFault::Admit(refusal)) => is_vacant(refusal),
        _ => false,
    };
    assert!(rt; is_vacant);
}

// The last server of the greatest board answers for the last shard, before a checkpoint and after it.
#[test]
fn serves_at_the_limits(rt: HostRuntime) {
    let (alloc, k, last) = (rt.alloc(), shard(4_095), ServerId::of(4_095));
    let mut server = new_full(&rt, alloc);
    assert!(rt; server.change(k, Change::Assign(last)));
    server.go_on_as(last);
    assert!(rt; place_of(server.serve(k, put_of(&rt, alloc, b"x"))) == Some(0));
    assert!(rt; server.checkpoint(&rt, k).is_none());
    assert!(rt; is_text_at(told(server.serve(k, get_of(&rt, alloc))), 1, b"x"));
}
