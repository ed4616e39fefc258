ghost use Rattle.std.specs.Prelude.{◌≡◌, None, IfErr, IsSome};

use crate::request::{Answering, told_by};
use crate::site::{Body, Site};
use sm_envelope::Envelope;
use sm_ranges::server_id::ServerId;
use sm_ranges::shard_id::ShardId;
use sm_rule::{Note, Pass};
use sm_server::{Outcome, Refusal, serve};
use sm_service::Request;
use std::{hint, thread};

// How often the wait before the next try is doubled.
const MOST_DOUBLINGS: u64 = 6;

/// A pass of server 1, and one of a client.
#[derive(Drop)]
pub(crate) struct Worker<'a> {
    site: &'a Site,
    pass: Pass<Body>,
    client: Pass<Body>,
    ghost tied: { pass.board ≡ site.now.board },
    ghost client_tied: { client.board ≡ site.now.board },
    ghost server: { IsSome pass.server },
    ghost free: { pass.held ≡ None },
}

impl<'a> Worker<'a> {
    pub(crate) fn new(site: &'a Site) -> Worker<'a> {
        Worker {
            site,
            pass: site.board.pass(Some(ServerId::of(1))),
            client: site.board.pass(None),
        }
    }

    // What the reply tells; or the envelope, where the server isn't admitted.
    fn serve(
        &mut self,
        envelope: Envelope<Request, Note<Body>>,
    ) -> Result<u64, Envelope<Request, Note<Body>>>
        requires { envelope.note.board ≡ self.old.site.now.board }
        ensures site { self.new.site.now.board ≡ self.old.site.now.board }
        ensures back { IfErr result (λ back. back.note.board ≡ self.old.site.now.board) }
    {
        let site = self.site;
        match serve(&site.board, &site.layout, &mut self.pass, envelope) {
            Outcome::Answered(answer) => Ok(told_by(answer.reply())),
            Outcome::Refused(Refusal::Admit(_), back) => Err(back),
            _ => Ok(0),
        }
    }
}

// Waits before the next try: each time twice as long, and at last until other threads have run. A server's step on a shard that is
// admitted is a look, which takes the line of the shard's word from who is admitted.
fn back_off(refusals: u64) {
    if refusals > MOST_DOUBLINGS {
        thread::yield_now();
        return;
    }
    for _ in 0..1u64 << refusals {
        hint::spin_loop();
    }
}

impl Answering for Worker<'_> {
    // Another thread is mostly soon done with the shard.
    fn answer(&mut self, k: ShardId, request: Request) -> u64 {
        let site = self.site;
        let mut envelope = Envelope::new(7, k, request, site.board.note(&mut self.client));
        for refusals in 0..u64::MAX {
            match self.serve(envelope) {
                Ok(told) => return told,
                Err(back) => envelope = back,
            }
            back_off(refusals);
        }
        0
    }
}
