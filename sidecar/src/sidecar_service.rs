use crate::application::{Application, ApplicationAnswer, HandlerRequest};
use crate::application_fault::ApplicationFault;
use crate::call_head::CallHead;
use crate::envelope::{opened, sealed};
use crate::error_name::ErrorName;
use crate::handed_head::HandedHead;
use crate::handler::Handler;
use crate::metrics::Metrics;
use crate::outcome::Outcome;
use crate::refusal::Refusal;
use crate::{SidecarOptions, MOST};
use durkenzo_fleet::{Call, Came, Fault, Service, Shard};
use std::collections::BTreeMap;
use std::sync::atomic::{AtomicBool, Ordering};
use std::sync::{Arc, Mutex, PoisonError};
use std::thread;
use std::time::{Duration, Instant};

/// The status by which an application says that it doesn't have the shard.
const MISDIRECTED: u16 = 421;
/// The status of an application without this handler.
const NOT_FOUND: u16 = 404;
/// How often the application is told that a shard was dropped, until it answers.
const DROPS: u32 = 3;
/// The time after which the application is asked again, which doubles until it is the longest.
const PAUSE: Duration = Duration::from_millis(50);
const LONGEST_PAUSE: Duration = Duration::from_secs(1);
/// The most bytes of an answer to a handler that gives nothing.
const SHORT: usize = 64 << 10;

/// The service of a fleet whose bodies lie in the application beside this process.
pub(crate) struct SidecarService {
    pub(crate) application: Application,
    pub(crate) metrics: Arc<Metrics>,
    longest_call: Duration,
    longest_handler: Duration,
    /// The most bytes that the application hands over.
    most_handed: usize,
    /// How often each shard was added to the application.
    adds: Mutex<BTreeMap<u16, u64>>,
    /// Whether this process ends, so that nobody waits for the application any more.
    is_ending: AtomicBool,
}

/// What this process keeps of a shard. The application has the rest.
pub(crate) struct HeldShard {
    shard: Shard,
    /// Which of the shard's adds this was.
    add: u64,
}

impl SidecarService {
    pub(crate) fn new(
        application: Application,
        metrics: Arc<Metrics>,
        options: &SidecarOptions,
    ) -> SidecarService {
        SidecarService {
            application,
            metrics,
            longest_call: options.longest_call(),
            longest_handler: options.longest_handler(),
            most_handed: usize::try_from(options.fleet.body).unwrap_or(usize::MAX),
            adds: Mutex::default(),
            is_ending: AtomicBool::new(false),
        }
    }

    /// Stops waiting for the application.
    pub(crate) fn end(&self) {
        self.is_ending.store(true, Ordering::Release);
    }

    /// Asks a handler, and notes the outcome.
    fn ask(
        &self,
        request: &HandlerRequest<'_>,
        most: usize,
        within: Duration,
    ) -> Result<ApplicationAnswer, ApplicationFault> {
        let answer = self.application.ask(request, most, within);
        let is_done = answer.as_ref().is_ok_and(ApplicationAnswer::is_success);
        self.metrics.note_handler(request.handler, is_done);
        answer
    }

    /// Asks a handler that must do its work: another status than a success is a fault.
    fn done(
        &self,
        request: &HandlerRequest<'_>,
        most: usize,
    ) -> Result<ApplicationAnswer, ApplicationFault> {
        let answer = self.ask(request, most, self.longest_handler)?;
        match answer.is_success() {
            true => Ok(answer),
            false => Err(ApplicationFault::refused(answer.status, &answer.bytes)),
        }
    }

    /// Adds the shard to the application. If the application has the shard already, this state is in its place.
    fn added(&self, shard: Shard, came: &str, bytes: &[u8]) -> Result<HeldShard, ApplicationFault> {
        let mut request = handler_request(Handler::Add, shard, bytes);
        request.headers.push(("durkenzo-came", came.to_owned()));
        let add = {
            let mut adds = self.adds.lock().unwrap_or_else(PoisonError::into_inner);
            let add = adds.entry(shard.number()).or_default();
            *add += 1;
            *add
        };
        self.done(&request, SHORT)?;
        Ok(HeldShard { shard, add })
    }

    /// Makes the application answer the call. If the application was begun anew and doesn't have the shard, adds the
    /// shard as one whose state is lost, and sends the call again, because it wasn't made.
    fn called(&self, held: &mut HeldShard, call: Call<'_>) -> Result<ApplicationAnswer, Refusal> {
        let not_read = |why: String| Refusal::new(ErrorName::BadRequest, why);
        let (head, bytes) =
            opened::<CallHead>(call.request()).map_err(|it| not_read(it.to_string()))?;
        let end = Instant::now() + self.longest_call.min(Duration::from_millis(head.within));
        let mut request = handler_request(Handler::Call, call.shard(), bytes);
        request.content_type = head.content_type.as_deref();
        request
            .headers
            .extend(head.key.clone().map(|it| ("durkenzo-key", it)));
        let asked = || {
            self.ask(
                &request,
                MOST,
                end.saturating_duration_since(Instant::now()),
            )
        };
        let answer = asked()?;
        if answer.status != MISDIRECTED {
            return Ok(answer);
        }
        tracing::warn!(shard = request.shard, "the application has lost the shard");
        let not_made = |why: String| Refusal::new(ErrorName::NotMade, why);
        let added = self.added(call.shard(), "lost", &[]);
        *held = added.map_err(|it| not_made(format!("the shard isn't added: {it}")))?;
        let answer = asked()?;
        match answer.status {
            MISDIRECTED => Err(not_made(
                "the application doesn't take the shard".to_owned(),
            )),
            _ => Ok(answer),
        }
    }

    /// Waits before the application is asked again. Returns whether that makes sense.
    fn may_ask_again(&self, pause: &mut Duration) -> bool {
        thread::sleep(*pause);
        *pause = (*pause * 2).min(LONGEST_PAUSE);
        !self.is_ending.load(Ordering::Acquire)
    }

    /// Returns what the next owner's application gets. An application that fails is asked until it answers, because the
    /// shard's state would be lost otherwise. If it isn't there at all for the longest time of a handler, its memory is
    /// gone, so the next owner is told that the state is lost.
    fn handed(&self, held: &HeldShard) -> Option<Vec<u8>> {
        let request = handler_request(Handler::PrepareDrop, held.shard, &[]);
        let (mut pause, mut count) = (PAUSE, 0_u32);
        let mut gone_since: Option<Instant> = None;
        loop {
            let why = match self.done(&request, self.most_handed) {
                Ok(answer) => return Some(answer.bytes),
                Err(ApplicationFault::Refused(MISDIRECTED, _)) => return None,
                Err(why) => why,
            };
            gone_since = match why {
                ApplicationFault::Unreached(_) => gone_since.or_else(|| Some(Instant::now())),
                _ => None,
            };
            count += 1;
            if count.is_power_of_two() {
                let shard = request.shard;
                tracing::warn!(shard, count, %why, "the application doesn't hand over the shard");
            }
            let is_gone = gone_since.is_some_and(|it| it.elapsed() >= self.longest_handler);
            if is_gone || !self.may_ask_again(&mut pause) {
                return None;
            }
        }
    }
}

impl Service for SidecarService {
    type Body = HeldShard;

    fn add(&self, shard: Shard, came: Came<'_>) -> Result<HeldShard, Fault> {
        let (came, bytes) = match came {
            Came::New => ("new", &[][..]),
            Came::Lost => ("lost", &[][..]),
            Came::Handed(bytes) => match opened(bytes)? {
                (HandedHead::Handed, bytes) => ("handed", bytes),
                (HandedHead::Lost, _) => ("lost", &[][..]),
            },
        };
        Ok(self.added(shard, came, bytes)?)
    }

    fn answer(&self, held: &mut HeldShard, call: Call<'_>) -> Vec<u8> {
        match self.called(held, call) {
            Ok(answer) => {
                let outcome = Outcome::Answered {
                    status: answer.status,
                    content_type: answer.content_type,
                };
                sealed(&outcome, &answer.bytes)
            }
            Err(refusal) => sealed(&Outcome::Failed(refusal), &[]),
        }
    }

    fn hand_over(&self, held: &mut HeldShard) -> Vec<u8> {
        match self.handed(held) {
            Some(bytes) => sealed(&HandedHead::Handed, &bytes),
            None => {
                let shard = held.shard.number();
                tracing::warn!(shard, "the application's state of the shard is lost");
                sealed(&HandedHead::Lost, &[])
            }
        }
    }

    fn prepare_add(&self, shard: Shard, from: Option<u16>) {
        let mut request = handler_request(Handler::PrepareAdd, shard, &[]);
        request
            .headers
            .extend(from.map(|it| ("durkenzo-from", it.to_string())));
        match self.done(&request, SHORT) {
            // An application that has nothing to prepare needs no such handler.
            Ok(_) | Err(ApplicationFault::Refused(NOT_FOUND, _)) => {}
            Err(why) => {
                let shard = request.shard;
                tracing::warn!(shard, %why, "the application doesn't prepare for the shard");
            }
        }
    }

    fn dropped(&self, shard: Shard, held: HeldShard) {
        let latest = {
            let adds = self.adds.lock().unwrap_or_else(PoisonError::into_inner);
            adds.get(&shard.number()).copied()
        };
        // The application has the state of a later add in its place.
        if latest != Some(held.add) {
            return;
        }
        let request = handler_request(Handler::Drop, shard, &[]);
        let mut pause = PAUSE;
        for count in 1..=DROPS {
            match self.done(&request, SHORT) {
                Ok(_) | Err(ApplicationFault::Refused(MISDIRECTED, _)) => return,
                Err(why) => {
                    let shard = request.shard;
                    tracing::warn!(shard, count, %why, "the application doesn't drop the shard");
                }
            }
            if count == DROPS || !self.may_ask_again(&mut pause) {
                return;
            }
        }
    }
}

/// Returns a request to a handler, with the shard's fence.
fn handler_request(handler: Handler, shard: Shard, bytes: &[u8]) -> HandlerRequest<'_> {
    HandlerRequest {
        handler,
        shard: shard.number(),
        headers: vec![("durkenzo-fence", shard.fence().to_string())],
        content_type: None,
        bytes,
    }
}
