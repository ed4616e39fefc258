use crate::error_name::ErrorName;
use crate::handler::Handler;
use prometheus::{Encoder, IntCounterVec, IntGauge, Opts, Registry, TextEncoder};

/// The numbers of a sidecar, in Prometheus' text format.
pub(crate) struct Metrics {
    registry: Registry,
    answered: IntCounterVec,
    errors: IntCounterVec,
    handlers: IntCounterVec,
    under_way: IntGauge,
    owned: IntGauge,
    leased: IntGauge,
}

impl Metrics {
    /// Returns numbers that are all 0.
    pub(crate) fn new() -> prometheus::Result<Metrics> {
        let registry = Registry::new_custom(Some("durkenzo_sidecar".to_owned()), None)?;
        let counters = |name: &str, help: &str, labels: &[&str]| {
            let counters = IntCounterVec::new(Opts::new(name, help), labels)?;
            registry.register(Box::new(counters.clone()))?;
            Ok::<_, prometheus::Error>(counters)
        };
        let gauge = |name: &str, help: &str| {
            let gauge = IntGauge::new(name, help)?;
            registry.register(Box::new(gauge.clone()))?;
            Ok::<_, prometheus::Error>(gauge)
        };
        let metrics = Metrics {
            answered: counters(
                "calls_total",
                "Calls that the application answered",
                &["forwarded"],
            )?,
            errors: counters("errors_total", "Errors that clients were told", &["name"])?,
            handlers: counters(
                "handlers_total",
                "Requests to the application",
                &["handler", "outcome"],
            )?,
            under_way: gauge("calls_under_way", "Calls of clients that are under way")?,
            owned: gauge("owned_shards", "Shards that this server owns")?,
            leased: gauge("leased", "Whether this process has a lease")?,
            registry,
        };
        metrics.begin();
        Ok(metrics)
    }

    /// Makes each name be there from the start, because otherwise the first one of a name would be no increase.
    fn begin(&self) {
        for is_forwarded in [false, true] {
            self.answered_by(is_forwarded).reset();
        }
        for name in ErrorName::ALL {
            self.errors.with_label_values(&[name.text()]).reset();
        }
        for handler in Handler::ALL {
            for outcome in ["done", "failed"] {
                self.handlers
                    .with_label_values(&[handler.word(), outcome])
                    .reset();
            }
        }
    }

    fn answered_by(&self, is_forwarded: bool) -> prometheus::IntCounter {
        let word = if is_forwarded { "yes" } else { "no" };
        self.answered.with_label_values(&[word])
    }

    /// Notes a call that the application answered.
    pub(crate) fn note_answered(&self, is_forwarded: bool) {
        self.answered_by(is_forwarded).inc();
    }

    /// Notes an error that a client is told.
    pub(crate) fn note_error(&self, name: ErrorName) {
        self.errors.with_label_values(&[name.text()]).inc();
    }

    /// Notes a request to the application.
    pub(crate) fn note_handler(&self, handler: Handler, is_done: bool) {
        let outcome = if is_done { "done" } else { "failed" };
        self.handlers
            .with_label_values(&[handler.word(), outcome])
            .inc();
    }

    /// Returns the text, with these numbers of now.
    pub(crate) fn text(
        &self,
        under_way: usize,
        owned: usize,
        is_leased: bool,
    ) -> prometheus::Result<Vec<u8>> {
        self.under_way
            .set(i64::try_from(under_way).unwrap_or(i64::MAX));
        self.owned.set(i64::try_from(owned).unwrap_or(i64::MAX));
        self.leased.set(i64::from(is_leased));
        let mut text = Vec::new();
        TextEncoder::new().encode(&self.registry.gather(), &mut text)?;
        Ok(text)
    }
}
