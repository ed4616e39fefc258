use super::engine::Engine;
use super::job_queue::JobQueue;
use super::tables::Tables;

/// An engine with its waiting jobs. When it ends, it first closes the tables, and then tells those who still wait.
pub(super) struct EngineServer<T> {
    engine: Engine<T>,
    jobs: JobQueue,
}

impl<T: Tables> EngineServer<T> {
    pub(super) fn new(engine: Engine<T>, jobs: JobQueue) -> EngineServer<T> {
        EngineServer { engine, jobs }
    }

    /// Does jobs until it is told to end, or the tables can't be used any more.
    pub(super) fn run(mut self) {
        while self
            .engine
            .turn(self.jobs.wait_until(self.engine.next_end()))
        {}
    }

    /// Does the waiting jobs, and returns whether it goes on.
    #[cfg(feature = "simulated")]
    pub(super) fn step(&mut self) -> bool {
        self.engine.turn(self.jobs.taken(None))
    }
}
