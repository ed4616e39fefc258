use super::Refusal;
use crate::admission::Admission;
use crate::body::BodyRefusal;
use crate::cluster::Cluster;
use crate::dump::{shard_text, DumpFault, DumpFile, DumpHead, ShardHead};
use crate::observer::Observer;
use crate::stats::Stats;
use crate::storage::InMemory;
use crate::wait::{NotAdmitted, Wait};
use durkenzo::{Permit, Record, Stand};
use durkenzo_control::control::{Advance, ControlAnswer, FileWork};
use std::sync::Arc;
use std::time::{Duration, Instant};

/// How long it tries a shard again that other threads have.
const PATIENCE: Duration = Duration::from_secs(10);

/// Writes all shards into a file, one shard at each step.
pub(super) struct DumpTask {
    cluster: Arc<Cluster>,
    memory: Arc<InMemory>,
    observer: Observer,
    file: Option<DumpFile>,
    name: String,
    /// The next shard.
    shard: u16,
    end: Instant,
}

impl DumpTask {
    /// Begins the file with this name.
    pub(super) fn new(
        cluster: Arc<Cluster>,
        memory: Arc<InMemory>,
        name: &str,
    ) -> Result<DumpTask, Refusal> {
        let configuration = &cluster.configuration;
        let head = DumpHead::new(configuration.servers, &configuration.rule);
        let file = DumpFile::create(&configuration.folder, name, &head);
        Ok(DumpTask {
            observer: Observer::new(cluster.clone())?,
            file: Some(file?),
            name: name.to_owned(),
            shard: 0,
            end: Instant::now() + PATIENCE,
            cluster,
            memory,
        })
    }

    /// Returns the shard's content, and its generation at the time of reading.
    fn told(&self, record: Record) -> Result<Result<(ShardHead, Vec<u8>), Refusal>, NotAdmitted> {
        let cluster = self.cluster.clone();
        let stats = Arc::new(Stats::new(cluster.configuration.servers));
        let mut admission = match Admission::new(cluster, stats) {
            Ok(admission) => admission,
            Err(fault) => return Ok(Err(fault.into())),
        };
        admission.admit_permit(self.shard, |permit| {
            // The permit's end is a step of the history, too.
            let generation = self.memory.base(self.shard) + Permit::generation(permit) + 1;
            let (text, pairs) = shard_text(permit.as_mut()).map_err(|refusal| match refusal {
                BodyRefusal::NoMemory => DumpFault::NoMemory.into(),
                other => Refusal::new("BadShard", format!("{other:?}"), "look at the log"),
            })?;
            Ok((ShardHead::new(self.shard, record, generation, pairs), text))
        })
    }

    fn finished(&mut self) -> Result<Advance, Refusal> {
        let shards = self.cluster.shards();
        let pairs = self.file.take().map_or(Ok(0), DumpFile::finish);
        let pairs = pairs?;
        let name = &self.name;
        let line = format!("{shards} shards with {pairs} keys are in {name}");
        Ok(Advance::Done(ControlAnswer::Line(line)))
    }
}

impl FileWork for DumpTask {
    /// Writes the next shard. After the last shard, ends the file.
    fn advance(&mut self) -> Result<Advance, Refusal> {
        if self.shard == self.cluster.shards() {
            return self.finished();
        }
        // Only this thread changes stands.
        let record = self.observer.record(self.shard)?;
        let told = match record.stand {
            Stand::Vacant => (
                ShardHead::new(self.shard, record, record.generation, 0),
                Vec::new(),
            ),
            _ => match self.told(record) {
                Ok(told) => told?,
                Err(NotAdmitted::Wait(Wait::Busy(_))) if Instant::now() < self.end => {
                    return Ok(Advance::soon())
                }
                Err(refused) => return Err(refused.into()),
            },
        };
        if let Some(file) = &mut self.file {
            let added = file.add(&told.0, &told.1);
            added?;
        }
        self.shard += 1;
        self.end = Instant::now() + PATIENCE;
        Ok(Advance::soon())
    }
}
