use crate::cluster::Cluster;
use crate::unready::Unready;
use std::time::Duration;
use tokio::time::sleep;

/// How long a woken thread may take until it looks for work. A busy thread needs less.
const PATIENCE: Duration = Duration::from_secs(2);
/// The time between two looks at the threads.
const LOOK: Duration = Duration::from_millis(5);

/// Wakes each thread that owns connections, and waits until all have looked for work. If some haven't, returns which:
/// the process should be restarted then.
pub(super) async fn live(cluster: &Cluster) -> Result<(), String> {
    let inlets = cluster.inlets();
    let before: Vec<u64> = inlets.iter().map(|it| it.turns()).collect();
    inlets.iter().for_each(|it| it.wake());
    let stuck = || {
        let threads = inlets.iter().zip(&before).enumerate();
        let stuck = threads.filter(|(_, (inlet, before))| inlet.turns() == **before);
        stuck.map(|(thread, _)| thread).collect::<Vec<_>>()
    };
    for _ in 0..PATIENCE.as_millis() / LOOK.as_millis() {
        // Threads may have ended, because the process stops.
        if stuck().is_empty() || cluster.is_stopping() {
            return Ok(());
        }
        sleep(LOOK).await;
    }
    Err(stuck()
        .iter()
        .map(|it| format!("thread {it} doesn't go on\n"))
        .collect())
}

/// Returns the reasons for which the process isn't ready now, one in a line, if there are any.
pub(super) fn ready(cluster: &Cluster) -> Result<(), String> {
    let reasons = Unready::reasons(cluster);
    let lines = reasons.iter().map(|it| format!("{it}\n")).collect();
    match reasons.is_empty() {
        true => Ok(()),
        false => Err(lines),
    }
}

#[cfg(test)]
mod tests {
    use super::*;
    use crate::configuration::Configuration;
    use crate::io::Inlet;
    use crate::keyspace::Rule;
    use mio::Poll;
    use std::sync::Arc;

    #[tokio::test]
    async fn a_thread_that_looks_for_nothing_is_told() {
        let cluster = Cluster::in_memory(Configuration::new(Rule::Hash(1))).unwrap();
        let poll = Poll::new().unwrap();
        cluster.set_inlets([Arc::new(Inlet::new(&poll, 1).unwrap())].into());
        let told = live(&cluster).await;
        assert_eq!(told, Err("thread 0 doesn't go on\n".to_owned()));
        assert_eq!(ready(&cluster), Ok(()));
        cluster.stop();
        assert_eq!(live(&cluster).await, Ok(()));
        assert_eq!(ready(&cluster), Err("the process ends\n".to_owned()));
    }
}
