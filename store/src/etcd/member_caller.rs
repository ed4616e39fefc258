use super::client::EtcdClient;
use super::sockets::Sockets;
use super::{Access, StartError};
use std::future::Future;
use std::num::NonZeroUsize;
use std::sync::mpsc;
use std::sync::Arc;
use tokio::runtime::{Builder, Handle, Runtime};
use tokio::task::JoinHandle;

/// Calls members, with its own thread and its own connections.
pub(super) struct MemberCaller {
    client: EtcdClient,
    handle: Handle,
    /// It is there until the end.
    runtime: Option<Runtime>,
}

impl MemberCaller {
    pub(super) fn new(thread: &str, access: Access) -> Result<MemberCaller, StartError> {
        let sockets = Sockets::new(&access)?;
        let members = NonZeroUsize::new(sockets.members()).ok_or(StartError::NoEndpoint)?;
        let client = EtcdClient::new(Arc::new(sockets), members, access.patience, access.user);
        // A second thread would be woken for each call, and find nothing to do.
        let runtime = Builder::new_multi_thread()
            .worker_threads(1)
            .thread_name(thread)
            .enable_all()
            .build()?;
        Ok(MemberCaller {
            client,
            handle: runtime.handle().clone(),
            runtime: Some(runtime),
        })
    }

    pub(super) fn client(&self) -> EtcdClient {
        self.client.clone()
    }

    /// Runs this on the thread.
    pub(super) fn spawn(&self, work: impl Future<Output = ()> + Send + 'static) -> JoinHandle<()> {
        self.handle.spawn(work)
    }

    /// Runs this on the thread, and waits for its result. Returns nothing if the thread has ended.
    pub(super) fn wait_for<A: Send + 'static>(
        &self,
        work: impl Future<Output = A> + Send + 'static,
    ) -> Option<A> {
        let (tell, told) = mpsc::sync_channel(1);
        self.spawn(async move {
            // The caller waits for it.
            let _ = tell.send(work.await);
        });
        told.recv().ok()
    }
}

impl Drop for MemberCaller {
    fn drop(&mut self) {
        // A callback on the thread may be the last owner of the store, and a thread can't join itself.
        if let Some(runtime) = self.runtime.take() {
            runtime.shutdown_background();
        }
    }
}
