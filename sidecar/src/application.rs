use crate::application_fault::ApplicationFault;
use crate::application_url::ApplicationUrl;
use crate::bounded_body::{bounded, BodyFault};
use crate::handler::Handler;
use hyper::client::HttpConnector;
use hyper::header::CONTENT_TYPE;
use hyper::{Body, Client, Method, Request};
use std::time::Duration;
use tokio::net::TcpStream;
use tokio::runtime::Handle;
use tokio::time::timeout;

/// How long a connection that isn't used is kept. Some servers end it after 5 seconds, and a request that is sent at
/// that moment may be lost.
const KEPT: Duration = Duration::from_secs(2);
/// The most connections that aren't used.
const IDLE: usize = 64;
/// The longest time to make a connection.
const CONNECT: Duration = Duration::from_secs(1);

/// The application beside this process.
pub(crate) struct Application {
    url: ApplicationUrl,
    client: Client<HttpConnector>,
    runtime: Handle,
}

/// A request to a handler of the application.
pub(crate) struct HandlerRequest<'a> {
    pub(crate) handler: Handler,
    pub(crate) shard: u16,
    /// Headers with their values.
    pub(crate) headers: Vec<(&'static str, String)>,
    pub(crate) content_type: Option<&'a str>,
    pub(crate) bytes: &'a [u8],
}

/// The answer of the application.
#[derive(Debug)]
pub(crate) struct ApplicationAnswer {
    pub(crate) status: u16,
    pub(crate) content_type: Option<String>,
    pub(crate) bytes: Vec<u8>,
}

impl Application {
    /// Returns the application at this address, which is asked in this runtime.
    pub(crate) fn new(url: ApplicationUrl, runtime: Handle) -> Application {
        let mut connector = HttpConnector::new();
        connector.set_nodelay(true);
        connector.set_connect_timeout(Some(CONNECT));
        let client = Client::builder()
            .pool_idle_timeout(KEPT)
            .pool_max_idle_per_host(IDLE)
            .build(connector);
        Application {
            url,
            client,
            runtime,
        }
    }

    /// Returns whether the application takes connections.
    pub(crate) async fn is_reached(&self) -> bool {
        let connected = timeout(CONNECT, TcpStream::connect(self.url.authority())).await;
        matches!(connected, Ok(Ok(_)))
    }

    /// Asks a handler, and blocks this thread until it has answered. This must not be called by a task.
    ///
    /// # Errors
    ///
    /// If no answer of at most so many bytes has come within this time.
    pub(crate) fn ask(
        &self,
        request: &HandlerRequest<'_>,
        most: usize,
        within: Duration,
    ) -> Result<ApplicationAnswer, ApplicationFault> {
        let asked = async { timeout(within, self.asked(request, most, within)).await };
        let answer = self.runtime.block_on(asked);
        answer.unwrap_or(Err(ApplicationFault::Late(within)))
    }

    async fn asked(
        &self,
        request: &HandlerRequest<'_>,
        most: usize,
        within: Duration,
    ) -> Result<ApplicationAnswer, ApplicationFault> {
        let path = format!("/shard/{}/{}", request.shard, request.handler.word());
        let mut asked = Request::builder()
            .method(Method::POST)
            .uri(self.url.at(&path));
        for (name, value) in &request.headers {
            asked = asked.header(*name, value);
        }
        if let Some(kind) = request.content_type {
            asked = asked.header(CONTENT_TYPE, kind);
        }
        let asked = asked.body(Body::from(request.bytes.to_vec()));
        let asked = asked.map_err(|it| ApplicationFault::Unreached(it.to_string()))?;
        let response = self.client.request(asked).await.map_err(fault_of)?;
        let status = response.status().as_u16();
        let content_type = response.headers().get(CONTENT_TYPE);
        let content_type = content_type
            .and_then(|it| it.to_str().ok())
            .map(str::to_owned);
        let bytes = bounded(response.into_body(), most, within).await;
        let bytes = bytes.map_err(|fault| match fault {
            BodyFault::TooLong(most) => ApplicationFault::TooLong(most),
            BodyFault::Late(within) => ApplicationFault::Late(within),
            BodyFault::Ended(error) => ApplicationFault::Lost(error.to_string()),
        })?;
        Ok(ApplicationAnswer {
            status,
            content_type,
            bytes,
        })
    }
}

impl ApplicationAnswer {
    /// Returns whether the handler has done what it must.
    pub(crate) fn is_success(&self) -> bool {
        (200..300).contains(&self.status)
    }
}

/// Returns the fault of a request that has no answer. If there was no connection, nothing was sent.
fn fault_of(error: hyper::Error) -> ApplicationFault {
    match error.is_connect() {
        true => ApplicationFault::Unreached(error.to_string()),
        false => ApplicationFault::Lost(error.to_string()),
    }
}
