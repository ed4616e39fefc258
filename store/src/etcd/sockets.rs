//! The connections to members. Only here are members called, and only here does a store's client wait for time to pass.
use super::connector::Connector;
use super::environment::{AnswerBody, Environment, Later, MemberAnswer, MemberCall, NoAnswer};
use super::grpc_channel::GrpcChannel;
use super::{Access, EtcdProtocol, StartError};
use hyper::body::HttpBody;
use hyper::{header, Body, Client, Request, Uri};
use std::sync::Arc;
use std::time::{Duration, Instant};
use tokio::time::sleep_until;

/// How long a member may take to be connected, and then to do the TLS handshake.
const REACH: Duration = Duration::from_secs(1);
/// The header that makes a member end a stream once it reaches no leader.
const HAS_LEADER: (&str, &str) = ("Grpc-Metadata-hasleader", "true");

/// The connections to the members of an etcd.
pub(super) struct Sockets {
    connections: Connections,
    members: Vec<String>,
}

/// The connections by a protocol.
enum Connections {
    /// As many as calls go on at the same time.
    Json(Client<Connector>),
    /// One for each member.
    Grpc(Vec<Arc<GrpcChannel>>),
}

impl Sockets {
    pub(super) fn new(access: &Access) -> Result<Sockets, StartError> {
        let (members, tls) = (access.members()?, access.tls()?);
        let connector = Connector::new(tls, access.patience.min(REACH));
        let channel = |member: &String| {
            let uri: Result<Uri, _> = member.parse();
            let uri = uri.map_err(|_| StartError::BadEndpoint(member.clone()))?;
            Ok(Arc::new(GrpcChannel::new(uri, connector.clone())))
        };
        let connections = match access.protocol {
            EtcdProtocol::Json => Connections::Json(Client::builder().build(connector)),
            EtcdProtocol::Grpc => {
                let channels: Result<_, StartError> = members.iter().map(channel).collect();
                Connections::Grpc(channels?)
            }
        };
        Ok(Sockets {
            connections,
            members,
        })
    }

    /// Returns how many members there are.
    pub(super) fn members(&self) -> usize {
        self.members.len()
    }

    fn request(&self, call: MemberCall) -> Result<Request<Body>, NoAnswer> {
        let mut request = Request::post(format!("{}{}", self.members[call.member], call.path))
            .header(header::CONTENT_TYPE, "application/json");
        if call.needs_leader {
            request = request.header(HAS_LEADER.0, HAS_LEADER.1);
        }
        if let Some(token) = call.token {
            request = request.header(header::AUTHORIZATION, token);
        }
        let request = request.body(Body::from(call.asked));
        request.map_err(|error| NoAnswer::Unreachable(error.to_string()))
    }

    /// Calls a member in JSON.
    fn post(
        &self,
        client: &Client<Connector>,
        call: MemberCall,
    ) -> Later<'static, Result<MemberAnswer, NoAnswer>> {
        let member = self.members[call.member].clone();
        let asked = self.request(call).map(|it| client.request(it));
        Box::pin(async move {
            match asked?.await {
                Ok(found) => Ok(MemberAnswer {
                    status: found.status().as_u16(),
                    body: Box::new(found.into_body()),
                }),
                Err(error) if error.is_connect() => {
                    Err(NoAnswer::Unreachable(format!("{member}: {error}")))
                }
                Err(error) => Err(NoAnswer::Broken(format!("{member}: {error}"))),
            }
        })
    }
}

impl Environment for Sockets {
    fn protocol(&self) -> EtcdProtocol {
        match self.connections {
            Connections::Json(_) => EtcdProtocol::Json,
            Connections::Grpc(_) => EtcdProtocol::Grpc,
        }
    }

    fn call(&self, call: MemberCall) -> Later<'static, Result<MemberAnswer, NoAnswer>> {
        match &self.connections {
            Connections::Json(client) => self.post(client, call),
            Connections::Grpc(channels) => {
                let channel = Arc::clone(&channels[call.member]);
                Box::pin(async move { channel.call(call).await })
            }
        }
    }

    fn now(&self) -> Instant {
        Instant::now()
    }

    fn wait_until(&self, moment: Instant) -> Later<'static, ()> {
        Box::pin(sleep_until(moment.into()))
    }
}

impl AnswerBody for Body {
    fn append_next<'a>(&'a mut self, held: &'a mut Vec<u8>) -> Later<'a, Result<bool, NoAnswer>> {
        Box::pin(async move {
            match self.data().await {
                Some(Ok(bytes)) => {
                    held.extend_from_slice(&bytes);
                    Ok(true)
                }
                Some(Err(error)) => Err(NoAnswer::Broken(error.to_string())),
                None => Ok(false),
            }
        })
    }
}
