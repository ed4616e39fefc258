use durkenzo_store::EtcdProtocol;
use hyper::server::conn::Http;
use hyper::service::service_fn;
use hyper::{Body, HeaderMap, Request, Response};
use std::convert::Infallible;
use std::future;
use std::io::{Read, Write};
use std::net::{TcpListener, TcpStream};
use std::sync::{Arc, Mutex};
use std::thread;
use tokio::runtime::Builder;

/// An answer of a member that follows a script.
#[derive(Clone, Copy)]
pub struct Scripted {
    /// The status of HTTP and the JSON.
    pub json: (&'static str, &'static str),
    /// The status of gRPC, none if it is missing, its message, and the message of Protobuf that comes before, if one
    /// does.
    pub grpc: (Option<u32>, &'static str, Option<&'static [u8]>),
}

type Script = Box<dyn Iterator<Item = Scripted> + Send>;

/// Returns the address of a member that answers calls with these, one after another.
pub fn scripted(
    protocol: EtcdProtocol,
    answers: impl IntoIterator<Item = Scripted, IntoIter: Send + 'static>,
) -> String {
    let listener = TcpListener::bind(("127.0.0.1", 0)).expect("a port");
    let endpoint = format!("http://{}", listener.local_addr().expect("its address"));
    let script: Script = Box::new(answers.into_iter());
    thread::spawn(move || match protocol {
        EtcdProtocol::Json => answer_in_json(&listener, script),
        EtcdProtocol::Grpc => answer_by_grpc(listener, script),
    });
    endpoint
}

/// Reads a call in JSON, which is over with its JSON.
pub fn read_json(stream: &mut TcpStream) {
    read_until(stream, |asked| asked.ends_with(b"}"));
}

/// Reads a call until that much of it has come, or the caller hangs up.
pub fn read_until(stream: &mut TcpStream, is_enough: impl Fn(&[u8]) -> bool) {
    let (mut asked, mut some) = (Vec::new(), [0; 4_096]);
    while !is_enough(&asked) {
        match stream.read(&mut some) {
            Ok(length @ 1..) => asked.extend_from_slice(&some[..length]),
            _ => break,
        }
    }
}

fn answer_in_json(listener: &TcpListener, script: Script) {
    for (stream, answer) in listener.incoming().zip(script) {
        let mut stream = stream.expect("a caller");
        read_json(&mut stream);
        let (status, body) = answer.json;
        let head = format!("Content-Length: {}\r\nConnection: close", body.len());
        let _ = write!(stream, "HTTP/1.1 {status}\r\n{head}\r\n\r\n{body}");
    }
}

fn answer_by_grpc(listener: TcpListener, script: Script) {
    let runtime = Builder::new_current_thread().enable_all().build();
    let script = Arc::new(Mutex::new(script));
    runtime.expect("a runtime").block_on(async {
        listener.set_nonblocking(true).expect("a listener");
        let listener = tokio::net::TcpListener::from_std(listener).expect("a listener");
        loop {
            let (stream, _) = listener.accept().await.expect("a caller");
            let script = Arc::clone(&script);
            let answered = service_fn(move |asked| answered(asked, Arc::clone(&script)));
            let served = Http::new()
                .http2_only(true)
                .serve_connection(stream, answered);
            tokio::spawn(served);
        }
    });
}

/// Returns the next answer, once the call has come. If there is none, the call waits.
async fn answered(
    asked: Request<Body>,
    script: Arc<Mutex<Script>>,
) -> Result<Response<Body>, Infallible> {
    let _ = hyper::body::to_bytes(asked.into_body()).await;
    let next = script.lock().expect("no thread panics").next();
    let Some(Scripted {
        grpc: (code, why, message),
        ..
    }) = next
    else {
        return future::pending().await;
    };
    let mut status = HeaderMap::new();
    if let Some(code) = code {
        status.insert("grpc-status", code.into());
        status.insert("grpc-message", why.parse().expect("a message"));
    }
    let Some(message) = message else {
        let mut found = Response::new(Body::empty());
        *found.headers_mut() = status;
        return Ok(found);
    };
    let (mut sender, body) = Body::channel();
    tokio::spawn(async move {
        let length = u32::try_from(message.len()).expect("it is short");
        let frame = [&[0], &length.to_be_bytes()[..], message].concat();
        sender.send_data(frame.into()).await.expect("it is read");
        if !status.is_empty() {
            sender.send_trailers(status).await.expect("they are read");
        }
    });
    Ok(Response::new(body))
}
