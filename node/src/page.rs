//! The page of a node, and the signals that end it, in a thread of their own.

use crate::error::Error;
use crate::view::{Seen, Shared};
use hyper::body::Sender;
use hyper::header::{CONTENT_DISPOSITION, CONTENT_SECURITY_POLICY, CONTENT_TYPE, HeaderValue};
use hyper::service::{make_service_fn, service_fn};
use hyper::{Body, Method, Request, Response, Server, StatusCode};
use std::convert::Infallible;
use std::net::SocketAddr;
use std::sync::Arc;
use std::sync::atomic::{AtomicBool, AtomicUsize, Ordering};
use std::thread;
use std::time::Duration;
use tokio::signal::unix::{SignalKind, signal};

const PAGE: &str = include_str!("page.html");

/// The page may load its own data and nothing else.
const POLICY: &str = "default-src 'none'; style-src 'unsafe-inline'; script-src 'unsafe-inline'; connect-src 'self'";

/// So many pages are told of what happens at once, and each so often.
const MOST_TOLD: usize = 32;
const OFTEN: Duration = Duration::from_millis(100);

/// Serves the page, and says by the flag that a signal asked this process to end.
pub fn start(address: SocketAddr, shared: Shared, is_ending: Arc<AtomicBool>) -> Result<(), Error> {
    let failed = |error: &dyn std::fmt::Display| Error::Process(format!("page {address}: {error}"));
    let listener = std::net::TcpListener::bind(address).map_err(|error| failed(&error))?;
    listener.set_nonblocking(true).map_err(|error| failed(&error))?;
    let runtime = tokio::runtime::Builder::new_current_thread().enable_all().build();
    let runtime = runtime.map_err(|error| failed(&error))?;
    let serve = move || runtime.block_on(serve(listener, shared, is_ending));
    let started = thread::Builder::new().name("page".to_owned()).spawn(serve);
    started.map(|_| ()).map_err(|error| failed(&error))
}

async fn serve(listener: std::net::TcpListener, shared: Shared, is_ending: Arc<AtomicBool>) {
    for kind in [SignalKind::terminate(), SignalKind::interrupt()] {
        tokio::spawn(wait_for_signal(kind, is_ending.clone()));
    }
    let told = Arc::new(AtomicUsize::new(0));
    let make = make_service_fn(|_| {
        let (shared, told) = (shared.clone(), told.clone());
        async { Ok::<_, Infallible>(service_fn(move |asked| respond(asked, shared.clone(), told.clone()))) }
    });
    let ended = match Server::from_tcp(listener) {
        Ok(server) => server.serve(make).await,
        Err(error) => Err(error),
    };
    tracing::warn!(?ended, "the page isn't served any more");
    std::future::pending().await
}

async fn wait_for_signal(kind: SignalKind, is_ending: Arc<AtomicBool>) {
    match signal(kind) {
        Ok(mut signals) => {
            signals.recv().await;
            is_ending.store(true, Ordering::Relaxed);
        }
        Err(error) => tracing::warn!(%error, "a signal can't be waited for"),
    }
}

async fn respond(asked: Request<Body>, shared: Shared, told: Arc<AtomicUsize>) -> Result<Response<Body>, Infallible> {
    if asked.method() != Method::GET {
        return Ok(reply(StatusCode::METHOD_NOT_ALLOWED, "text/plain", "GET alone\n"));
    }
    if asked.uri().path() == "/events" {
        return Ok(events(shared, told));
    }
    let view = shared.lock();
    Ok(match asked.uri().path() {
        "/" => reply(StatusCode::OK, "text/html; charset=utf-8", PAGE),
        "/view" => reply(StatusCode::OK, "application/json", view.to_json()),
        "/status" => match serde_json::to_string(&view.status) {
            Ok(text) => reply(StatusCode::OK, "application/json", text),
            Err(error) => reply(StatusCode::INTERNAL_SERVER_ERROR, "text/plain", error.to_string()),
        },
        "/metrics" => reply(StatusCode::OK, "text/plain; version=0.0.4", view.to_metrics()),
        "/healthz" if view.is_healthy() => reply(StatusCode::OK, "text/plain", "blocks become final\n"),
        "/healthz" => reply(StatusCode::SERVICE_UNAVAILABLE, "text/plain", "no block became final lately\n"),
        path => match evidence(path, &shared_culprits(&view)) {
            Some((validator, bytes)) => download(validator, bytes),
            None => reply(StatusCode::NOT_FOUND, "text/plain", "no such page\n"),
        },
    })
}

/// What happens, as server-sent events, where not too many are told already.
fn events(shared: Shared, told: Arc<AtomicUsize>) -> Response<Body> {
    if told.fetch_add(1, Ordering::Relaxed) >= MOST_TOLD {
        told.fetch_sub(1, Ordering::Relaxed);
        return reply(StatusCode::SERVICE_UNAVAILABLE, "text/plain", "too many pages are open\n");
    }
    let (sender, body) = Body::channel();
    tokio::spawn(async move {
        tell(sender, shared).await;
        told.fetch_sub(1, Ordering::Relaxed);
    });
    reply(StatusCode::OK, "text/event-stream", body)
}

/// Tells one page, until it goes away.
async fn tell(mut sender: Sender, shared: Shared) {
    let mut seen = Seen::default();
    loop {
        let text = format!("data: {}\n\n", shared.lock().news(&mut seen));
        if sender.send_data(text.into()).await.is_err() {
            return;
        }
        tokio::time::sleep(OFTEN).await;
    }
}

fn shared_culprits(view: &crate::view::View) -> Vec<(u32, Vec<u8>)> {
    view.culprits.iter().map(|culprit| (culprit.validator, culprit.bytes.clone())).collect()
}

/// The proof that this path names.
fn evidence(path: &str, culprits: &[(u32, Vec<u8>)]) -> Option<(u32, Vec<u8>)> {
    let validator: u32 = path.strip_prefix("/evidence/")?.parse().ok()?;
    culprits.iter().find(|(one, _)| *one == validator).cloned()
}

fn reply(status: StatusCode, kind: &'static str, body: impl Into<Body>) -> Response<Body> {
    let mut response = Response::new(body.into());
    *response.status_mut() = status;
    response.headers_mut().insert(CONTENT_TYPE, HeaderValue::from_static(kind));
    response.headers_mut().insert(CONTENT_SECURITY_POLICY, HeaderValue::from_static(POLICY));
    response
}

fn download(validator: u32, bytes: Vec<u8>) -> Response<Body> {
    let mut response = reply(StatusCode::OK, "application/octet-stream", bytes);
    let name = format!("attachment; filename=\"evidence-{validator}.bin\"");
    if let Ok(name) = HeaderValue::from_str(&name) {
        response.headers_mut().insert(CONTENT_DISPOSITION, name);
    }
    response
}
