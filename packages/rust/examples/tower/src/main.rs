//! A middleware of tower in front of a service: it lets requests through whose token is accepted by a set of keys that rotates, and never
//! holds a thread of the executor. The last line counts.

use http::{Request, Response, StatusCode, header};
use jsonwebtoken::errors::{Error, ErrorKind};
use jsonwebtoken::{Algorithm, EncodingKey, Header, KeySet, Rotation, Validation, encode};
use serde::Deserialize;
use serde_json::json;
use std::future::Future;
use std::io::Cursor;
use std::pin::Pin;
use std::sync::atomic::{AtomicUsize, Ordering};
use std::sync::{Arc, Mutex};
use std::task::{Context, Poll, Wake, Waker};
use std::thread::{self, Thread};
use std::time::Duration;
use tower_service::Service;

type Answer = Response<String>;
type Answering<E> = Pin<Box<dyn Future<Output = Result<Answer, E>> + Send>>;

#[derive(Clone, Deserialize)]
struct Session {
    sub: String,
}

/// Calls another service with requests alone whose token is accepted; the session is among their extensions.
#[derive(Clone)]
struct Protect<S> {
    inner: S,
    keys: Arc<KeySet>,
    validation: Arc<Validation>,
}

impl<S, B> Service<Request<B>> for Protect<S>
where
    S: Service<Request<B>, Response = Answer> + Clone + Send + 'static,
    S::Future: Send,
    B: Send + 'static,
{
    type Response = Answer;
    type Error = S::Error;
    type Future = Answering<S::Error>;

    fn poll_ready(&mut self, context: &mut Context<'_>) -> Poll<Result<(), S::Error>> {
        self.inner.poll_ready(context)
    }

    fn call(&mut self, mut request: Request<B>) -> Self::Future {
        let next = self.inner.clone();
        let mut ready = std::mem::replace(&mut self.inner, next);
        let (keys, validation) = (self.keys.clone(), self.validation.clone());
        let token = token(&request);
        Box::pin(async move {
            match session(&keys, &validation, token).await {
                Ok(session) => {
                    request.extensions_mut().insert(session);
                    ready.call(request).await
                }
                Err(status) => Ok(refused(status)),
            }
        })
    }
}

/// Returns the token of a request (RFC 6750 section 2.1), or an empty text.
fn token<B>(request: &Request<B>) -> String {
    let named = request.headers().get(header::AUTHORIZATION).and_then(|it| it.to_str().ok());
    named.and_then(|it| it.strip_prefix("Bearer ")).unwrap_or_default().to_string()
}

/// Returns the session of a token, or the status that its sender is told: an error that is no refusal says nothing about the token.
async fn session(keys: &KeySet, validation: &Validation, token: String) -> Result<Session, StatusCode> {
    let mut answer = keys.try_decode::<Session>(&token, validation);
    if matches!(&answer, Err(refusal) if *refusal.error.kind() == ErrorKind::Fetching) {
        Fetched::of(keys).map_err(|_| StatusCode::SERVICE_UNAVAILABLE)?.await;
        answer = keys.try_decode::<Session>(&token, validation);
    }
    match answer {
        Ok(verified) => Ok(verified.claims),
        Err(refusal) if refusal.error.is_refusal() => Err(StatusCode::UNAUTHORIZED),
        Err(_) => Err(StatusCode::SERVICE_UNAVAILABLE),
    }
}

/// Returns an answer that does not help a forger (RFC 6750 section 3).
fn refused(status: StatusCode) -> Answer {
    let mut answer = Response::new(String::new());
    *answer.status_mut() = status;
    if status == StatusCode::UNAUTHORIZED {
        answer.headers_mut().insert(header::WWW_AUTHENTICATE, header::HeaderValue::from_static("Bearer"));
    }
    answer
}

/// The end of the fetch that is under way: whether it has come, and which task waits for it. A service adds the time limit of its runtime.
#[derive(Clone, Default)]
struct Fetched(Arc<Mutex<(bool, Option<Waker>)>>);

impl Fetched {
    fn of(keys: &KeySet) -> Result<Fetched, Error> {
        let fetched = Fetched::default();
        let other = fetched.clone();
        keys.when_fetched(move || {
            let mut state = other.0.lock().unwrap_or_else(|it| it.into_inner());
            state.0 = true;
            if let Some(waker) = state.1.take() {
                waker.wake();
            }
        })?;
        Ok(fetched)
    }
}

impl Future for Fetched {
    type Output = ();

    fn poll(self: Pin<&mut Self>, context: &mut Context<'_>) -> Poll<()> {
        let mut state = self.0.lock().unwrap_or_else(|it| it.into_inner());
        state.1 = Some(context.waker().clone());
        if state.0 { Poll::Ready(()) } else { Poll::Pending }
    }
}

/// The service that is protected.
#[derive(Clone)]
struct Hello;

impl Service<Request<()>> for Hello {
    type Response = Answer;
    type Error = std::convert::Infallible;
    type Future = std::future::Ready<Result<Answer, Self::Error>>;

    fn poll_ready(&mut self, _: &mut Context<'_>) -> Poll<Result<(), Self::Error>> {
        Poll::Ready(Ok(()))
    }

    fn call(&mut self, request: Request<()>) -> Self::Future {
        let name = request.extensions().get::<Session>().map_or("nobody", |it| &it.sub);
        std::future::ready(Ok(Response::new(format!("hello {name}"))))
    }
}

struct Unpark(Thread);

impl Wake for Unpark {
    fn wake(self: Arc<Self>) {
        self.0.unpark();
    }
}

/// Waits for a future in this thread, in the place of tokio.
fn block_on<F: Future + Unpin>(mut future: F) -> F::Output {
    let waker = Waker::from(Arc::new(Unpark(thread::current())));
    loop {
        match Pin::new(&mut future).poll(&mut Context::from_waker(&waker)) {
            Poll::Ready(output) => return output,
            Poll::Pending => thread::park(),
        }
    }
}

/// Returns the secret of a `kid`. A real set has public keys.
fn secret(kid: &str) -> Vec<u8> {
    kid.repeat(32).into_bytes()
}

fn issue(kid: &str, exp: u64) -> Result<String, Error> {
    let header = Header { kid: Some(kid.to_string()), ..Header::default() };
    encode(&header, &json!({"sub": "ada", "aud": "shop", "exp": exp}), &EncodingKey::from_secret(&secret(kid)))
}

/// Returns what the key server answers at first, after a rotation, and when it is down.
fn answer(fetch: usize) -> Result<Cursor<String>, &'static str> {
    const A: &str = r#"{"kty":"oct","kid":"a","k":"YWFhYWFhYWFhYWFhYWFhYWFhYWFhYWFhYWFhYWFhYWE"}"#;
    const B: &str = r#"{"kty":"oct","kid":"b","k":"YmJiYmJiYmJiYmJiYmJiYmJiYmJiYmJiYmJiYmJiYmI"}"#;
    thread::sleep(Duration::from_millis(50));
    match fetch {
        0 => Ok(Cursor::new(format!(r#"{{"keys":[{A}]}}"#))),
        // the key that no library knows is skipped, and is logged
        1 => Ok(Cursor::new(format!(r#"{{"keys":[{A},{{"kty":"new","kid":"c"}},{B}]}}"#))),
        _ => Err("the key server is down"),
    }
}

fn main() -> Result<(), Error> {
    let fetches = AtomicUsize::new(0);
    let fetch = move || answer(fetches.fetch_add(1, Ordering::SeqCst));
    let rotation = Rotation { refetch: Duration::from_millis(1), ..Rotation::default() };
    let mut validation = Validation::strict(Algorithm::HS256);
    validation.set_audience(&["shop"]);
    let keys = Arc::new(KeySet::new(fetch, rotation)?);
    keys.when_skipped(|skipped| skipped.iter().for_each(|it| eprintln!("{it}")));
    let mut service = Protect { inner: Hello, keys, validation: Arc::new(validation) };
    let of = |token: String| format!("Bearer {token}");
    let long = 4102444800;
    let rows = [
        ("a key of the set", of(issue("a", long)?), 200, "hello ada"),
        ("expired", of(issue("a", 1)?), 401, ""),
        ("forged", of(issue("a", long)? + "AAAA"), 401, ""),
        ("no token", String::new(), 401, ""),
        ("a key that is fetched", of(issue("b", long)?), 200, "hello ada"),
        ("a key server that is down", of(issue("c", long)?), 503, ""),
        ("a key of the last set", of(issue("b", long)?), 200, "hello ada"),
    ];
    let mut failed = 0;
    for (what, authorization, status, text) in &rows {
        let request =
            Request::builder().header(header::AUTHORIZATION, authorization).body(()).expect("it has a header");
        let answer = block_on(service.call(request)).unwrap_or_else(|never| match never {});
        println!("{what}: {} {}", answer.status(), answer.body());
        failed += usize::from((answer.status().as_u16(), answer.body().as_str()) != (*status, *text));
        thread::sleep(Duration::from_millis(5)); // longer than `refetch`
    }
    println!("{} requests to a service of tower in Rust, {failed} failed", rows.len());
    std::process::exit(i32::from(failed > 0))
}
