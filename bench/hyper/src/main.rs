//! The server that the hub is measured beside: the measured routes in nearly the same bytes, over hyper and tokio.
//!
//!     hyper_hub serve 127.0.0.1:5984
//!
//! It makes databases, stores documents, one by one and in batches, reads them, and serves normal and continuous
//! feeds. A database is a map and a log behind one mutex. The server keeps no trees of revisions, no filters and no
//! limits, and takes names and ids as the path has them. It knows only the parameters `since`, `include_docs`, `feed`
//! and `heartbeat`. Its answers have a `Date`, which hyper writes by itself. Its sequences are numbers, and a chunk of
//! a feed has up to 512 rows.

use futures_util::stream;
use hyper::body::{to_bytes, Bytes};
use hyper::header::{HeaderValue, CONTENT_TYPE};
use hyper::service::{make_service_fn, service_fn};
use hyper::{Body, Method, Request, Response, Server, StatusCode};
use md5::{Digest, Md5};
use serde_json::{Map, Value};
use std::collections::HashMap;
use std::convert::Infallible;
use std::fmt::Write;
use std::net::TcpListener;
use std::sync::{Arc, Mutex, RwLock};
use std::time::Duration;
use tokio::sync::watch;

/// The most rows of one chunk.
const ROWS: usize = 512;

/// The time for which a continuous feed without a heartbeat waits for a row.
const TIMEOUT: Duration = Duration::from_secs(60);

/// The reason for which a request is refused: a status, a kind and a text.
struct Refusal(StatusCode, &'static str, &'static str);

const ABSENT: Refusal = Refusal(StatusCode::NOT_FOUND, "not_found", "Database does not exist.");
const CONFLICT: Refusal = Refusal(StatusCode::CONFLICT, "conflict", "Document update conflict.");
const METHOD: Refusal = Refusal(StatusCode::METHOD_NOT_ALLOWED, "method_not_allowed", "method not allowed");
const MISSING: Refusal = Refusal(StatusCode::NOT_FOUND, "not_found", "missing");
const TAKEN: &str = "The database could not be created, the file already exists.";
const EXISTS: Refusal = Refusal(StatusCode::PRECONDITION_FAILED, "file_exists", TAKEN);

fn bad(reason: &'static str) -> Refusal {
    Refusal(StatusCode::BAD_REQUEST, "bad_request", reason)
}

/// A document, as its last write left it.
struct Document {
    /// The id, as a JSON string.
    id_text: String,
    rev: String,
    /// The members without `_id` and `_rev`, as a JSON object.
    members: String,
    seq: usize,
}

impl Document {
    /// Appends the document's JSON, as answers and rows show it.
    fn show(&self, text: &mut String) {
        let (id, rev) = (&self.id_text, &self.rev);
        let _ = write!(text, "{{\"_id\":{id},\"_rev\":\"{rev}\"");
        if self.members != "{}" {
            text.push(',');
        }
        text.push_str(&self.members[1..]);
    }

    /// Appends the document's row of a feed.
    fn row(&self, text: &mut String, with_docs: bool) {
        let (seq, id, rev) = (self.seq, &self.id_text, &self.rev);
        let _ = write!(text, "{{\"seq\":{seq},\"id\":{id},\"changes\":[{{\"rev\":\"{rev}\"}}]");
        if with_docs {
            text.push_str(",\"doc\":");
            self.show(text);
        }
        text.push('}');
    }
}

/// An edit that a writer asks for.
struct Edit {
    id: String,
    id_text: String,
    /// The revision that the edit extends. A replicated edit does not use it.
    parent: Option<String>,
    rev: String,
    members: String,
    is_replicated: bool,
}

impl Edit {
    /// The edit that a document asks for. A new edit's hash is the MD5 of `[false,parent,id,members]`, and a
    /// replicated edit brings its revision as `_rev`.
    fn read(id: String, mut members: Map<String, Value>, is_new: bool) -> Result<Edit, Refusal> {
        members.remove("_id");
        let parent = match members.remove("_rev") {
            None => None,
            Some(Value::String(rev)) => Some(rev),
            Some(_) => return Err(bad("bad rev")),
        };
        let id_text = Value::String(id.clone()).to_string();
        let members = Value::Object(members).to_string();
        let rev = match (&parent, is_new) {
            (Some(rev), false) => rev.clone(),
            (None, false) => return Err(bad("bad rev")),
            (Some(rev), true) => {
                let generation = rev.split('-').next().and_then(|word| word.parse::<u16>().ok());
                let generation = u32::from(generation.ok_or(bad("bad rev"))?) + 1;
                made(generation, &Value::String(rev.clone()).to_string(), &id_text, &members)
            }
            (None, true) => made(1, "null", &id_text, &members),
        };
        Ok(Edit { id, id_text, parent, rev, members, is_replicated: !is_new })
    }
}

fn made(generation: u32, parent: &str, id_text: &str, members: &str) -> String {
    let mut hasher = Md5::new();
    for part in ["[false,", parent, ",", id_text, ",", members, "]"] {
        hasher.update(part);
    }
    format!("{generation}-{:x}", hasher.finalize())
}

/// The state behind the mutex of a database.
#[derive(Default)]
struct State {
    documents: HashMap<String, Arc<Document>>,
    /// The document that was written at each sequence, from 1 on; `None` where it was written again later.
    log: Vec<Option<Arc<Document>>>,
}

impl State {
    /// Stores an edit, and returns the document with its new revision.
    fn store(&mut self, edit: Edit) -> Result<Arc<Document>, Refusal> {
        let old = self.documents.get(&edit.id);
        let extended = old.map(|old| old.rev.as_str());
        if !edit.is_replicated && extended != edit.parent.as_deref() {
            return Err(CONFLICT);
        }
        if let Some(old) = old {
            self.log[old.seq - 1] = None;
        }
        let seq = self.log.len() + 1;
        let Edit { id, id_text, rev, members, .. } = edit;
        let document = Arc::new(Document { id_text, rev, members, seq });
        self.documents.insert(id, document.clone());
        self.log.push(Some(document.clone()));
        Ok(document)
    }

    /// The documents of at most `ROWS` rows above a sequence, and the sequence up to which the log was read.
    fn rows_above(&self, since: usize) -> (Vec<Arc<Document>>, usize) {
        let mut rows = Vec::new();
        let mut at = since.min(self.log.len());
        for place in &self.log[at..] {
            if rows.len() == ROWS {
                break;
            }
            at += 1;
            rows.extend(place.iter().cloned());
        }
        (rows, at.max(since))
    }
}

/// A database. Each write tells its sequence to the feeds.
struct Database {
    state: Mutex<State>,
    news: watch::Sender<usize>,
}

impl Database {
    /// Stores edits, with no other write between them.
    fn store_all(&self, edits: Vec<Result<Edit, Refusal>>) -> Vec<Result<Arc<Document>, Refusal>> {
        let (stored, seq) = {
            let mut state = self.state.lock().unwrap();
            let stored = edits.into_iter().map(|edit| edit.and_then(|edit| state.store(edit)));
            (stored.collect(), state.log.len())
        };
        self.news.send_replace(seq);
        stored
    }

    fn store(&self, edit: Edit) -> Result<Arc<Document>, Refusal> {
        let document = self.state.lock().unwrap().store(edit)?;
        self.news.send_replace(document.seq);
        Ok(document)
    }
}

/// A feed that is being sent.
struct Feed {
    database: Arc<Database>,
    news: watch::Receiver<usize>,
    /// The sequence up to which rows were sent.
    at: usize,
    with_docs: bool,
    is_continuous: bool,
    heartbeat: Option<Duration>,
    /// The text before the next row of a normal feed.
    before: &'static str,
    is_over: bool,
}

impl Feed {
    /// The feed's next chunk. A continuous feed waits for a row, and else sends a heartbeat or its end.
    async fn chunk(mut self) -> Option<(Result<Bytes, Infallible>, Feed)> {
        if self.is_over {
            return None;
        }
        loop {
            // Each write from here on is news.
            self.news.borrow_and_update();
            let (rows, at) = self.database.state.lock().unwrap().rows_above(self.at);
            self.at = at;
            if !rows.is_empty() || !self.is_continuous {
                let text = self.text(&rows);
                return Some((Ok(text.into()), self));
            }
            let wait = self.heartbeat.unwrap_or(TIMEOUT);
            if tokio::time::timeout(wait, self.news.changed()).await.is_err() {
                if self.heartbeat.is_some() {
                    return Some((Ok(Bytes::from_static(b"\n")), self));
                }
                self.is_over = true;
                let end = format!("{{\"last_seq\":{},\"pending\":0}}\n", self.at);
                return Some((Ok(end.into()), self));
            }
        }
    }

    /// The text of these rows. Without a row a normal feed gets its end, and is over.
    fn text(&mut self, rows: &[Arc<Document>]) -> String {
        let room = |row: &Arc<Document>| 96 + row.id_text.len() + row.members.len();
        let mut text = String::with_capacity(64 + rows.iter().map(room).sum::<usize>());
        for row in rows {
            if !self.is_continuous {
                text.push_str(self.before);
                self.before = ",\n";
            }
            row.row(&mut text, self.with_docs);
            if self.is_continuous {
                text.push('\n');
            }
        }
        if rows.is_empty() {
            if self.before != ",\n" {
                text.push_str(self.before);
            }
            let _ = write!(text, "\n],\n\"last_seq\":{},\"pending\":0}}\n", self.at);
            self.is_over = true;
        }
        text
    }
}

/// The members of a JSON object; else a refusal.
fn object(value: Value) -> Result<Map<String, Value>, Refusal> {
    match value {
        Value::Object(members) => Ok(members),
        _ => Err(bad("not an object")),
    }
}

/// The members of the JSON object in a request's body.
async fn body_of(request: Request<Body>) -> Result<Map<String, Value>, Refusal> {
    let bytes = to_bytes(request.into_body()).await.map_err(|_| bad("broken body"))?;
    object(serde_json::from_slice(&bytes).map_err(|_| bad("not JSON"))?)
}

fn reply(status: StatusCode, body: impl Into<Body>) -> Response<Body> {
    let mut response = Response::new(body.into());
    *response.status_mut() = status;
    response.headers_mut().insert(CONTENT_TYPE, HeaderValue::from_static("application/json"));
    response
}

/// The databases by their names.
#[derive(Default)]
struct Hub {
    names: RwLock<HashMap<String, Arc<Database>>>,
}

impl Hub {
    fn find(&self, name: &str) -> Result<Arc<Database>, Refusal> {
        self.names.read().unwrap().get(name).cloned().ok_or(ABSENT)
    }

    fn create(&self, name: String) -> Result<Response<Body>, Refusal> {
        let mut names = self.names.write().unwrap();
        if names.contains_key(&name) {
            return Err(EXISTS);
        }
        names.insert(name, Arc::new(Database { state: Mutex::default(), news: watch::channel(0).0 }));
        Ok(reply(StatusCode::CREATED, "{\"ok\":true}\n"))
    }

    async fn answer(&self, request: Request<Body>) -> Result<Response<Body>, Refusal> {
        let uri = request.uri().clone();
        let path = uri.path().trim_matches('/');
        let (name, rest) = path.split_once('/').unwrap_or((path, ""));
        match (request.method(), rest) {
            (&Method::PUT, "") => self.create(name.to_owned()),
            (&Method::GET, "_changes") => feed(self.find(name)?, uri.query()),
            (&Method::POST, "_bulk_docs") => bulk(&*self.find(name)?, request).await,
            (_, id) if id.is_empty() || id.starts_with('_') => Err(METHOD),
            (&Method::GET, id) => get(&*self.find(name)?, id),
            (&Method::PUT, id) => put(&*self.find(name)?, id, request).await,
            _ => Err(METHOD),
        }
    }
}

fn get(database: &Database, id: &str) -> Result<Response<Body>, Refusal> {
    let document = database.state.lock().unwrap().documents.get(id).cloned().ok_or(MISSING)?;
    let mut text = String::with_capacity(64 + document.id_text.len() + document.members.len());
    document.show(&mut text);
    text.push('\n');
    Ok(reply(StatusCode::OK, text))
}

async fn put(database: &Database, id: &str, request: Request<Body>) -> Result<Response<Body>, Refusal> {
    let members = body_of(request).await?;
    let document = database.store(Edit::read(id.to_owned(), members, true)?)?;
    let text = format!("{{\"ok\":true,\"id\":{},\"rev\":\"{}\"}}\n", document.id_text, document.rev);
    Ok(reply(StatusCode::CREATED, text))
}

async fn bulk(database: &Database, request: Request<Body>) -> Result<Response<Body>, Refusal> {
    let mut asked = body_of(request).await?;
    let is_new = asked.get("new_edits") != Some(&Value::Bool(false));
    let Some(Value::Array(docs)) = asked.remove("docs") else {
        return Err(bad("not an object"));
    };
    let mut ids = Vec::with_capacity(docs.len());
    let mut edits = Vec::with_capacity(docs.len());
    for doc in docs {
        let id = doc.get("_id").cloned().unwrap_or(Value::Null);
        ids.push(id.to_string());
        edits.push(match (object(doc), id) {
            (Ok(members), Value::String(id)) if !id.starts_with('_') => Edit::read(id, members, is_new),
            (Ok(_), _) => Err(bad("bad id")),
            (Err(refusal), _) => Err(refusal),
        });
    }
    let mut rows = Vec::with_capacity(ids.len());
    for (id, stored) in ids.iter().zip(database.store_all(edits)) {
        match stored {
            Ok(document) if is_new => rows.push(format!("{{\"ok\":true,\"id\":{id},\"rev\":\"{}\"}}", document.rev)),
            Ok(_) => {}
            Err(Refusal(_, kind, reason)) => {
                rows.push(format!("{{\"id\":{id},\"error\":\"{kind}\",\"reason\":\"{reason}\"}}"));
            }
        }
    }
    Ok(reply(StatusCode::CREATED, format!("[{}]\n", rows.join(","))))
}

fn feed(database: Arc<Database>, query: Option<&str>) -> Result<Response<Body>, Refusal> {
    let (news, before) = (database.news.subscribe(), "{\"results\":[\n");
    let (at, with_docs, is_continuous, heartbeat, is_over) = (0, false, false, None, false);
    let mut feed = Feed { database, news, at, with_docs, is_continuous, heartbeat, before, is_over };
    for pair in query.unwrap_or("").split('&') {
        match pair.split_once('=').unwrap_or((pair, "")) {
            ("since", since) => feed.at = since.parse().map_err(|_| bad("bad since"))?,
            ("include_docs", word) => feed.with_docs = word == "true",
            ("feed", "normal") => {}
            ("feed", "continuous") => feed.is_continuous = true,
            ("feed", _) => return Err(bad("bad feed")),
            ("heartbeat", milliseconds) => {
                let milliseconds = milliseconds.parse().map_err(|_| bad("bad heartbeat"))?;
                feed.heartbeat = Some(Duration::from_millis(milliseconds));
            }
            _ => {}
        }
    }
    Ok(reply(StatusCode::OK, Body::wrap_stream(stream::unfold(feed, Feed::chunk))))
}

async fn answer(hub: Arc<Hub>, request: Request<Body>) -> Result<Response<Body>, Infallible> {
    Ok(hub.answer(request).await.unwrap_or_else(|Refusal(status, kind, reason)| {
        reply(status, format!("{{\"error\":\"{kind}\",\"reason\":\"{reason}\"}}\n"))
    }))
}

#[tokio::main(flavor = "multi_thread", worker_threads = 4)]
async fn main() -> Result<(), Box<dyn std::error::Error>> {
    let words: Vec<String> = std::env::args().collect();
    let (Some("serve"), Some(address)) = (words.get(1).map(String::as_str), words.get(2)) else {
        return Err("usage: hyper_hub serve ADDRESS".into());
    };
    let listener = TcpListener::bind(address)?;
    println!("listening on {}", listener.local_addr()?);
    let hub = Arc::new(Hub::default());
    let connected = make_service_fn(move |_| {
        let hub = hub.clone();
        async move { Ok::<_, Infallible>(service_fn(move |request| answer(hub.clone(), request))) }
    });
    let server = Server::from_tcp(listener)?.tcp_nodelay(true).http1_title_case_headers(true);
    server.serve(connected).await?;
    Ok(())
}
