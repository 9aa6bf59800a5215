//! What `demo serve` is measured against: the same way of a request, as one would write it in plain Rust over
//! std. A script is read and checked, each head is read as a request with its headers and cookies and routed by its
//! decoded segments, the response is sent to a link that keeps its pieces, every event goes into a history, and the
//! text is printed from what the links hold.
//! Build: rustc -O bench/peer.rs
use std::collections::BTreeMap;
use std::io::{self, Read, Write};
use std::process::ExitCode;
use std::time::{SystemTime, UNIX_EPOCH};

const USAGE: &str = "usage: rkt_demo serve [--workers N] [--summary] [--config NAME=TEXT] | make N\n";
const SCRIPT_LIMIT: usize = 16_777_216;

struct Head {
    method: String,
    target: String,
    headers: Vec<(String, Vec<u8>)>,
}

struct ScriptRequest {
    head: Head,
    body: Vec<u8>,
}

type Cookies = BTreeMap<String, String>;

#[allow(dead_code)]
struct Request {
    method: &'static str,
    origin: Origin,
    host: Option<String>,
    headers: Vec<(String, String)>,
    // how many segments the base of the route has that is tried
    base: usize,
}

#[allow(dead_code)]
struct Origin {
    text: String,
    segments: Vec<String>,
}

struct Response {
    status: u16,
    headers: Vec<(String, Vec<String>)>,
    body: Vec<u8>,
}

enum Piece {
    Head {
        status: u16,
        headers: Vec<(String, String)>,
    },
    Chunk(Vec<u8>),
    End,
}

#[allow(dead_code)]
struct Link {
    head: Head,
    body: Vec<u8>,
    source: Option<Vec<u8>>,
    held: Vec<Piece>,
}

/// A call of a route or of a catcher, what came of it, and how many changes the log had behind it.
#[allow(dead_code)]
struct Call {
    catcher: bool,
    position: usize,
    answer: u16,
    changes: usize,
}

/// The cookies that came, and a log of those that are added; those below the floor are not sent.
struct Jar {
    #[allow(dead_code)]
    originals: Cookies,
    log: Vec<(String, String)>,
    floor: usize,
}

// What a history keeps besides what the text tells, as the program's does.
#[allow(dead_code)]
struct Run {
    calls: Vec<Call>,
    jar: Jar,
    cache: Vec<(u32, u64)>,
    moment: u64,
}

#[allow(dead_code)]
struct Entry {
    link: Link,
    run: Run,
    response: Response,
    failed: bool,
}

#[allow(dead_code)]
enum Event {
    Lift,
    Admit { number: u64, moment: u64 },
    End { number: u64, entry: Entry, moment: u64 },
    Close { moment: u64 },
}

/// What a route answers: a response, an error, or the body with a status for the next route.
enum Outcome {
    Success(Response),
    Error(u16),
    Forward(Vec<u8>, u16),
}

type Handler = fn(&Request, Vec<u8>, &mut Jar) -> Outcome;

struct Segment {
    text: String,
    dynamic: bool,
}

struct Route {
    method: &'static str,
    base: usize,
    segments: Vec<Segment>,
    rank: i64,
    handler: Handler,
}

type CatchHandler = fn(u16, &mut Jar) -> Result<Response, u16>;

struct Catcher {
    code: Option<u16>,
    base: Vec<String>,
    handler: CatchHandler,
}

struct Tables {
    routes: Vec<Route>,
    // the positions of the routes by rank, and then by position
    order: Vec<usize>,
    catchers: Vec<Catcher>,
}

/// A clock that never goes back.
struct Clock(u64);

impl Clock {
    fn now(&mut self) -> u64 {
        let told = SystemTime::now().duration_since(UNIX_EPOCH).map_or(0, |since| since.as_secs());
        self.0 = self.0.max(told);
        self.0
    }
}

fn is_path_byte(byte: u8) -> bool {
    byte.is_ascii_alphanumeric() || b"-._~%!$&'()*+,;=:@/".contains(&byte)
}

fn is_query_byte(byte: u8) -> bool {
    is_path_byte(byte) || b"?[]{}|\\^`".contains(&byte)
}

fn hex(byte: u8) -> Option<u8> {
    (byte as char).to_digit(16).map(|digit| digit as u8)
}

fn decode(piece: &str) -> String {
    let bytes = piece.as_bytes();
    let mut decoded = Vec::with_capacity(bytes.len());
    let mut at = 0;
    while at < bytes.len() {
        let pair = (bytes.get(at + 1).copied().and_then(hex), bytes.get(at + 2).copied().and_then(hex));
        if let (b'%', (Some(high), Some(low))) = (bytes[at], pair) {
            decoded.push(high * 16 + low);
            at += 3;
        } else {
            decoded.push(bytes[at]);
            at += 1;
        }
    }
    String::from_utf8_lossy(&decoded).into_owned()
}

impl Origin {
    fn parse(text: &str) -> Option<Origin> {
        let (path, query) = text.split_once('?').unwrap_or((text, ""));
        let good = path.starts_with('/') && path.bytes().all(is_path_byte) && query.bytes().all(is_query_byte);
        good.then(|| Origin {
            text: text.to_owned(),
            segments: path.split('/').filter(|piece| !piece.is_empty()).map(decode).collect(),
        })
    }
}

fn content_of(line: &[u8]) -> &[u8] {
    match line {
        [content @ .., b'\r', b'\n'] => content,
        [content @ .., b'\n'] => content,
        _ => line,
    }
}

const METHODS: [&str; 9] = ["GET", "PUT", "POST", "DELETE", "OPTIONS", "HEAD", "TRACE", "CONNECT", "PATCH"];

fn is_word(word: &str, test: impl Fn(u8) -> bool) -> bool {
    !word.is_empty() && word.bytes().all(test)
}

/// The words of a request line.
fn read_words(content: &[u8]) -> Option<(&str, &str)> {
    let (method, target) = std::str::from_utf8(content).ok()?.split_once(' ')?;
    (is_word(method, |byte| byte.is_ascii_uppercase()) && is_word(target, |byte| byte.is_ascii_graphic())).then_some((method, target))
}

fn is_token_byte(byte: u8) -> bool {
    byte.is_ascii_alphanumeric() || b"!#$%&'*+-.^_`|~".contains(&byte)
}

/// The name and the value of a header line.
fn read_field(content: &[u8]) -> Option<(&str, &[u8])> {
    let text = content.strip_prefix(b": ")?;
    let end = text.iter().position(|byte| !is_token_byte(*byte))?;
    let value = text[end..].strip_prefix(b": ")?;
    let name = std::str::from_utf8(&text[..end]).ok()?;
    (!name.is_empty()).then_some((name, value))
}

/// Reads a line behind the requests so far.
fn read_line(requests: &mut Vec<ScriptRequest>, content: &[u8]) -> Option<()> {
    match content {
        [] | [b'#', ..] => {}
        [b':', ..] => {
            let (name, value) = read_field(content)?;
            requests.last_mut()?.head.headers.push((name.to_owned(), value.to_vec()));
        }
        [b'=', ..] => {
            let bytes = content.strip_prefix(b"= ")?;
            requests.last_mut()?.body.extend_from_slice(bytes);
        }
        _ => {
            let (method, target) = read_words(content)?;
            let head = Head { method: method.to_owned(), target: target.to_owned(), headers: Vec::new() };
            requests.push(ScriptRequest { head, body: Vec::new() });
        }
    }
    Some(())
}

/// The requests that a script asks, or the number of its first bad line.
fn read_script(script: &[u8]) -> Result<Vec<ScriptRequest>, usize> {
    let mut requests = Vec::new();
    let mut room = SCRIPT_LIMIT;
    for (index, line) in script.split_inclusive(|byte| *byte == b'\n').enumerate() {
        if line.len() > room {
            return Err(index + 1);
        }
        read_line(&mut requests, content_of(line)).ok_or(index + 1)?;
        room -= line.len();
    }
    Ok(requests)
}

/// The request of a head, and its cookies; no request where the head is bad.
fn read_head(head: &Head) -> (Option<Request>, Cookies) {
    let mut headers: Vec<(String, String)> = Vec::new();
    for (name, value) in &head.headers {
        if let Ok(value) = std::str::from_utf8(value) {
            headers.push((name.clone(), value.to_owned()));
        }
    }
    let mut jar = Cookies::new();
    for (_, value) in headers.iter().filter(|(name, _)| name.eq_ignore_ascii_case("Cookie")) {
        jar.extend(
            value
                .split(';')
                .filter_map(|piece| piece.trim().split_once('='))
                .map(|(name, value)| (name.to_owned(), value.to_owned())),
        );
    }
    let host = headers.iter().find(|(name, _)| name.eq_ignore_ascii_case("Host")).map(|(_, value)| value.clone());
    let known = METHODS.iter().find(|method| **method == head.method);
    let request = known.and_then(|method| Origin::parse(&head.target).map(|origin| (*method, origin)));
    (request.map(|(method, origin)| Request { method, origin, host, headers, base: 0 }), jar)
}

fn typed(status: u16, content_type: &str, body: String) -> Response {
    Response {
        status,
        headers: vec![("Content-Type".to_owned(), vec![content_type.to_owned()])],
        body: body.into_bytes(),
    }
}

/// The reason and the description of a status.
fn told(code: u16) -> (&'static str, &'static str) {
    match code {
        400 => ("Bad Request", "The request could not be understood by the server due to malformed syntax."),
        404 => ("Not Found", "The requested resource could not be found."),
        418 => ("I'm a teapot", "I was requested to brew coffee, and I am a teapot."),
        422 => ("Unprocessable Entity", "The request was well-formed but was unable to be followed due to semantic errors."),
        _ => ("Internal Server Error", "The server encountered an internal error while processing this request."),
    }
}

/// Whether the media type that a list of accepted ones prefers is JSON: the first of the greatest weight and the most names.
fn prefers_json(accept: &str) -> bool {
    let mut best: Option<(f32, usize, &str)> = None;
    for entry in accept.split(',') {
        let mut parts = entry.split(';').map(str::trim);
        let media = parts.next().unwrap_or("");
        let weight = parts.find_map(|part| part.strip_prefix("q=")).and_then(|text| text.parse().ok()).unwrap_or(1.0);
        let names = media.split('/').filter(|name| *name != "*").count();
        if best.is_none_or(|(other, more, _)| (weight, names) > (other, more)) {
            best = Some((weight, names, media));
        }
    }
    best.is_some_and(|(_, _, media)| media.eq_ignore_ascii_case("application/json"))
}

/// The page of a status where no catcher answers.
fn page(code: u16, request: Option<&Request>) -> Response {
    let (reason, description) = told(code);
    let accept = request.and_then(|request| request.headers.iter().find(|(name, _)| name.eq_ignore_ascii_case("Accept")));
    if accept.is_some_and(|(_, value)| prefers_json(value)) {
        let text = format!(
            "{{\n  \"error\": {{\n    \"code\": {code},\n    \"reason\": \"{reason}\",\n    \"description\": \"{description}\"\n  }}\n}}"
        );
        return typed(code, "application/json", text);
    }
    let text = format!(
        "<!DOCTYPE html>
<html lang=\"en\">
<head>
    <meta charset=\"utf-8\">
    <meta name=\"color-scheme\" content=\"light dark\">
    <title>{code} {reason}</title>
</head>
<body align=\"center\">
    <div role=\"main\" align=\"center\">
        <h1>{code}: {reason}</h1>
        <p>{description}</p>
        <hr />
    </div>
    <div role=\"contentinfo\" align=\"center\">
        <small>Rocket</small>
    </div>
</body>
</html>"
    );
    typed(code, "text/html; charset=utf-8", text)
}

const TEXT: &str = "text/plain; charset=utf-8";

fn says(text: impl Into<String>) -> Outcome {
    Outcome::Success(typed(200, TEXT, text.into()))
}

fn greet(request: &Request, body: Vec<u8>, _jar: &mut Jar) -> Outcome {
    let segments = &request.origin.segments[request.base..];
    match (segments.first(), segments.get(1).and_then(|age| age.parse::<u8>().ok())) {
        (Some(name), Some(age)) => says(format!("Hello, {age} year old named {name}!")),
        _ => Outcome::Forward(body, 404),
    }
}

fn leave(_request: &Request, body: Vec<u8>, _jar: &mut Jar) -> Outcome {
    Outcome::Forward(body, 422)
}

fn echo(_request: &Request, body: Vec<u8>, _jar: &mut Jar) -> Outcome {
    match String::from_utf8(body) {
        Ok(text) if text.len() <= 8192 => says(text),
        _ => Outcome::Error(400),
    }
}

fn added(jar: &mut Jar, name: &str, rest: &str) {
    jar.log.push((name.to_owned(), format!("{name}={rest}")));
}

const MARK: &str = "1; SameSite=Strict; Path=/";

fn trial(_request: &Request, body: Vec<u8>, jar: &mut Jar) -> Outcome {
    added(jar, "a", MARK);
    Outcome::Forward(body, 404)
}

fn spoiled(_request: &Request, _body: Vec<u8>, jar: &mut Jar) -> Outcome {
    added(jar, "a", MARK);
    Outcome::Error(418)
}

fn flash(_request: &Request, _body: Vec<u8>, jar: &mut Jar) -> Outcome {
    added(jar, "_flash", "7%3AsuccessIt%20worked!; SameSite=Strict; Path=/; Max-Age=300");
    Outcome::Success(Response { status: 303, headers: vec![("Location".to_owned(), vec!["/page".to_owned()])], body: Vec::new() })
}

fn broken(_request: &Request, _body: Vec<u8>, _jar: &mut Jar) -> Outcome {
    Outcome::Success(Response { status: 200, headers: vec![("X-Bad".to_owned(), vec!["\n".to_owned()])], body: Vec::new() })
}

fn names_of(path: &str) -> impl Iterator<Item = &str> {
    path.split('/').filter(|piece| !piece.is_empty())
}

fn route(method: &'static str, base: &str, path: &str, rank: Option<i64>, handler: Handler) -> Route {
    let segment = |text: &str| Segment { text: text.to_owned(), dynamic: text.starts_with('<') };
    let segments: Vec<Segment> = names_of(base).chain(names_of(path)).map(segment).collect();
    let dynamic = segments.iter().filter(|segment| segment.dynamic).count();
    let kind = if dynamic == 0 { 3 } else if dynamic < segments.len() { 2 } else { 1 };
    Route { method, base: names_of(base).count(), segments, rank: rank.unwrap_or(3 - 4 * kind), handler }
}

fn catcher(code: Option<u16>, base: &str, handler: CatchHandler) -> Catcher {
    Catcher { code, base: names_of(base).map(str::to_owned).collect(), handler }
}

fn tables() -> Tables {
    let routes = vec![
        route("GET", "/hello", "/<name>/<age>", None, greet),
        route("GET", "/", "/page", None, |_, _, _| says("hello")),
        route("HEAD", "/", "/page", None, leave),
        route("HEAD", "/", "/gone", None, leave),
        route("POST", "/", "/form", None, |_, _, _| says("post")),
        route("DELETE", "/", "/form", None, |_, _, _| says("delete")),
        route("GET", "/", "/trial", Some(1), trial),
        route("GET", "/", "/trial", Some(2), |_, _, _| says("tried")),
        route("GET", "/", "/spoiled", None, spoiled),
        route("GET", "/", "/flash", None, flash),
        route("POST", "/", "/echo", None, echo),
        route("GET", "/", "/broken", None, broken),
    ];
    let mut order: Vec<usize> = (0..routes.len()).collect();
    order.sort_by_key(|position| routes[*position].rank);
    let catchers = vec![
        catcher(Some(404), "/a", |code, _| Ok(typed(code, TEXT, "404 at /a".to_owned()))),
        catcher(None, "/a/b", |code, _| Ok(typed(code, TEXT, "default at /a/b".to_owned()))),
        catcher(Some(404), "/bad", |_, _| Err(418)),
        catcher(Some(500), "/bad", |_, jar| {
            added(jar, "k", MARK);
            Err(418)
        }),
    ];
    Tables { routes, order, catchers }
}

/// What is added to each answer but that of a bad request, where it has no header of the name: the server's name, and the
/// headers of the shield.
const DRESS: [(&str, &str); 4] = [
    ("Server", "Rocket"),
    ("Permissions-Policy", "interest-cohort=()"),
    ("X-Content-Type-Options", "nosniff"),
    ("X-Frame-Options", "SAMEORIGIN"),
];

fn dressed(mut response: Response) -> Response {
    for (name, value) in DRESS {
        if !response.headers.iter().any(|(other, _)| other.eq_ignore_ascii_case(name)) {
            response.headers.push((name.to_owned(), vec![value.to_owned()]));
        }
    }
    response
}

fn matches(route: &Route, request: &Request) -> bool {
    let names = &request.origin.segments;
    route.method == request.method
        && route.segments.len() == names.len()
        && route.segments.iter().zip(names).all(|(segment, name)| segment.dynamic || segment.text == *name)
}

/// The routes that match are tried, each with the body that the one before gave back.
fn walk(tables: &Tables, request: &mut Request, mut body: Vec<u8>, run: &mut Run) -> Outcome {
    let mut status = 404;
    for position in tables.order.iter().copied() {
        let route = &tables.routes[position];
        if !matches(route, request) {
            continue;
        }
        request.base = route.base;
        let outcome = (route.handler)(request, body, &mut run.jar);
        let answer = match &outcome {
            Outcome::Success(_) => 0,
            Outcome::Error(status) | Outcome::Forward(_, status) => *status,
        };
        run.calls.push(Call { catcher: false, position, answer, changes: run.jar.log.len() });
        match outcome {
            Outcome::Forward(back, next) => (body, status) = (back, next),
            ended => return ended,
        }
    }
    Outcome::Forward(body, status)
}

/// The catcher of a status: of the longest base, and with a code before one without.
fn chosen<'a>(tables: &'a Tables, status: u16, request: &Request) -> Option<(usize, &'a Catcher)> {
    let fits = |catcher: &Catcher| catcher.code.is_none_or(|code| code == status) && request.origin.segments.starts_with(&catcher.base);
    let ranked = tables.catchers.iter().enumerate().filter(|(_, catcher)| fits(catcher));
    ranked.rev().max_by_key(|(_, catcher)| (catcher.base.len(), catcher.code.is_some()))
}

fn caught(tables: &Tables, status: u16, request: &Request, run: &mut Run) -> Option<Response> {
    run.jar.floor = run.jar.log.len();
    let Some((position, catcher)) = chosen(tables, status, request) else {
        return Some(page(status, Some(request)));
    };
    let answer = (catcher.handler)(status, &mut run.jar);
    run.calls.push(Call { catcher: true, position, answer: *answer.as_ref().err().unwrap_or(&0), changes: run.jar.log.len() });
    answer.ok()
}

fn errored(tables: &Tables, status: u16, request: &Request, run: &mut Run) -> Response {
    let first = caught(tables, status, request, run);
    let second = first.or_else(|| if status == 500 { None } else { caught(tables, 500, request, run) });
    second.unwrap_or_else(|| page(500, Some(request)))
}

/// The cookies that are pending, the last of each name, and what is added to each answer.
fn finish(mut response: Response, jar: &mut Jar, head: bool) -> Response {
    let pending = &jar.log[jar.floor..];
    let last = |at: usize| pending[at + 1..].iter().all(|(name, _)| *name != pending[at].0);
    let cookies: Vec<String> = (0..pending.len()).filter(|at| last(*at)).map(|at| pending[at].1.clone()).collect();
    if !cookies.is_empty() {
        response.headers.push(("Set-Cookie".to_owned(), cookies));
    }
    jar.floor = jar.log.len();
    let mut response = dressed(response);
    if head {
        response.headers.push(("Content-Length".to_owned(), vec![response.body.len().to_string()]));
        response.body.clear();
    }
    response
}

/// One exchange: the request of a head is routed, and its answer dressed.
fn exchange(tables: &Tables, link: &mut Link, moment: u64) -> (Run, Response) {
    let (request, originals) = read_head(&link.head);
    let jar = Jar { originals, log: Vec::new(), floor: 0 };
    let mut run = Run { calls: Vec::new(), jar, cache: Vec::new(), moment };
    let Some(mut request) = request else {
        return (run, page(400, None));
    };
    let head = request.method == "HEAD";
    let body = link.source.take().unwrap_or_default();
    let mut outcome = walk(tables, &mut request, body, &mut run);
    if head && let Outcome::Forward(body, _) = outcome {
        request.method = "GET";
        outcome = walk(tables, &mut request, body, &mut run);
    }
    let response = match outcome {
        Outcome::Success(response) => response,
        Outcome::Error(status) | Outcome::Forward(_, status) => errored(tables, status, &request, &mut run),
    };
    let response = finish(response, &mut run.jar, head);
    (run, response)
}

fn is_sendable(value: &str) -> bool {
    value.bytes().all(|byte| byte == b'\t' || (byte >= 32 && byte != 127))
}

/// Sends a response, unless it has a header that no response may have.
fn send(response: &Response, held: &mut Vec<Piece>) -> bool {
    let mut headers = Vec::new();
    for (name, values) in &response.headers {
        headers.extend(values.iter().map(|value| (name.clone(), value.clone())));
    }
    if !headers.iter().all(|(name, value)| name.bytes().all(is_token_byte) && is_sendable(value)) {
        return false;
    }
    if !headers.iter().any(|(name, _)| name == "Content-Length") {
        headers.push(("Content-Length".to_owned(), response.body.len().to_string()));
    }
    held.push(Piece::Head { status: response.status, headers });
    held.extend(response.body.chunks(4096).map(|chunk| Piece::Chunk(chunk.to_vec())));
    held.push(Piece::End);
    true
}

fn launch(tables: &Tables, links: Vec<Link>, clock: &mut Clock) -> Vec<Event> {
    let mut events = vec![Event::Lift];
    for (number, mut link) in links.into_iter().enumerate() {
        let number = number as u64;
        events.push(Event::Admit { number, moment: clock.now() });
        let (run, response) = exchange(tables, &mut link, clock.now());
        let failed = !send(&response, &mut link.held);
        events.push(Event::End { number, entry: Entry { link, run, response, failed }, moment: clock.now() });
    }
    events.push(Event::Close { moment: clock.now() });
    events
}

fn print_section(out: &mut Vec<u8>, number: usize, entry: &Entry) -> io::Result<()> {
    if entry.failed {
        return writeln!(out, "#{number} Failed");
    }
    write!(out, "#{number} Answered ")?;
    let mut body = Vec::new();
    for piece in &entry.link.held {
        match piece {
            Piece::Head { status, headers } => {
                writeln!(out, "{status}")?;
                for (name, value) in headers {
                    writeln!(out, "{name}: {value}")?;
                }
            }
            Piece::Chunk(bytes) => body.extend_from_slice(bytes),
            Piece::End => {}
        }
    }
    writeln!(out, "{} bytes", body.len())?;
    out.extend_from_slice(&body);
    writeln!(out)
}

/// The text of a history, by the numbers of its entries.
fn print_history(events: &[Event]) -> io::Result<Vec<u8>> {
    let admitted = events.iter().filter(|event| matches!(event, Event::Admit { .. })).count();
    let mut entries: Vec<Option<&Entry>> = vec![None; admitted];
    for event in events {
        if let Event::End { number, entry, .. } = event {
            entries[*number as usize].get_or_insert(entry);
        }
    }
    let mut out = Vec::new();
    for (number, entry) in entries.iter().enumerate() {
        if let Some(entry) = entry {
            print_section(&mut out, number, entry)?;
        }
    }
    writeln!(out, "served {admitted}")?;
    Ok(out)
}

fn run(words: &[String], source: &mut impl Read, sink: &mut impl Write) -> u8 {
    if words != ["serve"] {
        let _ = sink.write_all(USAGE.as_bytes());
        return 2;
    }
    let mut script = Vec::new();
    if source.take(SCRIPT_LIMIT as u64 + 1).read_to_end(&mut script).is_err() {
        return 4;
    }
    let requests = match read_script(&script) {
        Ok(requests) => requests,
        Err(number) => {
            let _ = writeln!(sink, "script line {number}");
            return 3;
        }
    };
    let link = |request: ScriptRequest| Link { head: request.head, source: Some(request.body.clone()), body: request.body, held: Vec::new() };
    let events = launch(&tables(), requests.into_iter().map(link).collect(), &mut Clock(0));
    let written = print_history(&events).and_then(|text| sink.write_all(&text)).and_then(|()| sink.flush());
    if written.is_err() { 5 } else { 0 }
}

fn main() -> ExitCode {
    let words: Vec<String> = std::env::args().skip(1).collect();
    ExitCode::from(run(&words, &mut io::stdin().lock(), &mut io::stdout().lock()))
}
