//! Answers a script of docs/SCRIPT.md by the library. Its answers are those of `sm_cli model`.
//!
//! ```console
//! $ cargo run --example script SERVERS RESTARTS CEILING BOUND.. < script.in
//! ```
//!
//! It skips the settings line: the board has servers 1 to SERVERS. Each server has a domain of its own and room for all
//! shards, and all servers may be down. `load` isn't answered.
use durkenzo::{
    Board, Control, Layout, Map, MapFault, Mode, Pass, Permit, Plan, Record, Reply, Request,
    RestartFault, Router, Routes, ServerId, ShardId, Stand, Value,
};
use std::collections::HashMap;
use std::error::Error;
use std::io::{stdin, stdout, Read, Write};
use std::str::FromStr;

const MOST_HOPS: usize = 4;

/// The values of a shard's keys, and how many requests the shard has had.
struct Body {
    map: Map,
    requests: u64,
}

impl Body {
    fn new() -> Result<Body, MapFault> {
        Ok(Body {
            map: Map::new()?,
            requests: 0,
        })
    }

    /// Returns the text of the reply to a request of the sample service, which comes from the library's own map.
    fn reply(&mut self, word: &str, key: &[u8], rest: &[u8]) -> Vec<u8> {
        let request = request(word, key, rest);
        match self.map.ask(&request).expect("memory is there") {
            Reply::Nothing => b"nothing".to_vec(),
            Reply::Done => b"done".to_vec(),
            Reply::Value(value) => shown_value("count ", "text ", &value),
            Reply::Pairs(pairs) => shown_pairs(&pairs),
            Reply::WrongKind => b"reply WrongKind".to_vec(),
            Reply::Overflow => b"reply Overflow".to_vec(),
            Reply::TextTooLong => b"reply TooLong".to_vec(),
        }
    }
}

/// Returns the request in these words of a line.
fn request<'a>(word: &str, key: &'a [u8], rest: &'a [u8]) -> Request<'a> {
    match word {
        "get" => Request::Get(key),
        "put" => Request::Put(key, rest),
        "append" => Request::Append(key, rest),
        "inc" => Request::Add(key, number(rest)),
        "del" => Request::Remove(key),
        _ => {
            let (high, most) = split(rest);
            Request::Scan(key, high, number(most))
        }
    }
}

/// Returns the number in a word. The line must have no error.
fn number<T: FromStr>(word: &[u8]) -> T {
    let number = std::str::from_utf8(word)
        .ok()
        .and_then(|it| it.parse().ok());
    number.expect("the line is without an error")
}

/// Returns a value as an answer shows it: a count behind the first word, a text behind the second.
fn shown_value(count: &str, text: &str, value: &Value) -> Vec<u8> {
    match value {
        Value::Count(held) => format!("{count}{held}").into_bytes(),
        Value::Text(held) => [format!("{text}{}:", held.len()).as_bytes(), held].concat(),
    }
}

fn shown_pairs(pairs: &[(Vec<u8>, Value)]) -> Vec<u8> {
    let mut shown = format!("pairs {}", pairs.len()).into_bytes();
    for (key, value) in pairs {
        shown.extend(format!(" {}:", key.len()).bytes());
        shown.extend(key);
        shown.extend(shown_value(" c", " t", value));
    }
    shown
}

/// Returns the word before the first space, and the rest after the space.
fn split(line: &[u8]) -> (&[u8], &[u8]) {
    match line.iter().position(|byte| *byte == b' ') {
        Some(at) => (&line[..at], &line[at + 1..]),
        None => (line, b""),
    }
}

struct ScriptSession {
    board: Board<Body>,
    routes: Routes,
    router: Router,
    /// Passes that hold a shard until they are dropped.
    held: HashMap<ShardId, Pass<Body>>,
    layout: Layout,
    control: Control<Body>,
    /// One pass for each server, from server 1.
    passes: Vec<Pass<Body>>,
    /// Whether requests reach each server.
    reached: Vec<bool>,
}

type ScriptAnswer = Result<Vec<u8>, String>;

impl ScriptSession {
    fn answer(&mut self, line: &[u8]) -> Option<ScriptAnswer> {
        let (word, rest) = split(line);
        let (first, after) = split(rest);
        let number = |word: &[u8]| std::str::from_utf8(word).ok()?.parse::<u16>().ok();
        let shard = |word: &[u8]| ShardId::new(number(word)?).ok();
        let server = |word: &[u8]| ServerId::new(number(word)?).ok();
        Some(match std::str::from_utf8(word).ok()? {
            "at" => self.request(Some(server(first)?), after),
            "client" => self.by_route(rest),
            "get" | "put" | "append" | "inc" | "del" | "scan" => self.request(None, line),
            "look" => self.look(shard(first)?),
            "hold" => self.hold(shard(first)?, server(after)?),
            "free" => self.free(shard(first)?),
            "checkpoint" => self.admit(shard(first)?, server(after)?),
            "publish" => match self.routes.publish(&mut self.passes[0], shard(first)?) {
                Ok(_) => Ok(b"ok".to_vec()),
                Err(fault) => Err(named(&fault)),
            },
            "route" => Ok(self.route(first)),
            "place" => Ok(shown(&self.control.plan_assign().ok()?)),
            "drain" => match self.control.plan_drain(server(first)?) {
                Ok(plan) => Ok(shown(&plan)),
                Err(fault) => Err(named(&fault)),
            },
            word @ ("ask" | "approve" | "stopped" | "back" | "fail") => {
                self.step(word, server(first)?)
            }
            word => self.change(word, shard(first)?, server(after))?,
        })
    }

    /// A forgotten permit keeps its shard until its pass is dropped.
    fn hold(&mut self, shard: ShardId, server: ServerId) -> ScriptAnswer {
        let mut pass = self.pass(shard, server)?;
        std::mem::forget(pass.admit(shard, Mode::Direct).map_err(|it| named(&it))?);
        self.held.insert(shard, pass);
        Ok(b"ok".to_vec())
    }

    fn free(&mut self, shard: ShardId) -> ScriptAnswer {
        self.known(shard)?;
        self.held.remove(&shard).ok_or("NotHeld")?;
        Ok(b"ok".to_vec())
    }

    /// Another program's body keeps no requests, so a checkpoint is only an admission that changes nothing.
    fn admit(&mut self, shard: ShardId, server: ServerId) -> ScriptAnswer {
        let mut pass = self.pass(shard, server)?;
        let permit = pass.admit(shard, Mode::Direct).map_err(|it| named(&it))?;
        Permit::finish(permit);
        Ok(b"ok".to_vec())
    }

    fn known(&self, shard: ShardId) -> Result<(), String> {
        match shard.index() < self.board.count() {
            true => Ok(()),
            false => Err("UnknownShard".into()),
        }
    }

    fn pass(&self, shard: ShardId, server: ServerId) -> Result<Pass<Body>, String> {
        self.known(shard)?;
        match server.index() < self.passes.len() {
            true => Ok(self.board.pass(server).unwrap()),
            false => Err("UnknownServer".into()),
        }
    }

    fn route(&mut self, key: &[u8]) -> Vec<u8> {
        let shard = self.layout.shard_of(key);
        match self.router.route(shard) {
            Some(it) => format!("route {shard} {} {}", it.server, it.generation).into_bytes(),
            None => b"none".to_vec(),
        }
    }

    fn by_route(&mut self, request: &[u8]) -> ScriptAnswer {
        let (key, _) = split(split(request).1);
        let route = self.router.route(self.layout.shard_of(key));
        self.request(Some(route.ok_or("NoRoute")?.server), request)
    }

    fn change(&self, word: &str, shard: ShardId, server: Option<ServerId>) -> Option<ScriptAnswer> {
        let control = &self.control;
        let made = match word {
            "assign" => control.assign(shard, server?),
            "prepare_add" => control.prepare_add_shard(shard, server?),
            "prepare_drop" => control.prepare_drop_shard(shard),
            "add" => control.add_shard(shard),
            "drop" => control.drop_shard(shard),
            "cancel" => control.cancel(shard),
            "pause" => control.pause(shard),
            "resume" => control.resume(shard),
            "reassign" => control.reassign(shard, server?),
            _ => return None,
        };
        Some(match made {
            Ok(()) => Ok(b"ok".to_vec()),
            Err(fault) => Err(named(&fault)),
        })
    }

    fn step(&mut self, word: &str, server: ServerId) -> ScriptAnswer {
        let made = match word {
            "ask" => self.control.ask(server),
            "approve" => self.control.approve(server),
            "stopped" => self.control.stopped(server),
            "back" => self.control.back(server),
            _ => self.control.fail(server),
        };
        match made {
            Ok(()) => {
                if let "stopped" | "fail" | "back" = word {
                    self.reached[server.index()] = word == "back";
                }
                Ok(b"ok".to_vec())
            }
            Err(fault) => Err(self.refused(fault, server)),
        }
    }

    /// Returns the name of the fault, and the shard that the server still serves. The library finds that shard only by
    /// the records.
    fn refused(&mut self, fault: RestartFault, server: ServerId) -> String {
        let name = format!("{fault:?}");
        if fault != RestartFault::StillServing {
            return name;
        }
        let serves = |it: Record| {
            !matches!(it.stand, Stand::Paused(_))
                && ([it.owner(), it.other()].contains(&Some(server.get())))
        };
        let pass = &mut self.passes[0];
        let mut shards = self.board.shards();
        let shard = shards.find(|shard| serves(pass.look(*shard).unwrap()));
        format!("{name} {}", shard.unwrap())
    }

    fn look(&mut self, shard: ShardId) -> ScriptAnswer {
        let record = self.passes[0]
            .look(shard)
            .map_err(|fault| format!("{fault:?}"))?;
        let (owner, other) = (record.owner().unwrap_or(0), record.other().unwrap_or(0));
        let (stand, generation) = (record.stand.name(), record.generation);
        let admitted = if record.admitted { "admitted" } else { "idle" };
        Ok(format!("{stand} {owner} {other} {admitted} {generation}").into_bytes())
    }

    /// Sends a request to a server, or to the shard's owner, and on to each server to which it is forwarded.
    fn request(&mut self, at: Option<ServerId>, request: &[u8]) -> ScriptAnswer {
        let (word, rest) = split(request);
        let (word, (key, rest)) = (std::str::from_utf8(word).unwrap(), split(rest));
        let shard = self.layout.shard_of(key);
        let record = self.passes[0].look(shard).unwrap();
        let mut server = match at {
            Some(server) if server.index() >= self.passes.len() => {
                return Err("UnknownServer".into())
            }
            Some(server) => server,
            None => ServerId::new(record.owner().ok_or("Vacant")?).unwrap(),
        };
        let mut mode = Mode::Direct;
        for hops in 0.. {
            let index = server.index();
            if !self.reached[index] {
                return Err("Unreachable".into());
            }
            let record = self.passes[index].look(shard).unwrap();
            let Some(next) = record.forward(server.get()) else {
                break;
            };
            if hops == MOST_HOPS {
                return Err("TooManyHops".into());
            }
            (mode, server) = (Mode::Forwarded(server), ServerId::new(next).unwrap());
        }
        let pass = &mut self.passes[server.index()];
        let mut body = pass.admit(shard, mode).map_err(|fault| named(&fault))?;
        let reply = body.reply(word, key, rest);
        let place = body.requests;
        body.requests += 1;
        Permit::finish(body);
        Ok([reply, format!(" @{server}#{place}").into_bytes()].concat())
    }
}

/// Returns the name of a fault, without its record.
fn named(fault: &impl std::fmt::Debug) -> String {
    let text = format!("{fault:?}");
    text.split('(').next().unwrap_or_default().to_owned()
}

fn shown(plan: &Plan) -> Vec<u8> {
    let moves = plan.moves.iter();
    let moves: String = moves
        .map(|it| format!(" {}>{}", it.shard, it.server))
        .collect();
    let left: String = plan.left.iter().map(|it| format!(" {it}")).collect();
    format!("plan{moves} left{left}").into_bytes()
}

fn main() -> Result<(), Box<dyn Error>> {
    let words: Vec<String> = std::env::args().skip(1).collect();
    let [servers, restarts, ceiling, bounds @ ..] = &words[..] else {
        return Err("script SERVERS RESTARTS CEILING BOUND..".into());
    };
    let servers = servers.parse()?;
    let bodies: Vec<_> = bounds
        .iter()
        .map(|_| Body::new())
        .collect::<Result<_, _>>()?;
    let board = Board::builder()
        .servers(servers)
        .restarts(restarts.parse()?)
        .ceiling(ceiling.parse()?)
        .build(bodies)?;
    let routes = Routes::new(board.count())?;
    let mut session = ScriptSession {
        router: routes.router()?,
        routes,
        held: HashMap::new(),
        layout: Layout::new(bounds)?,
        control: board.control(),
        passes: ServerId::all(servers)
            .map(|it| board.pass(it))
            .collect::<Result<_, _>>()?,
        reached: vec![true; servers.into()],
        board,
    };
    let mut script = Vec::new();
    stdin().read_to_end(&mut script)?;
    let mut answers = Vec::new();
    for line in script.split(|byte| *byte == b'\n').skip(1) {
        match session.answer(line) {
            Some(Ok(answer)) => answers.extend(answer),
            Some(Err(name)) => answers.extend(format!("refused {name}").bytes()),
            None => continue,
        }
        answers.push(b'\n');
    }
    stdout().write_all(&answers)?;
    Ok(())
}
