//! The lines of scripts, and the texts of their answers.

use sm_desk::{Command, CommandFault};
use sm_ownership::admit_fault::AdmitFault;
use sm_ownership::change::Change;
use sm_ownership::change_fault::ChangeFault;
use sm_ownership::record::Record;
use sm_place::PlaceFault;
use sm_ranges::key::Key;
use sm_ranges::server_id::ServerId;
use sm_ranges::shard_id::ShardId;
use sm_ranges::stand::Stand;
use sm_script::{
    Call, LineAnswer, LineFault, LoadClients, MAX_LINE, ParseFault, Refused, forms,
    long_line_fault, parse,
};
use sm_service::bytes::Bytes;
use sm_service::reply::Reply;
use sm_service::request::Request;
use sm_tasks::RestartFault;
use std::alloc::Global;
use std::process::Abort;
use std::test::Fail;

#[test]
fn documented_example(rt: HostRuntime) -> Result<(), Fail> {
    let alloc = rt.alloc();
    let fault = parse(alloc, b"assign 0").err();
    assert_eq!(rt; fault, Some(ParseFault::Line(LineFault::BadLine)));
    let mut out = Vec::new(alloc);
    LineAnswer::Error(LineFault::BadLine).write_to(&mut out)?;
    assert_eq!(rt; out.as_slice(), b"error BadLine".as_slice());
    Ok(())
}

// The name of the line's fault, or nothing where it has none.
fn fault_name(alloc: Global, line: &str) -> &'static str {
    match parse(alloc, line.as_bytes()) {
        Err(ParseFault::Line(fault)) => fault.name(),
        Err(ParseFault::NoMemory) => "NoMemory",
        Ok(_) => "",
    }
}

// Each line has the fault of this name, or none where that is empty.
fn have_faults(rt: &impl Abort, alloc: Global, lines: &[(&str, &str)]) {
    for (line, name) in lines {
        assert!(rt; fault_name(alloc, line) == *name, "{line}");
    }
}

fn faults_of_assignments_and_loads(rt: &impl Abort, alloc: Global) {
    let lines = [
        ("assign 0 4096", "BadNumber"),
        ("assign 0 0", "BadNumber"),
        ("assign 4096 1", "BadNumber"),
        ("assing 0 1", "UnknownWord"),
        ("assign 0", "BadLine"),
        ("assign 0 1 ", "BadLine"),
        ("load a 1 1", ""),
        ("load a 17 1", "BadNumber"),
        ("load a 1 10001", "BadNumber"),
        ("assign 00 1", "BadNumber"),
    ];
    have_faults(rt, alloc, &lines);
}

fn faults_of_commands_and_no_words(rt: &impl Abort, alloc: Global) {
    let lines = [
        (" ", "UnknownWord"),
        ("prepare_add 0", "BadLine"),
        ("prepare_add 0 0", "BadNumber"),
        ("prepare_drop 0 1", "BadLine"),
        ("reassign 4096 1", "BadNumber"),
        ("hold 0 4096", "BadNumber"),
        ("free", "BadLine"),
        ("Add 0", "UnknownWord"),
        ("ask 1", ""),
        ("ask 0", "BadNumber"),
        ("drain", "BadLine"),
        ("place", ""),
        ("place ", "BadLine"),
        ("", ""),
        ("# get", ""),
    ];
    have_faults(rt, alloc, &lines);
}

fn faults_of_requests(rt: &impl Abort, alloc: Global) {
    let lines = [
        ("get  a", "BadLine"),
        ("put  x", "BadKey"),
        ("put", "BadLine"),
        ("inc a -0", "BadNumber"),
        ("inc a 9223372036854775808", "BadNumber"),
        ("inc a -9223372036854775809", "BadNumber"),
        ("inc a 01", "BadNumber"),
        ("inc a +1", "BadNumber"),
        ("inc a", "BadLine"),
        ("inc  x", "BadKey"),
        ("append  x", "BadKey"),
        ("del a b", "BadLine"),
        ("scan a z 4294967296", "BadNumber"),
        ("scan a z 4294967295", ""),
        ("scan  z x", "BadKey"),
        ("get ", "BadKey"),
    ];
    have_faults(rt, alloc, &lines);
}

fn faults_of_requests_sent(rt: &impl Abort, alloc: Global) {
    let lines = [
        ("at x get a", "BadNumber"),
        ("at 1", "BadLine"),
        ("at 1 get", "BadLine"),
        ("at 9 foo a", "UnknownWord"),
        ("at 1 look 0", "UnknownWord"),
        ("at 0 get a", "BadNumber"),
        ("at 4096 get a", "BadNumber"),
        ("at x get ", "BadNumber"),
        ("at 1 inc  -0", "BadKey"),
        ("at 1 inc a -0", "BadNumber"),
        ("at 1 del a", ""),
        ("at x del a", "BadNumber"),
        ("client", "BadLine"),
        ("client look 0", "UnknownWord"),
        ("at x fly a", "UnknownWord"),
    ];
    have_faults(rt, alloc, &lines);
}

// The lines stand in four tables, as the proof of a table grows faster than its length.
#[test]
fn first_fault_of_a_line(rt: HostRuntime) {
    faults_of_assignments_and_loads(&rt, rt.alloc());
    faults_of_commands_and_no_words(&rt, rt.alloc());
    faults_of_requests(&rt, rt.alloc());
    faults_of_requests_sent(&rt, rt.alloc());
}

// Words with a space between each two.
#[derive(Drop)]
struct Words {
    alloc: Global,
    text: String,
}

impl Words {
    fn new(alloc: Global) -> Words {
        Words {
            alloc,
            text: String::new(alloc),
        }
    }

    fn add(&mut self, rt: &impl Abort, word: &str) {
        let space = if self.text.is_empty() { "" } else { " " };
        self.text.push_str(space).ok().expect(rt, "memory");
        self.text.push_str(word).ok().expect(rt, "memory");
    }

    fn add_number(&mut self, rt: &impl Abort, number: i64) {
        let word = format!(in self.alloc; "{number}").ok().expect(rt, "memory");
        self.add(rt, &word);
    }

    fn add_bytes(&mut self, rt: &impl Abort, bytes: &[u8]) {
        let word = format!(in self.alloc; "{bytes:?}")
            .ok()
            .expect(rt, "memory");
        self.add(rt, &word);
    }

    fn add_shard(&mut self, rt: &impl Abort, word: &str, shard: ShardId) {
        self.add(rt, word);
        self.add_number(rt, i64::from(shard.number()));
    }

    fn add_server(&mut self, rt: &impl Abort, word: &str, server: ServerId) {
        self.add(rt, word);
        self.add_number(rt, i64::from(server.number()));
    }

    fn add_both(&mut self, rt: &impl Abort, word: &str, shard: ShardId, server: ServerId) {
        self.add_shard(rt, word, shard);
        self.add_number(rt, i64::from(server.number()));
    }

    fn add_key(&mut self, rt: &impl Abort, word: &str, key: &Key) {
        self.add(rt, word);
        self.add_bytes(rt, key.as_bytes());
    }

    fn add_text(&mut self, rt: &impl Abort, word: &str, key: &Key, text: &Bytes) {
        self.add_key(rt, word, key);
        self.add_bytes(rt, text.as_bytes());
    }
}

// Adds what a request asks for.
fn add_request(rt: &impl Abort, words: &mut Words, request: &Request) {
    match request {
        Request::Get(key) => words.add_key(rt, "get", key),
        Request::Put(key, text) => words.add_text(rt, "put", key, text),
        Request::Inc(key, amount) => {
            words.add_key(rt, "inc", key);
            words.add_number(rt, *amount);
        }
        Request::Append(key, tail) => words.add_text(rt, "append", key, tail),
        Request::Del(key) => words.add_key(rt, "del", key),
        Request::Scan(low, high, most) => {
            words.add_key(rt, "scan", low);
            words.add_bytes(rt, high.as_bytes());
            words.add_number(rt, i64::from(*most));
        }
    }
}

// Adds what a change of a shard asks for.
fn add_change(rt: &impl Abort, words: &mut Words, k: ShardId, change: Change) {
    match change {
        Change::Assign(server) => words.add_both(rt, "assign", k, server),
        Change::PrepareAddShard(server) => words.add_both(rt, "prepare_add", k, server),
        Change::PrepareDropShard => words.add_shard(rt, "prepare_drop", k),
        Change::AddShard => words.add_shard(rt, "add", k),
        Change::DropShard => words.add_shard(rt, "drop", k),
        Change::Cancel => words.add_shard(rt, "cancel", k),
        Change::Pause => words.add_shard(rt, "pause", k),
        Change::Resume => words.add_shard(rt, "resume", k),
        Change::Reassign(server) => words.add_both(rt, "reassign", k, server),
    }
}

// Adds what a command of the control asks for.
fn add_command(rt: &impl Abort, words: &mut Words, command: &Command) {
    match command {
        Command::Change(shard, change) => add_change(rt, words, *shard, *change),
        Command::Ask(server) => words.add_server(rt, "ask", *server),
        Command::Approve(server) => words.add_server(rt, "approve", *server),
        Command::Stopped(server) => words.add_server(rt, "stopped", *server),
        Command::Back(server) => words.add_server(rt, "back", *server),
        Command::Fail(server) => words.add_server(rt, "fail", *server),
    }
}

// Adds what a request asks for that names where it goes.
fn add_sent(rt: &impl Abort, words: &mut Words, to: Option<ServerId>, request: &Request) {
    match to {
        Some(server) => words.add_server(rt, "at", server),
        None => words.add(rt, "client"),
    }
    add_request(rt, words, request);
}

// Adds what a load asks for.
fn add_load(rt: &impl Abort, words: &mut Words, key: &Key, clients: LoadClients, each: u16) {
    words.add_key(rt, "load", key);
    words.add_number(rt, i64::try_from(clients.count()).unwrap_or(0));
    words.add_number(rt, i64::from(each));
}

// Adds what a call asks for.
fn add_call(rt: &impl Abort, words: &mut Words, call: &Call) {
    match call {
        Call::Control(command) => add_command(rt, words, command),
        Call::Place => words.add(rt, "place"),
        Call::Drain(server) => words.add_server(rt, "drain", *server),
        Call::Hold(shard, server) => words.add_both(rt, "hold", *shard, *server),
        Call::Free(shard) => words.add_shard(rt, "free", *shard),
        Call::Checkpoint(shard, server) => words.add_both(rt, "checkpoint", *shard, *server),
        Call::Look(shard) => words.add_shard(rt, "look", *shard),
        Call::Publish(shard) => words.add_shard(rt, "publish", *shard),
        Call::Route(key) => words.add_key(rt, "route", key),
        Call::Request(request) => add_request(rt, words, request),
        Call::RequestAt(server, request) => add_sent(rt, words, Some(*server), request),
        Call::RequestByRoute(request) => add_sent(rt, words, None, request),
        Call::Load { key, clients, each } => add_load(rt, words, key, *clients, *each),
    }
}

// What the line's call asks for; nothing where it makes none.
fn shown(rt: &impl Abort, alloc: Global, line: &[u8]) -> String {
    let mut words = Words::new(alloc);
    if let Ok(Some(call)) = parse(alloc, line) {
        add_call(rt, &mut words, &call);
    }
    words.text
}

// Each line makes the call that is shown so.
fn make_calls(rt: &impl Abort, alloc: Global, lines: &[(&[u8], &str)]) {
    for (line, text) in lines {
        let found = shown(rt, alloc, line);
        assert!(rt; found.as_str() == *text);
    }
}

fn calls_of_changes(rt: &impl Abort, alloc: Global) {
    let lines: [(&[u8], &str); 11] = [
        (b"assign 1 1", "assign 1 1"),
        (b"assign 4095 4095", "assign 4095 4095"),
        (b"prepare_add 0 2", "prepare_add 0 2"),
        (b"prepare_drop 1", "prepare_drop 1"),
        (b"add 2", "add 2"),
        (b"drop 3", "drop 3"),
        (b"cancel 4", "cancel 4"),
        (b"pause 5", "pause 5"),
        (b"resume 6", "resume 6"),
        (b"reassign 7 8", "reassign 7 8"),
        (b"hold 9 10", "hold 9 10"),
    ];
    make_calls(rt, alloc, &lines);
}

fn calls_of_the_control(rt: &impl Abort, alloc: Global) {
    let lines: [(&[u8], &str); 11] = [
        (b"free 11", "free 11"),
        (b"checkpoint 12 13", "checkpoint 12 13"),
        (b"look 0", "look 0"),
        (b"ask 1", "ask 1"),
        (b"approve 2", "approve 2"),
        (b"stopped 3", "stopped 3"),
        (b"back 4", "back 4"),
        (b"fail 4095", "fail 4095"),
        (b"place", "place"),
        (b"drain 5", "drain 5"),
        (b"publish 14", "publish 14"),
    ];
    make_calls(rt, alloc, &lines);
}

fn calls_of_requests(rt: &impl Abort, alloc: Global) {
    let lines: [(&[u8], &str); 11] = [
        (b"route m", "route [109]"),
        (b"client get m", "client get [109]"),
        (b"load m 16 10000", "load [109] 16 10000"),
        (b"get \xff", "get [255]"),
        (b"put m  a b ", "put [109] [32, 97, 32, 98, 32]"),
        (b"put m", "put [109] []"),
        (b"put m ", "put [109] []"),
        (b"inc m 0", "inc [109] 0"),
        (b"inc m -1", "inc [109] -1"),
        (
            b"inc m 9223372036854775807",
            "inc [109] 9223372036854775807",
        ),
        (
            b"inc m -9223372036854775808",
            "inc [109] -9223372036854775808",
        ),
    ];
    make_calls(rt, alloc, &lines);
}

fn calls_of_requests_sent(rt: &impl Abort, alloc: Global) {
    let lines: [(&[u8], &str); 8] = [
        (b"at 4095 get m", "at 4095 get [109]"),
        (b"at 1 put m  a", "at 1 put [109] [32, 97]"),
        (b"at 2 inc m 12", "at 2 inc [109] 12"),
        (b"append m  a ", "append [109] [32, 97, 32]"),
        (b"append m", "append [109] []"),
        (b"del m", "del [109]"),
        (b"scan a m 0", "scan [97] [109] 0"),
        (
            b"at 3 scan m a 4294967295",
            "at 3 scan [109] [97] 4294967295",
        ),
    ];
    make_calls(rt, alloc, &lines);
}

#[test]
fn calls_of_lines(rt: HostRuntime) {
    calls_of_changes(&rt, rt.alloc());
    calls_of_the_control(&rt, rt.alloc());
    calls_of_requests(&rt, rt.alloc());
    calls_of_requests_sent(&rt, rt.alloc());
}

// The example of each line makes the call that the line is for.
#[test]
fn examples_of_lines(rt: HostRuntime) {
    for form in forms() {
        let found = shown(&rt, rt.alloc(), form.example.as_bytes());
        assert!(rt; found.starts_with(form.name));
    }
    assert!(rt; forms().len() == 31);
}

// The fault of a line of so many bytes, whose word is unknown.
fn fault_of_length(rt: &impl Abort, alloc: Global, length: usize) -> Option<ParseFault> {
    let line = vec![in alloc; b'x'; length].ok().expect(rt, "memory");
    parse(alloc, &line).err()
}

#[test]
fn lines_at_the_limit(rt: HostRuntime) {
    let unknown = Some(ParseFault::Line(LineFault::UnknownWord));
    let too_long = Some(ParseFault::Line(LineFault::LineTooLong));
    assert!(rt; fault_of_length(&rt, rt.alloc(), MAX_LINE) == unknown);
    assert!(rt; fault_of_length(&rt, rt.alloc(), MAX_LINE + 1) == too_long);
    assert!(rt; long_line_fault(b"put") == Some(LineFault::LineTooLong));
    assert!(rt; long_line_fault(b"#") == None);
}

// Whether the answer adds this text to what was written.
fn is_text(rt: &impl Abort, alloc: Global, answer: &LineAnswer, text: &str) -> bool {
    let mut out = Vec::from_slice(alloc, b"> ").ok().expect(rt, "memory");
    answer.write_to(&mut out).ok().expect(rt, "memory");
    out.starts_with(b"> ") && out.get(2..) == Some(text.as_bytes())
}

// Each refusal has its text.
fn have_texts(rt: &impl Abort, alloc: Global, refusals: &[(Refused, &str)]) {
    for (refused, text) in refusals {
        assert!(rt;
            is_text(rt, alloc, &LineAnswer::Refused(*refused), text),
            "{text}"
        );
    }
}

fn texts_of_refusals(rt: &impl Abort, alloc: Global) {
    let change = CommandFault::Change(ChangeFault::WrongPhase);
    let place = CommandFault::Place(PlaceFault::NoCapacity);
    let approve = CommandFault::Restart(RestartFault::DomainCap(7));
    let refusals = [
        (Refused::UnknownShard, "refused UnknownShard"),
        (Refused::TooManyHops, "refused TooManyHops"),
        (Refused::Admit(AdmitFault::NotYet), "refused NotYet"),
        (Refused::Admit(AdmitFault::Spent), "refused Spent"),
        (Refused::Command(change), "refused WrongPhase"),
        (Refused::NotHeld, "refused NotHeld"),
        (Refused::Command(place), "refused NoCapacity"),
        (Refused::Command(approve), "refused DomainCap 7"),
    ];
    have_texts(rt, alloc, &refusals);
}

fn record(stand: Stand, admitted: bool, generation: u64) -> Record {
    Record {
        stand,
        admitted,
        generation,
    }
}

fn texts_of_records(rt: &impl Abort, alloc: Global, owner: ServerId, next: ServerId) {
    let taken = Stand::Taken {
        owner: next,
        previous: owner,
    };
    let records = [
        (record(Stand::Vacant, false, 0), "Vacant 0 0 idle 0"),
        (
            record(Stand::Prepared { owner, next }, true, 4),
            "Prepared 1 2 admitted 4",
        ),
        (
            record(Stand::Forwarding { owner, next }, false, 5),
            "Forwarding 1 2 idle 5",
        ),
        (record(taken, false, 6), "Taken 2 1 idle 6"),
        (
            record(Stand::Paused(owner), false, 68719476735),
            "Paused 1 0 idle 68719476735",
        ),
    ];
    for (record, text) in &records {
        assert!(rt;
            is_text(rt, alloc, &LineAnswer::Seen(*record), text),
            "{text}"
        );
    }
}

// The reply of the server has this text.
fn has_text(
    rt: &impl Abort,
    alloc: Global,
    reply: Reply,
    server: ServerId,
    place: u64,
    text: &str,
) {
    let answer = LineAnswer::Executed {
        reply,
        server,
        place,
    };
    assert!(rt; is_text(rt, alloc, &answer, text), "{text}");
}

fn texts_of_replies(rt: &impl Abort, alloc: Global, owner: ServerId, next: ServerId) {
    let hello = Bytes::new(alloc, b"hello").ok().expect(rt, "memory");
    let hello = Reply::Text(hello);
    has_text(rt, alloc, Reply::Overflow, owner, 1, "reply Overflow @1#1");
    has_text(
        rt,
        alloc,
        Reply::WrongKind,
        owner,
        3,
        "reply WrongKind @1#3",
    );
    has_text(rt, alloc, Reply::Done, owner, 0, "done @1#0");
    has_text(rt, alloc, hello, owner, 1, "text 5:hello @1#1");
    has_text(rt, alloc, Reply::Count(-7), next, 2, "count -7 @2#2");
}

#[test]
fn texts_of_answers(rt: HostRuntime) {
    let (alloc, owner, next) = (rt.alloc(), ServerId::of(1), ServerId::of(2));
    texts_of_refusals(&rt, alloc);
    texts_of_records(&rt, alloc, owner, next);
    texts_of_replies(&rt, alloc, owner, next);
    assert!(rt; is_text(&rt, alloc, &LineAnswer::Made, "ok"));
    let not_here = LineAnswer::Error(LineFault::NotHere);
    assert!(rt; is_text(&rt, alloc, &not_here, "error NotHere"));
}
