//! Tests of a board of the sample service.
mod common;

use common::{server_id, shard_id};
use durkenzo::{
    AdmitFault, Board, BuildFault, ChangeFault, CheckpointFault, Envelope, Layout, Mode, Reply,
    Request, RestoreFault, SendFault, Sent, SentFault, ServeFault, Served, ServerId, Service,
    ServicePass, SettingsFault, Stand, Value,
};
use std::error::Error;

const SETTINGS: &str = r#"{"version":2,"bounds":["","n"],"servers":[{"id":1,"domain":0,"capacity":1},{"id":7,"domain":1,"capacity":2}],"groups":[{"limit":2,"down":1}],"shards":[{"group":0,"load":1,"cap":1},{"group":0,"load":1,"cap":1}],"ops":1,"kept":1,"ceiling":100,"workers":1,"domains":[{"domain":0,"down":1},{"domain":1,"down":0}]}"#;

fn service(bounds: &[&str], servers: u16) -> Service {
    let layout = Layout::new(bounds).unwrap();
    let service = Service::builder(layout).servers(servers).build().unwrap();
    for shard in 0..bounds.len() as u16 {
        service
            .control()
            .assign(shard_id(shard), server_id(1))
            .unwrap();
    }
    service
}

/// Has the server execute the request, and returns the reply.
fn executed(pass: &mut ServicePass, request: &Request<'_>) -> Reply {
    let envelope = pass.envelope(0, request).unwrap();
    match pass.serve(envelope) {
        Ok(Served::Answered(answer)) => answer.reply().clone(),
        other => panic!("not answered: {other:?}"),
    }
}

fn forwarded(pass: &mut ServicePass, envelope: Envelope) -> (ServerId, Envelope) {
    match pass.serve(envelope) {
        Ok(Served::Forward(to, envelope)) => (to, envelope),
        other => panic!("not forwarded: {other:?}"),
    }
}

#[test]
fn the_owner_executes_each_kind_of_request() {
    let mut owner = service(&["", "n"], 1).pass(server_id(1)).unwrap();
    let replies = [
        Request::Put(b"name", b"durk"),
        Request::Append(b"name", b"enzo"),
        Request::Get(b"name"),
        Request::Add(b"visits", 7),
        Request::Scan(b"n", b"z", 10),
        Request::Remove(b"name"),
        Request::Get(b"name"),
        Request::Put(b"visits", b"seven"),
    ]
    .map(|request| executed(&mut owner, &request));
    let text = Value::Text(b"durkenzo".to_vec());
    let pairs = vec![
        (b"name".to_vec(), text.clone()),
        (b"visits".to_vec(), Value::Count(7)),
    ];
    assert_eq!(
        replies,
        [
            Reply::Done,
            Reply::Done,
            Reply::Value(text),
            Reply::Value(Value::Count(7)),
            Reply::Pairs(pairs),
            Reply::Done,
            Reply::Nothing,
            Reply::WrongKind,
        ]
    );
}

#[test]
fn places_are_counted_by_shard() {
    let service = service(&["", "n"], 1);
    let mut owner = service.pass(server_id(1)).unwrap();
    let places = ["a", "z", "b", "y"].map(|key| {
        let envelope = owner.envelope(9, &Request::Get(key.as_bytes())).unwrap();
        match owner.serve(envelope) {
            Ok(Served::Answered(answer)) => {
                (answer.number(), answer.server().get(), answer.place())
            }
            other => panic!("not answered: {other:?}"),
        }
    });
    assert_eq!(places, [(9, 1, 0), (9, 1, 0), (9, 1, 1), (9, 1, 1)]);
}

#[test]
fn a_migration_forwards_and_refuses_nobody() {
    let service = service(&[""], 3);
    let control = service.control();
    let (mut old, mut new) = (
        service.pass(server_id(1)).unwrap(),
        service.pass(server_id(2)).unwrap(),
    );
    let one = Request::Add(b"visits", 1);
    control
        .prepare_add_shard(shard_id(0), server_id(2))
        .unwrap();
    assert_eq!(executed(&mut old, &one), Reply::Value(Value::Count(1)));
    control.prepare_drop_shard(shard_id(0)).unwrap();
    let sent = old.envelope(0, &one).unwrap();
    let (to, envelope) = forwarded(&mut old, sent);
    assert_eq!(to, server_id(2));
    assert!(matches!(new.serve(envelope), Ok(Served::Answered(_))));
    let sent = new.envelope(0, &one).unwrap();
    let refused = new.serve(sent).unwrap_err();
    assert!(matches!(
        refused.fault,
        ServeFault::Admit(AdmitFault::NotYet(_))
    ));
    control.add_shard(shard_id(0)).unwrap();
    let (to, envelope) = forwarded(&mut old, refused.envelope);
    assert_eq!(to, server_id(2));
    assert!(matches!(new.serve(envelope), Ok(Served::Answered(_))));
    control.drop_shard(shard_id(0)).unwrap();
    assert_eq!(executed(&mut new, &one), Reply::Value(Value::Count(4)));
}

#[test]
fn an_envelope_is_forwarded_four_times_at_most() {
    let service = service(&[""], 3);
    let control = service.control();
    let mut passes = [1, 2].map(|server| service.pass(server_id(server)).unwrap());
    let mut envelope = passes[0].envelope(0, &Request::Get(b"key")).unwrap();
    for hop in 0..4 {
        let (from, to) = (hop % 2, (hop + 1) % 2);
        control
            .prepare_add_shard(shard_id(0), passes[to].server())
            .unwrap();
        control.prepare_drop_shard(shard_id(0)).unwrap();
        envelope = forwarded(&mut passes[from], envelope).1;
        control.add_shard(shard_id(0)).unwrap();
        control.drop_shard(shard_id(0)).unwrap();
    }
    control
        .prepare_add_shard(shard_id(0), server_id(2))
        .unwrap();
    control.prepare_drop_shard(shard_id(0)).unwrap();
    let refused = passes[0].serve(envelope).unwrap_err();
    assert_eq!(refused.fault, ServeFault::TooManyHops);
}

#[test]
fn a_full_shard_wants_a_checkpoint() {
    let layout = Layout::new([""]).unwrap();
    let service = Service::builder(layout).kept(2).build().unwrap();
    let mut owner = service.pass(server_id(1)).unwrap();
    assert!(matches!(
        owner.checkpoint(shard_id(0)),
        Err(CheckpointFault::Admit(AdmitFault::Vacant(_)))
    ));
    service.control().assign(shard_id(0), server_id(1)).unwrap();
    executed(&mut owner, &Request::Put(b"a", b"1"));
    executed(&mut owner, &Request::Put(b"b", b"2"));
    let third = owner.envelope(3, &Request::Get(b"a")).unwrap();
    let before = owner.look(shard_id(0)).unwrap().generation;
    let refused = owner.serve(third).unwrap_err();
    assert_eq!(refused.fault, ServeFault::KeptFull);
    assert_eq!(owner.look(shard_id(0)).unwrap().generation, before + 2);
    let generation = owner.checkpoint(shard_id(0)).unwrap();
    assert_eq!(owner.look(shard_id(0)).unwrap().generation, generation);
    let Ok(Served::Answered(answer)) = owner.serve(refused.envelope) else {
        panic!("not answered after a checkpoint");
    };
    assert_eq!((answer.number(), answer.place()), (3, 2));
    assert_eq!(answer.reply(), &Reply::Value(Value::Text(b"1".to_vec())));
}

#[test]
fn answers_tell_what_was_seen() {
    let service = service(&[""], 2);
    let (mut owner, mut client) = (
        service.pass(server_id(1)).unwrap(),
        service.pass(server_id(2)).unwrap(),
    );
    let sent = client.envelope(1, &Request::Add(b"visits", 1)).unwrap();
    let Ok(Served::Answered(answer)) = owner.serve(sent) else {
        panic!("the owner answers");
    };
    client.hear(answer).unwrap();
    assert!(client.look(shard_id(0)).unwrap().generation >= 3);
}

#[test]
fn what_is_refused() {
    let (one, other) = (service(&[""], 1), service(&[""], 1));
    let (mut pass, mut stranger) = (
        one.pass(server_id(1)).unwrap(),
        other.pass(server_id(1)).unwrap(),
    );
    assert_eq!(
        pass.envelope(0, &Request::Get(b"")).unwrap_err(),
        SendFault::EmptyKey
    );
    assert_eq!(
        pass.envelope(0, &Request::Get(&[b'k'; 256])).unwrap_err(),
        SendFault::KeyTooLong
    );
    let sent = pass.envelope(0, &Request::Get(b"key")).unwrap();
    let refused = stranger.serve(sent).unwrap_err();
    assert_eq!(refused.fault, ServeFault::OtherBoard);
    let bounds: Vec<String> = (0..4096).map(|shard| format!("{shard:04}")).collect();
    let mut bounds: Vec<&str> = bounds.iter().map(String::as_str).collect();
    bounds[0] = "";
    let most = Service::builder(Layout::new(&bounds).unwrap());
    assert!(most.build().is_ok());
    let none = Service::builder(Layout::new([""]).unwrap()).servers(0);
    assert_eq!(none.build().unwrap_err(), BuildFault::BadServers);
}

#[test]
fn eight_threads_and_a_migrating_shard() {
    const ROUNDS: i64 = 20_000;
    let service = service(&[""], 8);
    let control = service.control();
    let done: i64 = std::thread::scope(|scope| {
        let threads: Vec<_> = (1..=8)
            .map(|server| {
                let service = &service;
                scope.spawn(move || counted(service, server, ROUNDS))
            })
            .collect();
        for round in 0..200 {
            control.migrate(shard_id(0), server_id(round % 8 + 1)).ok();
        }
        threads.into_iter().map(|it| it.join().unwrap()).sum()
    });
    let owner = service
        .pass(server_id(1))
        .unwrap()
        .look(shard_id(0))
        .unwrap()
        .owner()
        .unwrap();
    let mut owner = service.pass(server_id(owner)).unwrap();
    assert_eq!(
        executed(&mut owner, &Request::Add(b"visits", 0)),
        Reply::Value(Value::Count(done))
    );
}

/// Returns how many additions this server executed.
fn counted(service: &Service, server: u16, rounds: i64) -> i64 {
    let mut pass = service.pass(server_id(server)).unwrap();
    let mut done = 0;
    for _ in 0..rounds {
        let sent = pass.envelope(0, &Request::Add(b"visits", 1)).unwrap();
        if let Ok(Served::Answered(_)) = pass.serve(sent) {
            done += 1;
        }
    }
    done
}

#[test]
fn settings_open_a_board() {
    let service = Service::by_settings(SETTINGS).unwrap();
    assert_eq!(
        (service.layout().count(), service.layout().shard_of("z")),
        (2, shard_id(1))
    );
    let control = service.control();
    assert_eq!(
        control.assign(shard_id(0), server_id(2)),
        Err(ChangeFault::UnknownServer)
    );
    control.assign(shard_id(0), server_id(1)).unwrap();
    assert_eq!(
        control.assign(shard_id(1), server_id(1)),
        Err(ChangeFault::NoCapacity)
    );
    control.assign(shard_id(1), server_id(7)).unwrap();
    let mut owner = service.pass(server_id(1)).unwrap();
    executed(&mut owner, &Request::Add(b"a", 1));
    let full = owner.envelope(0, &Request::Add(b"a", 1)).unwrap();
    let refused = owner.serve(full).unwrap_err();
    assert_eq!(refused.fault, ServeFault::KeptFull);
    control.ask(server_id(7)).unwrap();
    assert!(
        control.approve(server_id(7)).is_err(),
        "its domain may not be down"
    );
}

#[test]
fn settings_open_a_board_of_own_bodies() {
    let bodies = ["one".to_string(), "two".to_string()];
    let (board, layout) = Board::by_settings(SETTINGS, bodies).unwrap();
    assert_eq!(
        (board.count(), layout.count(), layout.shard_of("z")),
        (2, 2, shard_id(1))
    );
    let control = board.control();
    assert_eq!(
        control.assign(shard_id(0), server_id(2)),
        Err(ChangeFault::UnknownServer)
    );
    control.assign(shard_id(0), server_id(1)).unwrap();
    assert_eq!(
        control.assign(shard_id(1), server_id(1)),
        Err(ChangeFault::NoCapacity)
    );
    control.assign(shard_id(1), server_id(7)).unwrap();
    let mut pass = board.pass(server_id(7)).unwrap();
    assert_eq!(*pass.admit(shard_id(1), Mode::Direct).unwrap(), "two");
    assert!(pass.admit(shard_id(0), Mode::Direct).is_err());
    control.ask(server_id(7)).unwrap();
    assert!(
        control.approve(server_id(7)).is_err(),
        "its domain may not be down"
    );
    for (bodies, line, fault) in [
        (1, SETTINGS.to_string(), SettingsFault::BadCount),
        (3, SETTINGS.to_string(), SettingsFault::BadCount),
        (2, SETTINGS.replace(":100", ":2"), SettingsFault::BadCeiling),
    ] {
        assert_eq!(
            Board::by_settings(line, vec![(); bodies]).unwrap_err(),
            fault
        );
    }
}

#[test]
fn settings_are_refused_by_their_first_fault() {
    for (line, fault) in [
        (String::new(), SettingsFault::BadJson),
        (SETTINGS.replace(":100", ":2"), SettingsFault::BadCeiling),
        (
            SETTINGS.replace("\"down\":0", "\"down\":9999"),
            SettingsFault::BadDomains,
        ),
        (" ".repeat(1_048_577), SettingsFault::TooLong),
    ] {
        assert_eq!(Service::by_settings(line).unwrap_err(), fault);
    }
    assert_eq!(SettingsFault::BadCeiling.to_string(), "BadCeiling");
}

#[test]
fn stands_are_reached_anew() {
    let stands = [
        Stand::Vacant,
        Stand::Serving(3),
        Stand::Prepared { owner: 1, next: 2 },
        Stand::Forwarding { owner: 1, next: 2 },
        Stand::Taken {
            owner: 2,
            previous: 1,
        },
        Stand::Paused(2),
    ];
    let layout = Layout::new(["", "b", "c", "d", "e", "f"]).unwrap();
    let service = Service::builder(layout).servers(3).build().unwrap();
    let (control, mut watch) = (service.control(), service.pass(server_id(1)).unwrap());
    for (shard, stand) in stands.into_iter().enumerate() {
        let shard = shard_id(shard as u16);
        if shard.get() % 2 == 0 {
            if let Some(first) = stand.first_owner() {
                control.assign(shard, server_id(first)).unwrap();
            }
        }
        control.restore(shard, stand).unwrap();
        assert_eq!(watch.look(shard).unwrap().stand, stand);
        control.restore(shard, stand).unwrap();
        assert_eq!(watch.look(shard).unwrap().stand, stand);
    }
    // A board's servers don't have to begin at 1.
    let others = Service::by_settings(SETTINGS.replace("\"id\":1", "\"id\":5")).unwrap();
    others
        .control()
        .restore(shard_id(0), Stand::Serving(7))
        .unwrap();
    assert_eq!(
        others
            .pass(server_id(7))
            .unwrap()
            .look(shard_id(0))
            .unwrap()
            .stand,
        Stand::Serving(7)
    );
    assert_eq!(
        control.restore(shard_id(1), Stand::Serving(2)),
        Err(RestoreFault::Change(ChangeFault::WrongPhase))
    );
    assert_eq!(
        control.restore(shard_id(9), Stand::Serving(2)),
        Err(RestoreFault::Change(ChangeFault::UnknownShard))
    );
}

#[test]
fn faults_tell_their_sources() {
    let service = service(&[""], 2);
    let mut other = service.pass(server_id(2)).unwrap();
    let sent = other.envelope(0, &Request::Get(b"a")).unwrap();
    let refused = other.serve(sent).unwrap_err();
    let fault = refused.source().unwrap();
    assert_eq!(fault.downcast_ref(), Some(&refused.fault));
    let admission = fault.source().unwrap();
    assert!(matches!(
        admission.downcast_ref(),
        Some(AdmitFault::NotExecutor(_))
    ));
    assert!(admission.source().is_none());
    let unmade = other.checkpoint(shard_id(0)).unwrap_err();
    assert!(unmade.source().unwrap().is::<AdmitFault>());
    let unreached = service
        .control()
        .restore(shard_id(9), Stand::Vacant)
        .unwrap_err();
    assert!(unreached.source().unwrap().is::<ChangeFault>());
    assert!(ServeFault::KeptFull.source().is_none());
}

#[test]
fn an_envelope_tells_how_it_came() {
    let service = service(&[""], 2);
    let control = service.control();
    control
        .prepare_add_shard(shard_id(0), server_id(2))
        .unwrap();
    control.prepare_drop_shard(shard_id(0)).unwrap();
    let mut owner = service.pass(server_id(1)).unwrap();
    let mut sent = owner.envelope(0, &Request::Get(b"a")).unwrap();
    assert_eq!((sent.mode(), sent.hops()), (Mode::Direct, 0));
    let (to, mut sent) = forwarded(&mut owner, sent);
    assert_eq!(
        (to, sent.mode(), sent.hops()),
        (server_id(2), Mode::Forwarded(server_id(1)), 1)
    );
}

#[test]
fn an_envelope_travels_as_bytes() {
    let service = service(&["", "n"], 2);
    let mut owner = service.pass(server_id(1)).unwrap();
    let request = Request::Add(b"s", 1);
    for (mode, hops) in [
        (Mode::Direct, 0),
        (Mode::Forwarded(server_id(9)), 1),
        (Mode::Forwarded(server_id(4_095)), 4),
    ] {
        let sent = Sent {
            number: u64::MAX - 5,
            shard: shard_id(1),
            mode,
            hops,
        };
        let told = Sent::from_bytes(&sent.to_bytes()).unwrap();
        assert_eq!(told, sent);
        let mut envelope = owner.received(&told, &request).unwrap();
        assert_eq!(envelope.sent(), sent);
        let Served::Answered(answer) = owner.serve(envelope).unwrap() else {
            panic!("the owner executes");
        };
        assert_eq!(answer.number(), sent.number);
    }
    for (mode, hops) in [
        (Mode::Direct, 1),
        (Mode::Forwarded(server_id(9)), 0),
        (Mode::Forwarded(server_id(9)), 5),
    ] {
        let sent = Sent {
            number: 0,
            shard: shard_id(0),
            mode,
            hops,
        };
        assert_eq!(Sent::from_bytes(&sent.to_bytes()), Err(SentFault::Hops));
        let refused = owner.received(&sent, &request).unwrap_err();
        assert_eq!(refused, SendFault::NotSent);
    }
    let bytes = |at: usize| {
        let mut bytes = [0; Sent::BYTES];
        bytes[at] = 16;
        bytes
    };
    assert_eq!(Sent::from_bytes(&bytes(8)), Err(SentFault::Shard));
    assert_eq!(Sent::from_bytes(&bytes(10)), Err(SentFault::Server));
    assert_eq!(Sent::from_bytes(&[0; 12]), Err(SentFault::Length));
}
