//! Tests that refuse wrong bodies of the library's calls on a store. So these calls need no must-fail edits.
use durkenzo_store_sys::{Code, Decision, Director, DirectorStep, Limits, Server, ServerRequest};

/// Two shards, and three servers. One server may be away at a time.
const SETTINGS: &str = concat!(
    r#"{"version":1,"bounds":["","m"],"#,
    r#""servers":[{"id":1,"domain":0,"capacity":9},{"id":2,"domain":1,"capacity":9},"#,
    r#"{"id":3,"domain":2,"capacity":9}],"groups":[{"limit":9,"down":9}],"#,
    r#""shards":[{"group":0,"load":1,"cap":1},{"group":0,"load":1,"cap":1}],"#,
    r#""ops":1,"kept":1,"ceiling":100000,"workers":1}"#
);
/// A record or a state that was never written.
const UNWRITTEN: [u8; 17] = [1, 0, 0, 0, 0, 0, 0, 0, 0, 0, 0, 0, 0, 0, 0, 0, 0];
/// The record of a shard that server 1 serves, as control 7 wrote it.
const SERVED: [u8; 17] = [1, 32, 1, 0, 0, 0, 0, 0, 1, 0, 0, 0, 0, 0, 0, 0, 7];
/// The head of a log with no batch.
const EMPTY: [u8; 25] = {
    let mut bytes = [0; 25];
    bytes[0] = 1;
    bytes
};
/// The code of a control that must read all again.
const UNREAD: Code = Code::DIRECTOR_UNREAD;
/// The code of a drop before each follower has read that the shard is taken.
const NOT_FOLLOWED: Code = Code::DIRECTOR_NOT_FOLLOWED;

/// Makes a server of a shard that it serves, with an empty log.
fn serving() -> Result<Server, Code> {
    let mut server = Server::new(1, 0, 2, Limits::default())?;
    server.read((&SERVED, 3), (&EMPTY, 5))?;
    Ok(server)
}

fn asked(number: u64, request: &[u8]) -> ServerRequest<'_> {
    ServerRequest {
        client: 7,
        number,
        request,
        ..ServerRequest::default()
    }
}

/// Makes a control that has read an empty store.
fn leading() -> Result<Director, Code> {
    let mut director = Director::new(SETTINGS, 7, 3)?;
    for _ in 0..2 {
        director.record(&UNWRITTEN, 0)?;
    }
    for _ in 0..3 {
        director.state(&UNWRITTEN)?;
    }
    director.read(0)?;
    Ok(director)
}

#[test]
fn a_read_makes_no_batch() -> Result<(), Code> {
    let mut server = serving()?;
    assert_eq!(server.take(&asked(1, b"\x01\x01a"))?, Decision::Waits);
    assert!(server.flush()?);
    let sent = server.sending()?;
    assert_eq!((sent.stood, sent.logged, sent.number), (3, 5, 0));
    assert!(sent.batch.is_empty());
    Ok(())
}

#[test]
fn what_a_later_request_made_has_passed() -> Result<(), Code> {
    let mut server = serving()?;
    assert_eq!(server.take(&asked(2, b"\x02\x01avalue"))?, Decision::Waits);
    assert!(server.flush()?);
    let sent = server.sending()?;
    assert_eq!((sent.stood, sent.logged, sent.number), (3, 5, 1));
    assert_eq!(server.made(6)?.0.len(), 1);
    assert_eq!(server.take(&asked(1, b"\x02\x01aold"))?, Decision::Passed);
    let again = server.take(&asked(2, b"\x02\x01avalue"))?;
    assert!(matches!(again, Decision::Replied(_)), "{again:?}");
    Ok(())
}

/// Has the server execute these requests, each in a transaction of its own.
fn makes(server: &mut Server, first: u64, requests: &[&[u8]]) -> Result<(), Code> {
    for (number, request) in (first..).zip(requests) {
        assert_eq!(server.take(&asked(number, request))?, Decision::Waits);
        assert!(server.flush()?);
        server.made(5 + number)?;
    }
    Ok(())
}

#[test]
fn a_scan_finds_the_keys_of_what_is_made() -> Result<(), Code> {
    let mut server = Server::new(1, 0, 2, Limits::default())?;
    assert_eq!((server.count()?, server.scan(b"", None, 9)?), (0, vec![]));
    server.read((&SERVED, 3), (&EMPTY, 5))?;
    makes(
        &mut server,
        1,
        &[b"\x02\x01bvalue", b"\x02\x02b\x00value", b"\x02\x01atext"],
    )?;
    // A transaction that is sent changes nothing until it is made.
    assert_eq!(server.take(&asked(4, b"\x05\x01b"))?, Decision::Waits);
    assert!(server.flush()?);
    let keys = |keys: &[&[u8]]| keys.iter().map(|it| Box::from(*it)).collect::<Vec<_>>();
    let all = keys(&[b"a", b"b", b"b\x00"]);
    assert_eq!((server.count()?, server.scan(b"", None, 9)?), (3, all));
    assert_eq!(server.scan(b"b", None, 9)?, keys(&[b"b", b"b\x00"]));
    assert_eq!(server.scan(b"a", Some(b"b"), 9)?, keys(&[b"a"]));
    assert_eq!(server.scan(b"", None, 2)?, keys(&[b"a", b"b"]));
    assert!(server.scan(b"b", Some(b"b"), 9)?.is_empty());
    assert!(server.scan(b"", None, 0)?.is_empty());
    server.made(9)?;
    assert_eq!(
        (server.count()?, server.scan(b"", None, 9)?),
        (2, keys(&[b"a", b"b\x00"]))
    );
    Ok(())
}

#[test]
fn a_refused_reading_leaves_what_a_server_knew_or_nothing() -> Result<(), Code> {
    let mut server = serving()?;
    makes(&mut server, 1, &[b"\x02\x01avalue"])?;
    let malformed = [9];
    assert_eq!(server.record(&malformed, 7), Err(Code::BAD_BYTES));
    for read in [Server::read, Server::append] {
        let refused = read(&mut server, (&malformed, 7), (&EMPTY, 7));
        assert_eq!(refused, Err(Code::BAD_BYTES));
        let refused = read(&mut server, (&SERVED, 7), (&malformed, 7));
        assert_eq!(refused, Err(Code::BAD_BYTES));
    }
    let foreign = ServerRequest {
        from: u16::MAX,
        ..asked(2, b"\x01\x01a")
    };
    assert_eq!(server.take(&foreign), Err(Code::BAD_ARGUMENT));
    assert_eq!(server.count()?, 1);
    assert_eq!(server.take(&asked(2, b"\x01\x01a"))?, Decision::Waits);
    // The log has a second batch, which wasn't read.
    let mut longer = EMPTY;
    longer[8] = 2;
    let refused = server.append((&SERVED, 7), (&longer, 8));
    assert_eq!(refused, Err(Code::MISSING));
    assert_eq!(server.count()?, 0);
    let unread = Decision::Refused(Code::NOT_READ);
    assert_eq!(server.take(&asked(2, b"\x01\x01a"))?, unread);
    Ok(())
}

#[test]
fn a_scan_gives_more_keys_than_the_first_room_has() -> Result<(), Code> {
    let mut server = serving()?;
    let key = |it: u8| vec![it; 255];
    for it in 0..100 {
        let put = [&b"\x02\xff"[..], &key(it)].concat();
        makes(&mut server, u64::from(it) + 1, &[&put])?;
    }
    let keys = server.scan(b"", None, 100)?;
    assert!(keys.iter().map(|it| it.to_vec()).eq((0..100).map(key)));
    Ok(())
}

#[test]
fn a_shard_is_dropped_once_all_follow() -> Result<(), Code> {
    let mut director = leading()?;
    for (at, kind, server) in [
        (9, DirectorStep::ASSIGN, 1),
        (10, DirectorStep::PREPARE_ADD_SHARD, 2),
        (11, DirectorStep::PREPARE_DROP_SHARD, 0),
        (12, DirectorStep::ADD_SHARD, 0),
    ] {
        acked(&mut director)?;
        director.command(DirectorStep::of_shard(kind, 0, server), 0)?;
        director.made(at)?;
    }
    let drop = DirectorStep::of_shard(DirectorStep::DROP_SHARD, 0, 0);
    director.follower(2, 11)?;
    assert_eq!(director.command(drop, 0), Err(NOT_FOLLOWED));
    director.forget_followers()?;
    director.follower(2, 12)?;
    director.command(drop, 0)
}

/// Adds acks of both servers for the first shard, up to the greatest generation in these tests.
fn acked(director: &mut Director) -> Result<(), Code> {
    director.forget_acks()?;
    director.ack(0, 1, 9)?;
    director.ack(0, 2, 9)
}

#[test]
fn a_change_waits_for_who_has_to_let_go() -> Result<(), Code> {
    let mut director = leading()?;
    let command = |kind, server| DirectorStep::of_shard(kind, 0, server);
    let mut made = 8;
    let mut make = |director: &mut Director, kind, server| {
        made += 1;
        director.command(command(kind, server), 0)?;
        director.made(made)
    };
    make(&mut director, DirectorStep::ASSIGN, 1)?;
    make(&mut director, DirectorStep::PREPARE_ADD_SHARD, 2)?;
    // The next owner must ack the record of generation 2. An ack of an earlier record isn't enough.
    director.ack(0, 2, 1)?;
    let drop = command(DirectorStep::PREPARE_DROP_SHARD, 0);
    assert_eq!(director.command(drop, 0), Err(Code::DIRECTOR_NOT_ACKED));
    assert_eq!(director.next_of_shard(0)?.kind, DirectorStep::WAITS);
    director.forget_acks()?;
    director.ack(0, 2, 2)?;
    make(&mut director, DirectorStep::PREPARE_DROP_SHARD, 0)?;
    for kind in [DirectorStep::ADD_SHARD, DirectorStep::CANCEL] {
        assert_eq!(
            director.command(command(kind, 0), 0),
            Err(Code::DIRECTOR_NOT_ACKED)
        );
    }
    director.ack(0, 1, 3)?;
    assert_eq!(director.next_of_shard(0)?.kind, DirectorStep::ADD_SHARD);
    make(&mut director, DirectorStep::ADD_SHARD, 0)
}

#[test]
fn a_command_compares_the_election_by_which_it_leads() -> Result<(), Code> {
    let mut director = leading()?;
    director.command(DirectorStep::of_shard(DirectorStep::ASSIGN, 0, 1), 0)?;
    let sending = director.sending()?;
    assert_eq!((sending.elected, sending.placed), (3, 0));
    Ok(())
}

#[test]
fn what_was_lost_is_to_be_read_again() -> Result<(), Code> {
    let mut director = leading()?;
    director.command(DirectorStep::of_shard(DirectorStep::ASSIGN, 0, 1), 0)?;
    director.lost()?;
    assert_eq!(director.next_of_shard(0).err(), Some(UNREAD));
    Ok(())
}
