//! Tests of the proved control, on a store of two shards and three servers.
use durkenzo_store_sys::{Code, Director, DirectorStep};

/// The settings of the store: two shards, and three servers. One server may be away at a time.
const SETTINGS: &str = concat!(
    r#"{"version":1,"bounds":["","m"],"#,
    r#""servers":[{"id":1,"domain":0,"capacity":9},{"id":2,"domain":1,"capacity":9},"#,
    r#"{"id":3,"domain":2,"capacity":9}],"groups":[{"limit":9,"down":9}],"#,
    r#""shards":[{"group":0,"load":1,"cap":1},{"group":0,"load":1,"cap":1}],"#,
    r#""ops":1,"kept":1,"ceiling":100000,"workers":1}"#
);

/// If a record or a state was never written, it is read as these bytes: a vacant shard, or a server that is up.
const UNWRITTEN: [u8; 17] = [1, 0, 0, 0, 0, 0, 0, 0, 0, 0, 0, 0, 0, 0, 0, 0, 0];

#[test]
fn keys_have_shards() {
    let mut core = Director::new(SETTINGS, 7, 1).unwrap();
    assert_eq!((core.shards(), core.servers()), (2, &[1, 2, 3][..]));
    for (key, wanted) in [("", 0), ("lynx", 0), ("m", 1), ("zebra", 1)] {
        assert_eq!(core.shard_of(key.as_bytes()), Ok(wanted), "{key}");
    }
}

#[test]
fn refusals_have_codes() {
    let refused = |line, elected| Director::new(line, 7, elected).unwrap_err().0;
    assert_eq!(refused(SETTINGS, 0), 2);
    assert_eq!(refused("{", 1), 71);
    assert_eq!(refused("{}", 1), 72);
    let mut core = Director::new(SETTINGS, 7, 3).unwrap();
    assert_eq!(core.next_of_shard(0), Err(Code(90)));
    assert_eq!(core.made(5), Err(Code(92)));
    assert_eq!(core.record(&[1], 0), Err(Code(93)));
    assert_eq!(core.read(0), Err(Code(95)));
    assert_eq!(
        core.command(DirectorStep::of_server(DirectorStep::WAITS, 0), 0),
        Err(Code(2))
    );
    assert_eq!(
        core.command(DirectorStep::of_shard(DirectorStep::ASK, 1, 1), 0),
        Err(Code(2))
    );
    assert_eq!(core.follower(4_096, 1), Err(Code(2)));
    assert_eq!(core.server(3), Err(Code(56)));
}

#[test]
fn a_command_is_sent_and_made() {
    let mut core = Director::new(SETTINGS, 7, 3).unwrap();
    (0..2).for_each(|_| core.record(&UNWRITTEN, 0).unwrap());
    (0..3).for_each(|_| core.state(&UNWRITTEN).unwrap());
    core.read(0).unwrap();
    let step = core.next_of_drain(0).unwrap();
    assert_eq!(step, DirectorStep::of_shard(DirectorStep::ASSIGN, 0, 1));
    assert!(core
        .command(DirectorStep::of_shard(DirectorStep::PAUSE, 0, 0), 0)
        .is_err());
    core.command(step, 0).unwrap();
    let sent = core.sending().unwrap();
    assert_eq!((sent.elected, sent.placed, sent.number), (3, 0, 0));
    assert_eq!((sent.is_state, sent.absent), (false, 0));
    assert_eq!(sent.written[1..9], (1u64 << 61 | 1 << 48 | 1).to_be_bytes());
    assert_eq!(sent.written[9..], 7u64.to_be_bytes());
    assert_eq!(sent.commands, [1, 0, 0, 0, 0, 0, 0, 0, 7]);
    core.made(9).unwrap();
    assert_eq!(core.record_of(0), Ok((1 << 61 | 1 << 48 | 1, 9)));
    assert_eq!(core.fallen(), Ok(1));
    core.follower(1, 9).unwrap();
    assert_eq!(core.fallen(), Ok(2));
    core.command(DirectorStep::of_server(DirectorStep::FAIL, 2), 0)
        .unwrap();
    let sent = core.sending().unwrap();
    assert_eq!((sent.number, sent.is_state, sent.absent), (2, true, 2));
    core.made(10).unwrap();
    assert_eq!(core.state_of(2), Ok((4, 0)));
    core.command(DirectorStep::of_server(DirectorStep::BACK, 2), 0)
        .unwrap();
    assert_eq!(core.sending().unwrap().absent, 0);
}

#[test]
fn a_server_is_stopped_of_a_process_and_up_again_by_a_later_one() {
    let mut core = Director::new(SETTINGS, 7, 3).unwrap();
    (0..2).for_each(|_| core.record(&UNWRITTEN, 0).unwrap());
    (0..3).for_each(|_| core.state(&UNWRITTEN).unwrap());
    core.read(0).unwrap();
    let mut made = 3;
    let mut make = |core: &mut Director, kind, process| {
        core.command(DirectorStep::of_server(kind, 2), process)?;
        made += 1;
        core.made(made)
    };
    let earlier = Err(Code::DIRECTOR_EARLIER_PROCESS);
    make(&mut core, DirectorStep::ASK, 0).unwrap();
    make(&mut core, DirectorStep::APPROVE, 0).unwrap();
    assert_eq!(make(&mut core, DirectorStep::STOPPED, 0), earlier);
    make(&mut core, DirectorStep::STOPPED, 5).unwrap();
    assert_eq!(core.state_of(2), Ok((3, 5)));
    assert_eq!(make(&mut core, DirectorStep::BACK, 0), earlier);
    assert_eq!(make(&mut core, DirectorStep::BACK, 5), earlier);
    make(&mut core, DirectorStep::BACK, 6).unwrap();
    assert_eq!(core.state_of(2), Ok((0, 6)));
    // If the desk refuses a command, the control refuses it for the same reason.
    let up = make(&mut core, DirectorStep::BACK, 6);
    assert_eq!(up, Err(Code::DIRECTOR_ALREADY_UP));
}

/// Returns the bytes at the key of a shard's record: the record of this word, written by process 7.
fn record(word: u64) -> Vec<u8> {
    [&[1][..], &word.to_be_bytes(), &7u64.to_be_bytes()].concat()
}

/// Has the control read the first shard's record, and nothing else.
fn read(core: &mut Director, word: u64) {
    core.record(&record(word), 2).unwrap();
    core.record(&UNWRITTEN, 0).unwrap();
    (0..3).for_each(|_| core.state(&UNWRITTEN).unwrap());
    core.read(2).unwrap();
}

#[test]
fn a_command_waits_for_acks_unless_one_process_has_all_servers() {
    // Shard 0 is forwarded by server 1 to server 2, in generation 5.
    let word = 3 << 61 | 1 << 48 | 2 << 36 | 5;
    let adds = DirectorStep::of_shard(DirectorStep::ADD_SHARD, 0, 0);
    let mut core = Director::new(SETTINGS, 7, 3).unwrap();
    read(&mut core, word);
    assert_eq!(core.next_of_shard(0).unwrap().kind, DirectorStep::WAITS);
    assert_eq!(core.command(adds, 0), Err(Code::DIRECTOR_NOT_ACKED));
    core.ack(0, 1, 5).unwrap();
    assert_eq!(core.next_of_shard(0), Ok(adds));
    core.command(adds, 0).unwrap();
    let mut alone = Director::alone(SETTINGS, 7, 3).unwrap();
    read(&mut alone, word);
    assert_eq!(alone.next_of_shard(0), Ok(adds));
    alone.command(adds, 0).unwrap();
}

#[test]
fn a_server_is_stopped_once_it_has_acked_what_is_paused_for_it() {
    // Shard 0 is paused, and server 2 owns it, in generation 4.
    let word = 5 << 61 | 2 << 48 | 4;
    for (is_alone, early) in [(false, Err(Code::DIRECTOR_NOT_ACKED)), (true, Ok(()))] {
        let made = match is_alone {
            true => Director::alone(SETTINGS, 7, 3),
            false => Director::new(SETTINGS, 7, 3),
        };
        let mut core = made.unwrap();
        read(&mut core, word);
        for (kind, revision) in [(DirectorStep::ASK, 4), (DirectorStep::APPROVE, 5)] {
            core.command(DirectorStep::of_server(kind, 2), 9).unwrap();
            core.made(revision).unwrap();
        }
        let stops = DirectorStep::of_server(DirectorStep::STOPPED, 2);
        assert_eq!(core.next_of_server(2).unwrap() == stops, is_alone);
        // An ack of the record before isn't enough.
        core.ack(0, 2, 3).unwrap();
        assert_eq!(core.command(stops, 9), early);
        if !is_alone {
            core.forget_acks().unwrap();
            core.ack(0, 2, 4).unwrap();
            assert_eq!(core.next_of_server(2), Ok(stops));
            core.command(stops, 9).unwrap();
        }
        core.made(6).unwrap();
        assert_eq!(core.state_of(2), Ok((3, 9)));
    }
}

/// Makes a control of the line. In its store only the key of commands was written.
fn standing(line: &str, placed: u64) -> Director {
    let mut core = Director::new(line, 7, 3).unwrap();
    (0..core.shards()).for_each(|_| core.record(&UNWRITTEN, 0).unwrap());
    (0..core.servers().len()).for_each(|_| core.state(&UNWRITTEN).unwrap());
    core.read(placed).unwrap();
    core
}

#[test]
fn other_settings_take_the_place() {
    const THIRD: &str = r#",{"id":3,"domain":2,"capacity":9}"#;
    let with = |from: &str, to: &str| SETTINGS.replace(from, to);
    let more = with(THIRD, &format!("{THIRD},{}", &THIRD[1..].replace('3', "4")));
    let mut core = standing(SETTINGS, 5);
    let sent = core.resettle(&mut standing(&more, 5)).unwrap();
    assert_eq!((sent.elected, sent.placed), (3, 5));
    assert_eq!(sent.commands, [1, 0, 0, 0, 0, 0, 0, 0, 7]);
    let mut refused = |line: &str, placed, code, in_use| {
        let refusal = core.resettle(&mut standing(line, placed)).unwrap_err();
        assert_eq!((refusal.code, refusal.in_use), (code, in_use), "{line}");
    };
    refused(&more, 4, Code::DIRECTOR_READ_APART, 0);
    refused(&with(THIRD, ""), 5, Code::DIRECTOR_IN_USE, 3);
    refused(&with("\"m\"", "\"n\""), 5, Code::DIRECTOR_OTHER_SHARDS, 0);
    refused(&with("100000", "99999"), 5, Code::DIRECTOR_OTHER_CEILING, 0);
    let unread = core.resettle(&mut Director::new(&more, 7, 3).unwrap());
    assert_eq!(unread.unwrap_err().code, Code::DIRECTOR_UNREAD);
    // Both directors stay as they were.
    core.command(DirectorStep::of_shard(DirectorStep::ASSIGN, 0, 1), 0)
        .unwrap();
}

#[test]
fn records_and_states_keep_to_other_settings() {
    let read = |line: &str, servers: usize| {
        let mut core = Director::new(line, 7, 3).unwrap();
        core.record(&record(1 << 61 | 1 << 48 | 1), 2).unwrap();
        core.record(&UNWRITTEN, 0).unwrap();
        (0..servers).for_each(|_| core.state(&UNWRITTEN).unwrap());
        core.read(2)
    };
    assert_eq!(read(SETTINGS, 3), Ok(()));
    let without_owner = SETTINGS.replace(r#"{"id":1,"domain":0,"capacity":9},"#, "");
    assert_eq!(read(&without_owner, 2), Err(Code::DIRECTOR_UNREACHED));
    let without_room = SETTINGS.replace(r#""domain":0,"capacity":9"#, r#""domain":0,"capacity":0"#);
    assert_eq!(read(&without_room, 3), Err(Code::DIRECTOR_UNREACHED));
}
