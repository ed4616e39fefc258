mod common;

use common::{server_id, shard_id};
use durkenzo::word::{Change, WordFault};
use durkenzo::{
    word, AdmitFault, Board, BuildFault, ChangeFault, IdFault, Layout, LayoutFault, Mode, Move,
    NoteFault, Pass, PassFault, Permit, PlanFault, PublishFault, Record, RestartFault, Route,
    Router, Routes, RoutesFault, ServerId, SettingsFault, ShardId, Stand, MAX_GENERATION, MAX_KEY,
};
use std::error::Error;
use std::panic::{catch_unwind, AssertUnwindSafe};

const SETTINGS: &str = r#"{"version":2,"bounds":[""],"servers":[{"id":1,"domain":0,"capacity":1}],"groups":[{"limit":1,"down":1}],"shards":[{"group":0,"load":1,"cap":1}],"ops":1,"kept":1,"ceiling":100,"workers":1,"domains":[{"domain":0,"down":1}]}"#;

fn board(shards: usize) -> Board<Vec<u32>> {
    Board::builder()
        .servers(3)
        .build(vec![Vec::new(); shards])
        .unwrap()
}

#[test]
fn sizes_are_checked() {
    assert_eq!(
        Board::builder().build(Vec::<u8>::new()).unwrap_err(),
        BuildFault::NoShard
    );
    assert_eq!(
        Board::builder().build(vec![0; 4097]).unwrap_err(),
        BuildFault::TooMany
    );
    assert_eq!(
        Board::builder().ceiling(2).build(vec![0]).unwrap_err(),
        BuildFault::BadCeiling
    );
    assert_eq!(
        Board::builder()
            .ceiling(1 << 36)
            .build(vec![0])
            .unwrap_err(),
        BuildFault::BadCeiling
    );
    assert_eq!(
        Board::builder().servers(0).build(vec![0]).unwrap_err(),
        BuildFault::BadServers
    );
    assert_eq!(
        Board::builder().servers(4096).build(vec![0]).unwrap_err(),
        BuildFault::BadServers
    );
    assert_eq!(
        Board::builder()
            .servers(4095)
            .build(vec![0; 4096])
            .unwrap()
            .count(),
        4096
    );
}

#[test]
fn keys_have_shards() {
    let layout = Layout::new(["", "g", "n"]).unwrap();
    let shards = ["", "fz", "g", "mz", "n", "z"].map(|key| layout.shard_of(key));
    assert_eq!(
        (layout.count(), shards),
        (3, [0, 0, 1, 1, 2, 2].map(shard_id))
    );
    assert_eq!(
        layout.range(shard_id(0)),
        Some((b"".to_vec(), Some(b"g".to_vec())))
    );
    assert_eq!(layout.range(shard_id(2)), Some((b"n".to_vec(), None)));
    assert_eq!(
        (layout.range(shard_id(3)), layout.range(shard_id(4095))),
        (None, None)
    );
    let fault = |bounds: &[&[u8]]| Layout::new(bounds).unwrap_err();
    assert_eq!(fault(&[]), LayoutFault::Empty);
    assert_eq!(fault(&[b"a"]), LayoutFault::FirstNotEmpty);
    assert_eq!(fault(&[b"", b"b", b"b"]), LayoutFault::NotRising);
    assert_eq!(fault(&[b"", &[7; 256]]), LayoutFault::BoundTooLong);
    let longest = Layout::new([&[][..], &[7; 255]]).unwrap();
    assert_eq!(longest.range(shard_id(1)).unwrap().0, vec![7; 255]);
    let many = (0..4097u32).map(|it| {
        if it == 0 {
            vec![]
        } else {
            it.to_be_bytes().to_vec()
        }
    });
    assert_eq!(Layout::new(many).unwrap_err(), LayoutFault::TooMany);
}

#[test]
fn plans_move_nothing() {
    let board = board(3);
    let control = board.control();
    control.assign(shard_id(1), server_id(2)).unwrap();
    let (shard, server) = (shard_id(1), server_id(1));
    assert_eq!(
        control.plan_drain(server_id(2)).unwrap().moves,
        [Move { shard, server }]
    );
    assert_eq!(
        control.plan_drain(server_id(4)),
        Err(PlanFault::UnknownServer)
    );
    assert!(control.plan_drain(server_id(3)).unwrap().moves.is_empty());
    let plan = control.plan_assign().unwrap();
    assert_eq!(plan.left, []);
    for Move { shard, server } in plan.moves {
        control.assign(shard, server).unwrap();
    }
    let mut one = board.pass(server_id(1)).unwrap();
    assert_eq!(
        [0, 1, 2].map(|it| one.look(shard_id(it)).unwrap().owner()),
        [Some(1), Some(2), Some(1)]
    );
}

#[test]
fn routes_never_go_back() {
    let board = board(2);
    let (control, routes) = (board.control(), Routes::new(board.count()).unwrap());
    let (mut router, mut one) = (routes.router().unwrap(), board.pass(server_id(1)).unwrap());
    assert_eq!(
        routes.publish(&mut one, shard_id(0)),
        Err(PublishFault::WrongPhase)
    );
    assert_eq!(
        routes.publish(&mut one, shard_id(2)),
        Err(PublishFault::UnknownShard)
    );
    control.assign(shard_id(0), server_id(1)).unwrap();
    let (server, generation) = (server_id(1), 1);
    let first = Route { server, generation };
    assert_eq!(routes.publish(&mut one, shard_id(0)), Ok(first));
    assert_eq!(
        routes.publish(&mut one, shard_id(0)),
        Err(PublishFault::OldRoute)
    );
    control.migrate(shard_id(0), server_id(2)).unwrap();
    assert_eq!(router.route(shard_id(0)), Some(first));
    let next = routes.publish(&mut one, shard_id(0)).unwrap();
    assert_eq!(next.server, server_id(2));
    assert_eq!(router.route(shard_id(0)), Some(next));
    assert_eq!([1, 2, 4095].map(|it| router.route(shard_id(it))), [None; 3]);
}

#[test]
fn maps_of_routes_have_sizes() {
    assert_eq!(Routes::new(0).err(), Some(RoutesFault::NoShard));
    assert_eq!(Routes::new(4097).err(), Some(RoutesFault::TooMany));
    let board = board(3);
    board.control().assign(shard_id(2), server_id(1)).unwrap();
    let (routes, mut one) = (Routes::new(2).unwrap(), board.pass(server_id(1)).unwrap());
    assert_eq!(
        routes.publish(&mut one, shard_id(2)),
        Err(PublishFault::UnknownShard)
    );
    let routes = Routes::new(4096).unwrap();
    routes.publish(&mut one, shard_id(2)).unwrap();
    let mut late = routes.router().unwrap();
    drop(routes);
    assert_eq!(
        late.route(shard_id(2)).map(|it| it.server),
        Some(server_id(1))
    );
}

/// Reads the shard's route until it has this generation. No route is older than one that was read before.
fn reads_until(mut router: Router, last: u64) -> Router {
    let mut newest = 0;
    while newest < last {
        let Some(route) = router.route(shard_id(0)) else {
            continue;
        };
        assert!(newest <= route.generation);
        newest = route.generation;
    }
    router
}

#[test]
fn routes_rise_beside_a_publisher() {
    let board = board(1);
    let (control, routes) = (board.control(), Routes::new(1).unwrap());
    control.assign(shard_id(0), server_id(1)).unwrap();
    let mut one = board.pass(server_id(1)).unwrap();
    let last = 1 + 4 * 500;
    let routers = [(); 4].map(|()| routes.router().unwrap());
    let readers = routers.map(|it| std::thread::spawn(move || reads_until(it, last)));
    for round in 0..500 {
        routes.publish(&mut one, shard_id(0)).unwrap();
        control
            .migrate(shard_id(0), server_id(2 - round % 2))
            .unwrap();
    }
    let newest = routes.publish(&mut one, shard_id(0)).unwrap();
    assert_eq!(newest.generation, last);
    for reader in readers {
        assert_eq!(reader.join().unwrap().route(shard_id(0)), Some(newest));
    }
}

#[test]
fn notes_travel_with_messages() {
    let (board, other) = (self::board(1), self::board(1));
    board.control().assign(shard_id(0), server_id(1)).unwrap();
    let mut one = board.pass(server_id(1)).unwrap();
    let left = Permit::finish(one.admit(shard_id(0), Mode::Direct).unwrap()).generation;
    let note = one.note().unwrap();
    let mut two = board.pass(server_id(2)).unwrap();
    let mut stranger = other.pass(server_id(1)).unwrap();
    let seen = std::thread::spawn(move || {
        two.meet(note).unwrap();
        two.look(shard_id(0)).unwrap().generation
    });
    assert!(seen.join().unwrap() >= left);
    assert_eq!(
        stranger.meet(one.note().unwrap()),
        Err(NoteFault::OtherBoard)
    );
    std::mem::forget(one.admit(shard_id(0), Mode::Direct).unwrap());
    assert_eq!(one.note().err(), Some(NoteFault::Holding));
}

#[test]
fn words_are_records() {
    let forwarding = Stand::Forwarding { owner: 1, next: 2 };
    let record = |stand, admitted| Record {
        stand,
        admitted,
        generation: 5,
    };
    let packed = word::of(&record(forwarding, true)).unwrap();
    assert_eq!(word::record(packed), Some(record(forwarding, true)));
    assert_eq!(
        word::accepts(packed, 2, Mode::Forwarded(server_id(1))),
        Some(true)
    );
    assert_eq!(word::accepts(packed, 2, Mode::Direct), Some(false));
    assert_eq!(word::accepts(packed, 1, Mode::Direct), Some(false));
    assert_eq!(word::accepts(packed, 0, Mode::Direct), None);
    assert_eq!(word::accepts(u64::MAX, 1, Mode::Direct), None);
    assert_eq!(word::of(&record(Stand::Paused(1), true)), None);
    assert_eq!(word::of(&record(Stand::Serving(4096), false)), None);
    assert_eq!(
        word::of(&record(Stand::Forwarding { owner: 1, next: 1 }, false)),
        None
    );
    assert_eq!(
        word::of(&Record {
            generation: 1 << 36,
            ..record(forwarding, false)
        }),
        None
    );
}

#[test]
fn words_end_at_the_greatest_generation() {
    let at = |generation, admitted| {
        let stand = Stand::Serving(1);
        let record = Record {
            stand,
            admitted,
            generation,
        };
        word::of(&record).unwrap()
    };
    let admit = |word, ceiling| word::admitted(word, 1, Mode::Direct, ceiling);
    let (last, greatest) = (MAX_GENERATION - 1, MAX_GENERATION);
    for generation in [1, last - 1, last, greatest] {
        for ceiling in [greatest + 1, u64::MAX] {
            let idle = at(generation, false);
            assert_eq!(admit(idle, ceiling), Err(WordFault::BadCeiling));
        }
    }
    let admitted = admit(at(last - 1, false), greatest).unwrap();
    assert_eq!(word::ended(admitted), Some(at(greatest, false)));
    assert!(matches!(
        admit(at(last, false), greatest),
        Err(WordFault::Refused(AdmitFault::Spent(_)))
    ));
    assert_eq!(word::ended(at(last, true)), Some(at(greatest, false)));
    assert_eq!(word::ended(at(greatest, true)), None);
}

#[test]
fn a_migration_step_by_step() {
    let board = board(2);
    let control = board.control();
    let (mut one, mut two) = (
        board.pass(server_id(1)).unwrap(),
        board.pass(server_id(2)).unwrap(),
    );
    let vacant = one.admit(shard_id(0), Mode::Direct).err().unwrap();
    assert!(
        matches!(vacant, AdmitFault::Vacant(read) if read.stand == Stand::Vacant && read.generation == 0)
    );
    control.assign(shard_id(0), server_id(1)).unwrap();
    one.admit(shard_id(0), Mode::Direct).unwrap().push(1);
    control
        .prepare_add_shard(shard_id(0), server_id(2))
        .unwrap();
    assert!(matches!(
        two.admit(shard_id(0), Mode::Direct),
        Err(AdmitFault::NotExecutor(_))
    ));
    control.prepare_drop_shard(shard_id(0)).unwrap();
    let record = one.look(shard_id(0)).unwrap();
    assert_eq!(record.stand, Stand::Forwarding { owner: 1, next: 2 });
    assert_eq!(
        (record.executor(), record.forward(1), record.forward(3)),
        (Some(2), Some(2), None)
    );
    assert!(matches!(
        one.admit(shard_id(0), Mode::Direct),
        Err(AdmitFault::NotExecutor(_))
    ));
    assert!(matches!(
        two.admit(shard_id(0), Mode::Direct),
        Err(AdmitFault::NotYet(_))
    ));
    two.admit(shard_id(0), Mode::Forwarded(server_id(1)))
        .unwrap()
        .push(2);
    control.add_shard(shard_id(0)).unwrap();
    two.admit(shard_id(0), Mode::Direct).unwrap().push(3);
    control.drop_shard(shard_id(0)).unwrap();
    assert_eq!(two.look(shard_id(0)).unwrap().stand, Stand::Serving(2));
    assert_eq!(one.look(shard_id(2)), Err(durkenzo::UnknownShard));
    assert!(matches!(
        one.admit(shard_id(9), Mode::Direct),
        Err(AdmitFault::UnknownShard)
    ));
    drop((one, two, control));
    assert_eq!(board.into_bodies().unwrap(), vec![vec![1, 2, 3], vec![]]);
}

#[test]
fn each_shard_has_its_own_body() {
    let board = Board::builder().servers(1).build(0..4096u32).unwrap();
    let (control, mut pass) = (board.control(), board.pass(server_id(1)).unwrap());
    for shard in board.shards() {
        control.assign(shard, server_id(1)).unwrap();
        assert_eq!(
            *pass.admit(shard, Mode::Direct).unwrap(),
            u32::from(shard.get())
        );
    }
}

#[test]
fn refusals_say_what_was_read() {
    let board = board(1);
    let control = board.control();
    control.assign(shard_id(0), server_id(1)).unwrap();
    let (mut first, mut second) = (
        board.pass(server_id(1)).unwrap(),
        board.pass(server_id(1)).unwrap(),
    );
    let permit = first.admit(shard_id(0), Mode::Direct).unwrap();
    let fault = second.admit(shard_id(0), Mode::Direct).err().unwrap();
    let read = fault.record().unwrap();
    assert!(
        fault.is_transient() && read.admitted && read.owner() == Some(1) && read.generation == 2
    );
    assert_eq!(fault.to_string(), "the shard is admitted");
    let busy = control.pause(shard_id(0)).unwrap_err();
    assert!(matches!(busy, ChangeFault::Busy(read) if read.generation == 2));
    let error: Box<dyn Error> = busy.into();
    assert_eq!(error.to_string(), "the shard is admitted");
    Permit::finish(permit);
    control.pause(shard_id(0)).unwrap();
    assert!(matches!(
        second.admit(shard_id(0), Mode::Direct),
        Err(AdmitFault::Paused(_))
    ));
    assert_eq!(
        control.assign(shard_id(0), server_id(2)),
        Err(ChangeFault::WrongPhase)
    );
    assert_eq!(
        control.reassign(shard_id(0), server_id(9)),
        Err(ChangeFault::UnknownServer)
    );
    assert_eq!(control.resume(shard_id(7)), Err(ChangeFault::UnknownShard));
}

#[test]
fn restarts_keep_the_cap() {
    let board = board(2);
    let control = board.control();
    control.assign(shard_id(0), server_id(1)).unwrap();
    control.ask(server_id(1)).unwrap();
    control.ask(server_id(2)).unwrap();
    control.approve(server_id(1)).unwrap();
    assert_eq!(control.approve(server_id(2)), Err(RestartFault::GlobalCap));
    assert_eq!(
        control.assign(shard_id(1), server_id(1)),
        Err(ChangeFault::Leaving)
    );
    assert_eq!(
        control.stopped(server_id(1)),
        Err(RestartFault::StillServing)
    );
    control.pause(shard_id(0)).unwrap();
    control.stopped(server_id(1)).unwrap();
    control.reassign(shard_id(0), server_id(3)).unwrap();
    control.back(server_id(1)).unwrap();
    assert_eq!(control.back(server_id(1)), Err(RestartFault::AlreadyUp));
    control.approve(server_id(2)).unwrap();
    control.fail(server_id(2)).unwrap();
    assert_eq!(control.fail(server_id(2)), Err(RestartFault::AlreadyFailed));
}

#[test]
fn a_server_that_has_failed_is_admitted_until_its_shard_pauses() {
    let board = board(1);
    let control = board.control();
    control.assign(shard_id(0), server_id(1)).unwrap();
    let mut pass = board.pass(server_id(1)).unwrap();
    control.fail(server_id(1)).unwrap();
    Permit::finish(pass.admit(shard_id(0), Mode::Direct).unwrap());
    control.pause(shard_id(0)).unwrap();
    let refused = pass.admit(shard_id(0), Mode::Direct).err();
    assert!(
        matches!(refused, Some(AdmitFault::Paused(_))),
        "{refused:?}"
    );
    control.reassign(shard_id(0), server_id(2)).unwrap();
}

#[test]
fn tokens_grow_with_each_admission() {
    let board = board(1);
    board.control().assign(shard_id(0), server_id(1)).unwrap();
    let (mut old, mut new) = (
        board.pass(server_id(1)).unwrap(),
        board.pass(server_id(2)).unwrap(),
    );
    let mut permit = old.admit(shard_id(0), Mode::Direct).unwrap();
    let before = Permit::token(&mut permit);
    assert_eq!(Permit::token(&mut permit), before);
    assert_eq!(Permit::generation(&mut permit), before);
    assert!(Permit::finish(permit).generation > before);
    board.control().migrate(shard_id(0), server_id(2)).unwrap();
    let after = Permit::token(&mut new.admit(shard_id(0), Mode::Direct).unwrap());
    assert!(after > before);
}

#[test]
fn tokens_begin_after_those_of_earlier_boards() {
    let greatest = (1 << 63) - (1 << 36);
    for after in [0, 200, greatest] {
        let built = Board::builder().after(after).build(["body"]).unwrap();
        let (described, _) = Board::by_settings_after(SETTINGS, ["body"], after).unwrap();
        for board in [built, described] {
            board.control().assign(shard_id(0), server_id(1)).unwrap();
            let mut pass = board.pass(server_id(1)).unwrap();
            let mut permit = pass.admit(shard_id(0), Mode::Direct).unwrap();
            let token = Permit::token(&mut permit);
            assert!(token > after && token <= after + MAX_GENERATION);
            assert_eq!(token, after + Permit::generation(&mut permit));
        }
    }
    for after in [greatest + 1, u64::MAX] {
        let built = Board::builder().after(after).build([()]);
        assert_eq!(built.unwrap_err(), BuildFault::BadAfter);
        let described = Board::by_settings_after(SETTINGS, [()], after);
        assert_eq!(described.unwrap_err(), SettingsFault::BadAfter);
    }
}

#[test]
fn a_board_has_passes_of_its_servers() {
    let board = board(1);
    for stranger in [4, 4095] {
        assert_eq!(
            board.pass(server_id(stranger)).unwrap_err(),
            PassFault::BadServer
        );
    }
    assert!(board.pass(server_id(3)).is_ok());
}

#[test]
fn a_panic_ends_the_admission_and_is_told() {
    let board = board(2);
    for shard in board.shards() {
        board.control().assign(shard, server_id(1)).unwrap();
    }
    let mut pass = board.pass(server_id(1)).unwrap();
    let panics = AssertUnwindSafe(|| {
        pass.with(shard_id(0), Mode::Direct, |body| {
            body.push(7);
            panic!("in the midst of a change");
        })
    });
    assert!(catch_unwind(panics).is_err());
    let mut other = board.pass(server_id(1)).unwrap();
    let is_poisoned = |pass: &mut Pass<_>, shard| {
        let told = pass.with(shard_id(shard), Mode::Direct, |it| Permit::is_poisoned(it));
        told.unwrap()
    };
    assert!(is_poisoned(&mut pass, 0) && is_poisoned(&mut other, 0));
    assert!(!is_poisoned(&mut other, 1));
    let mut body = other.admit(shard_id(0), Mode::Direct).unwrap();
    assert_eq!(*body, [7]);
    Permit::clear_poison(&mut body);
    drop(body);
    assert!(!is_poisoned(&mut pass, 0));
}

/// Appends to the body of shard 0 when it is dropped.
struct Appends<'a>(&'a Board<Vec<u32>>);

impl Drop for Appends<'_> {
    fn drop(&mut self) {
        let mut pass = self.0.pass(server_id(1)).unwrap();
        pass.admit(shard_id(0), Mode::Direct).unwrap().push(8);
    }
}

#[test]
fn an_admission_while_another_panic_unwinds_poisons_nothing() {
    let board = board(1);
    board.control().assign(shard_id(0), server_id(1)).unwrap();
    let caught = catch_unwind(|| {
        let _appends = Appends(&board);
        panic!("before the admission");
    });
    assert!(caught.is_err());
    let mut pass = board.pass(server_id(1)).unwrap();
    let body = pass.admit(shard_id(0), Mode::Direct).unwrap();
    assert_eq!((&**body, Permit::is_poisoned(&body)), (&[8][..], false));
}

#[test]
fn a_forgotten_permit_keeps_its_shard() {
    let board = board(2);
    board.control().assign(shard_id(0), server_id(1)).unwrap();
    board.control().assign(shard_id(1), server_id(1)).unwrap();
    let mut pass = board.pass(server_id(1)).unwrap();
    std::mem::forget(pass.admit(shard_id(0), Mode::Direct).unwrap());
    assert_eq!(
        pass.admit(shard_id(1), Mode::Direct).err(),
        Some(AdmitFault::Holding)
    );
    let mut other = board.pass(server_id(1)).unwrap();
    assert!(matches!(
        other.admit(shard_id(0), Mode::Direct),
        Err(AdmitFault::Admitted(_))
    ));
    drop(pass);
    assert!(other.admit(shard_id(0), Mode::Direct).is_ok());
}

#[test]
fn bodies_come_back_once_alone() {
    let board = board(1);
    let pass = board.pass(server_id(1)).unwrap();
    let board = board.into_bodies().unwrap_err();
    drop(pass);
    assert_eq!(board.into_bodies().unwrap().len(), 1);
}

#[test]
fn what_may_pass_between_threads() {
    fn is_send<T: Send>(_: &T) {}
    fn is_sync<T: Sync>(_: &T) {}
    let board = Board::builder()
        .build(vec![std::cell::Cell::new(0)])
        .unwrap();
    is_send(&board);
    is_sync(&board);
    is_sync(&board.control());
    is_send(&board.pass(server_id(1)).unwrap());
}

#[test]
fn words_are_refused_by_name() {
    let (assign, wide) = (Change::Assign(1), MAX_GENERATION + 1);
    assert_eq!(word::changed(u64::MAX, assign, 9), Err(WordFault::BadWord));
    assert_eq!(word::changed(0, assign, wide), Err(WordFault::BadCeiling));
    assert_eq!(
        word::changed(0, Change::Pause, 9),
        Err(WordFault::Refused(ChangeFault::WrongPhase))
    );
    assert_eq!(
        word::changed(0, Change::Assign(0), 9),
        Err(WordFault::Refused(ChangeFault::UnknownServer))
    );
    let serving = word::changed(0, assign, MAX_GENERATION).unwrap();
    assert_eq!(
        word::admitted(u64::MAX, 1, Mode::Direct, 9),
        Err(WordFault::BadWord)
    );
    assert_eq!(
        word::admitted(serving, 0, Mode::Direct, 9),
        Err(WordFault::Refused(AdmitFault::BadServer))
    );
    let read = word::record(serving).unwrap();
    let refused = word::admitted(serving, 2, Mode::Direct, 9).unwrap_err();
    assert_eq!(refused, WordFault::Refused(AdmitFault::NotExecutor(read)));
    let source = refused.source().unwrap();
    assert_eq!(source.to_string(), refused.to_string());
    let admitted = word::admitted(serving, 1, Mode::Direct, 9).unwrap();
    assert!(word::ended(admitted).is_some());
    assert_eq!((word::ended(serving), word::ended(u64::MAX)), (None, None));
}

#[test]
fn what_is_shown_of_what_has_handles() {
    let board = board(2);
    board.control().assign(shard_id(1), server_id(1)).unwrap();
    let mut pass = board.pass(server_id(1)).unwrap();
    assert_eq!(format!("{:?}", board.control()), "Control { .. }");
    assert_eq!(format!("{pass:?}"), "Pass { .. }");
    let permit = pass.admit(shard_id(1), Mode::Direct).unwrap();
    assert_eq!(format!("{permit:?}"), "Permit { shard: ShardId(1), .. }");
}

#[test]
fn limits_are_those_of_calls() {
    let most = Board::builder().ceiling(MAX_GENERATION).build([0]);
    assert!(most.is_ok());
    let longest = Layout::new([vec![], vec![7; MAX_KEY]]);
    assert!(longest.is_ok());
    let longer = Layout::new([vec![], vec![7; MAX_KEY + 1]]);
    assert_eq!(longer.unwrap_err(), LayoutFault::BoundTooLong);
}

#[test]
fn ids_are_numbers_of_their_kind() {
    let shards = [0, 4095, 4096, u16::MAX].map(|it| ShardId::try_from(it).map(u16::from));
    assert_eq!(
        shards,
        [Ok(0), Ok(4095), Err(IdFault::Shard), Err(IdFault::Shard)]
    );
    let servers = [0, 1, 4095, 4096].map(|it| ServerId::try_from(it).map(u16::from));
    assert_eq!(
        servers,
        [Err(IdFault::Server), Ok(1), Ok(4095), Err(IdFault::Server)]
    );
    let (shard, server) = (shard_id(7), server_id(7));
    assert_eq!(
        (shard.index(), usize::from(shard), server.index()),
        (7, 7, 6)
    );
    assert_eq!(format!("{shard} {server}"), "7 7");
    assert_eq!(
        board(3).shards().collect::<Vec<_>>(),
        [0, 1, 2].map(shard_id)
    );
    assert_eq!(ShardId::all(usize::MAX).len(), 4096);
    assert_eq!(ServerId::all(u16::MAX).count(), 4095);
    assert_eq!(size_of::<Option<ServerId>>(), size_of::<u16>());
}

#[test]
fn a_refusal_names_the_next_server() {
    let board = board(1);
    let control = board.control();
    control.assign(shard_id(0), server_id(1)).unwrap();
    control
        .prepare_add_shard(shard_id(0), server_id(2))
        .unwrap();
    control.prepare_drop_shard(shard_id(0)).unwrap();
    let [mut old, mut new] = [1, 2].map(|it| board.pass(server_id(it)).unwrap());
    let refused = old.admit(shard_id(0), Mode::Direct).unwrap_err();
    assert_eq!(refused.forward(old.server()), Some(new.server()));
    assert_eq!(refused.owner(), Some(old.server()));
    let mode = Mode::Forwarded(old.server());
    drop(new.admit(shard_id(0), mode).unwrap());
    let refused = new.admit(shard_id(0), Mode::Direct).unwrap_err();
    assert_eq!(refused.forward(new.server()), None);
    assert_eq!(AdmitFault::Holding.owner(), None);
}
