use super::own_key::MOST_ACKS;
use super::*;
use crate::lease_clock::Machine;
use durkenzo_store::Embedded;
use std::thread;
use std::time::Instant;

/// It is so long that the thread that keeps the lease doesn't do so during a test.
const LENGTH: Duration = Duration::from_secs(600);

/// Returns a member on this machine, and the moment after it joined.
fn joined(machine: &Machine) -> (Member, Moment) {
    joined_for(machine, LENGTH)
}

/// Does the same, under a lease of this length.
fn joined_for(machine: &Machine, length: Duration) -> (Member, Moment) {
    let store: Arc<dyn Store> = Arc::new(Embedded::in_memory());
    let addresses = Addresses::default();
    let (clocks, on_change) = ((Clock::default(), machine.clock()), Box::new(|| {}));
    let member = Member::join_by(clocks, store, 1, addresses, length, on_change);
    let member = member.unwrap();
    let now = member.now();
    assert!(member.is_kept_since(now));
    (member, now)
}

/// Returns whether the lease counts as over, and no longer does once it was kept again.
fn is_over_until_kept(member: &Member, since: Moment) -> bool {
    let is_over = !member.is_kept_since(since) && !member.is_kept_since(member.now());
    let lease = member.lease();
    member.keep_lease();
    assert_eq!(member.lease(), lease);
    is_over && member.is_kept_since(member.now())
}

#[test]
fn a_lease_is_over_after_its_length_until_it_is_kept() {
    let machine = Machine::default();
    let (member, since) = joined(&machine);
    machine.go_on(LENGTH / 2);
    assert!(member.is_kept_since(since));
    machine.go_on(LENGTH / 2);
    assert!(is_over_until_kept(&member, since));
}

#[test]
fn a_lease_is_over_after_a_pause_of_the_guest_until_it_is_kept() {
    let machine = Machine::default();
    let (member, since) = joined(&machine);
    machine.go_on(LENGTH / 2);
    machine.pause(LENGTH / 2);
    assert!(is_over_until_kept(&member, since));
}

#[test]
fn a_step_back_leaves_a_lease_its_length() {
    let machine = Machine::default();
    let (member, since) = joined(&machine);
    machine.set_back(10 * LENGTH);
    assert!(member.is_kept_since(since));
    machine.go_on(LENGTH);
    assert!(is_over_until_kept(&member, since));
}

#[test]
fn a_lease_is_kept_at_once_after_its_clock_jumped() {
    // By the other clock it would be kept ten seconds after it was granted.
    let length = Duration::from_secs(30);
    let (machine, end) = (Machine::default(), Instant::now() + length / 6);
    let (member, since) = joined_for(&machine, length);
    let lease = member.lease();
    let jumps: [fn(&Machine, Duration); 2] = [Machine::go_on, Machine::pause];
    for jump in jumps {
        jump(&machine, length * 3 / 4);
        let now = member.time();
        while member.kept_lease().unwrap().asked < now {
            assert!(Instant::now() < end, "it isn't kept");
            thread::sleep(Duration::from_millis(2));
        }
    }
    assert!(!member.is_kept_since(since) && member.is_kept_since(member.now()));
    assert_eq!(member.lease(), lease);
}

/// Waits until that holds, because another thread sees the writes.
fn until(holds: impl Fn() -> bool) {
    let end = Instant::now() + Duration::from_secs(20);
    while !holds() {
        assert!(Instant::now() < end, "it never held");
        thread::sleep(Duration::from_millis(2));
    }
}

#[test]
fn others_see_what_a_server_acks_until_it_leaves() {
    let store: Arc<dyn Store> = Arc::new(Embedded::in_memory());
    let join = |server| {
        let (addresses, on_change) = (Addresses::default(), Box::new(|| {}));
        Member::join(store.clone(), server, addresses, LENGTH, on_change).unwrap()
    };
    let (one, two) = (join(1), join(2));
    assert!(Revision::NEVER < one.joined() && one.joined() < two.joined());
    until(|| two.members().joined_of(1) == Some(one.joined()));
    assert_eq!(two.members().joined_of(3), None);

    // There are more acks than one transaction may tell, and one comes late with an older generation.
    let shards = MOST_ACKS as u16 + 7;
    (0..shards).for_each(|shard| one.ack(shard, 5));
    one.ack(3, 9);
    one.ack(3, 4);
    until(|| (0..shards).all(|shard| two.acked(shard, 1).is_some()));
    until(|| two.acked(3, 1) == Some(9));
    assert_eq!((two.acked(4, 1), two.acked(4, 2)), (Some(5), None));
    // The key was overwritten, and not created again.
    assert_eq!(two.members().joined_of(1), Some(one.joined()));

    let joined = one.joined();
    one.leave();
    until(|| two.acked(3, 1).is_none() && two.acked(shards - 1, 1).is_none());
    let again = join(1);
    assert!(again.joined() > joined);
    assert_eq!(two.acked(3, 1), None);
}

#[test]
fn acks_are_told_again_under_a_later_lease() {
    let store: Arc<dyn Store> = Arc::new(Embedded::in_memory());
    let join = |server| {
        let (clock, passed) = (Clock::default(), || Duration::ZERO);
        let addresses = Addresses::default();
        let joining =
            Member::join_without_thread(store.clone(), server, addresses, LENGTH, clock, passed);
        joining.unwrap().wait().unwrap()
    };
    let (one, two) = (join(1), join(2));
    let until_turned = |is_so: &dyn Fn() -> bool| {
        until(|| {
            one.turn();
            is_so()
        });
    };
    one.ack(17, 2);
    until_turned(&|| two.acked(17, 1) == Some(2));
    let joined = one.joined();
    store.revoke(one.lease().unwrap()).unwrap();
    until(|| two.acked(17, 1).is_none());
    one.keep_lease();
    assert_eq!(one.joined(), Revision::NEVER);
    assert_eq!(two.acked(17, 1), None);
    until_turned(&|| one.joined() > joined);
    until_turned(&|| two.acked(17, 1) == Some(2));
}
