ghost use Rattle.std.specs.Prelude.{◌≡◌, true, false};
ghost use Rattle.sm_word.specs.Word.{IsWellFormed};

use sm_ownership::Record;
use sm_ownership::record::MAX_GENERATION;
use sm_ranges::{ServerId, Stand};
use sm_word::{admit_word, done_word, is_served, pack, record_of_word, unpack};
use std::process::Abort;

// The example of the crate's documentation.
#[test]
fn packs_a_record(rt: HostRuntime) {
    let state = Record {
        stand: Stand::Serving(ServerId::of(1)),
        admitted: false,
        generation: 1,
    };
    let word = pack(state);
    assert!(rt; word == 0x2001_0000_0000_0001);
    assert!(rt; unpack(word).is_some());
}

// The record and the word are one another's.
fn is_word_of(rt: &impl Abort, word: u64, state: &Record)
    requires { IsWellFormed state.now }
{
    let packed = pack(*state);
    assert!(rt; packed == word);
    assert!(rt; record_of_word(packed) == *state);
    let owner = state.stand.owner().unwrap_or(ServerId::of(4095));
    let serves = matches!(state.stand, Stand::Serving(_)) && !state.admitted;
    assert!(rt; is_served(packed, owner) == serves);
    assert!(rt; unpack(word) == Some(*state));
}

fn idle(stand: Stand, generation: u64) -> Record
    ensures stand { result.stand ≡ stand }
    ensures admitted { result.admitted ≡ false }
    ensures generation { result.generation ≡ generation }
{
    Record {
        stand,
        admitted: false,
        generation,
    }
}

fn admitted(stand: Stand, generation: u64) -> Record
    ensures stand { result.stand ≡ stand }
    ensures admitted { result.admitted ≡ true }
    ensures generation { result.generation ≡ generation }
{
    Record {
        stand,
        admitted: true,
        generation,
    }
}

#[test]
fn words_of_records(rt: HostRuntime) {
    let (one, two) = (ServerId::of(1), ServerId::of(2));
    let prepared = Stand::Prepared {
        owner: one,
        next: two,
    };
    let forwarding = Stand::Forwarding {
        owner: one,
        next: two,
    };
    let taken = Stand::Taken {
        owner: two,
        previous: one,
    };
    is_word_of(&rt, 0x0000_0000_0000_0000, &idle(Stand::Vacant, 0));
    is_word_of(&rt, 0x2001_0000_0000_0001, &idle(Stand::Serving(one), 1));
    is_word_of(
        &rt,
        0x3001_0000_0000_0002,
        &admitted(Stand::Serving(one), 2),
    );
    is_word_of(&rt, 0x4001_0020_0000_0002, &idle(prepared, 2));
    is_word_of(&rt, 0x6001_0020_0000_0003, &idle(forwarding, 3));
    is_word_of(&rt, 0x8002_0010_0000_0004, &idle(taken, 4));
}

#[test]
fn words_of_the_last_server(rt: HostRuntime) {
    let last = ServerId::of(4095);
    let taken = Stand::Taken {
        owner: last,
        previous: ServerId::of(4094),
    };
    is_word_of(&rt, 0xafff_0000_0000_0005, &idle(Stand::Paused(last), 5));
    is_word_of(
        &rt,
        0x3fff_000f_ffff_ffff,
        &admitted(Stand::Serving(last), MAX_GENERATION),
    );
    is_word_of(&rt, 0x8fff_ffef_ffff_ffff, &idle(taken, MAX_GENERATION));
}

#[test]
fn words_of_an_admission(rt: HostRuntime) {
    let one = ServerId::of(1);
    let before = pack(idle(Stand::Serving(one), 1));
    assert!(rt; admit_word(before) == 0x3001_0000_0000_0002);
    let between = pack(admitted(Stand::Serving(one), 2));
    assert!(rt; done_word(between) == 0x2001_0000_0000_0003);
}

#[test]
fn words_of_no_record(rt: HostRuntime) {
    let vacant_at_1 = 0x0000_0000_0000_0001;
    let no_owner = 0x2000_0000_0000_0001;
    let owner_twice = 0x4001_0010_0000_0002;
    let paused_and_admitted = 0xb001_0000_0000_0002;
    let phase_6 = 0xc001_0000_0000_0001;
    for word in &[
        vacant_at_1,
        no_owner,
        owner_twice,
        paused_and_admitted,
        phase_6,
    ] {
        assert!(rt; unpack(*word) == None);
    }
}
