//! The checker accepts answers that one thread could have given, and finds answers that it couldn't.
use durkenzo_trial::{is_linearizable, Call, KeyAnswer, KeyCommand, Model, Register};

fn call(
    began: u64,
    ended: u64,
    input: KeyCommand,
    output: KeyAnswer,
) -> Call<KeyCommand, KeyAnswer> {
    Call {
        input,
        output: Some(output),
        began,
        ended,
    }
}

fn set(began: u64, ended: u64, text: &str) -> Call<KeyCommand, KeyAnswer> {
    call(
        began,
        ended,
        KeyCommand::Set(text.to_owned()),
        KeyAnswer::Done,
    )
}

fn get(began: u64, ended: u64, text: Option<&str>) -> Call<KeyCommand, KeyAnswer> {
    call(
        began,
        ended,
        KeyCommand::Get,
        KeyAnswer::Text(text.map(str::to_owned)),
    )
}

fn incr(began: u64, ended: u64, number: i64) -> Call<KeyCommand, KeyAnswer> {
    call(began, ended, KeyCommand::Incr, KeyAnswer::Number(number))
}

fn unknown(began: u64, input: KeyCommand) -> Call<KeyCommand, KeyAnswer> {
    Call {
        input,
        output: None,
        began,
        ended: 0,
    }
}

fn holds(calls: &[Call<KeyCommand, KeyAnswer>]) -> bool {
    is_linearizable::<Register>(calls)
}

#[test]
fn takes_what_one_thread_answers() {
    assert!(holds(&[]));
    assert!(holds(&[set(0, 1, "a"), get(2, 3, Some("a"))]));
    // They overlap, so either order is possible.
    assert!(holds(&[
        set(0, 9, "a"),
        get(1, 2, None),
        get(3, 4, Some("a"))
    ]));
    assert!(holds(&[
        set(0, 9, "a"),
        set(0, 9, "b"),
        get(10, 11, Some("a"))
    ]));
    assert!(holds(&[incr(0, 9, 2), incr(1, 8, 1), incr(2, 7, 3)]));
    let append = call(
        0,
        5,
        KeyCommand::Append("x".to_owned()),
        KeyAnswer::Number(1),
    );
    assert!(holds(&[
        append,
        get(6, 7, Some("x")),
        call(8, 9, KeyCommand::Incr, KeyAnswer::NoNumber)
    ]));
}

#[test]
fn takes_calls_without_answer_as_done_or_not() {
    let lost = unknown(0, KeyCommand::Set("a".to_owned()));
    assert!(holds(&[lost.clone(), get(1, 2, None)]));
    assert!(holds(&[
        lost.clone(),
        get(1, 2, None),
        get(3, 4, Some("a")),
        get(5, 6, Some("a"))
    ]));
    // It can't be done twice, nor before it began.
    assert!(!holds(&[
        lost,
        set(1, 2, "b"),
        get(3, 4, Some("a")),
        set(5, 6, "c"),
        get(7, 8, Some("a"))
    ]));
    assert!(!holds(&[
        get(0, 1, Some("a")),
        unknown(2, KeyCommand::Set("a".to_owned()))
    ]));
}

#[test]
fn finds_a_write_that_is_lost() {
    assert!(!holds(&[set(0, 1, "a"), get(2, 3, None)]));
    assert!(!holds(&[incr(0, 1, 1), incr(2, 3, 1)]));
}

#[test]
fn finds_a_write_that_is_made_twice() {
    assert!(!holds(&[incr(0, 1, 1), incr(2, 3, 3)]));
}

#[test]
fn finds_a_read_of_the_past() {
    assert!(!holds(&[
        set(0, 1, "a"),
        set(2, 3, "b"),
        get(4, 5, Some("a"))
    ]));
    // Two reads that disagree on which write came first.
    assert!(!holds(&[
        set(0, 9, "a"),
        set(0, 9, "b"),
        get(10, 11, Some("a")),
        get(12, 13, Some("b"))
    ]));
    assert!(!holds(&[
        set(0, 99, "a"),
        get(1, 2, Some("a")),
        get(3, 4, None)
    ]));
}

#[test]
fn finds_two_writers_at_once() {
    assert!(!holds(&[
        set(0, 1, "0"),
        incr(2, 9, 1),
        incr(3, 8, 1),
        get(10, 11, Some("1"))
    ]));
}

/// Histories that one thread made, with each call's beginning and end spread around it. In every second one, one answer
/// is changed.
#[test]
fn tells_histories_by_chance() {
    for seed in 0..400u64 {
        let mut chance = seed.wrapping_mul(0x9e37_79b9_7f4a_7c15) | 1;
        let mut below = |bound: u64| {
            chance ^= chance << 13;
            chance ^= chance >> 7;
            chance ^= chance << 17;
            chance % bound
        };
        let (mut state, mut calls) = (None, Vec::new());
        for at in 0..40u64 {
            let input = match below(4) {
                0 => KeyCommand::Set(format!("{at}x")),
                1 => KeyCommand::Incr,
                2 => KeyCommand::Append("y".to_owned()),
                _ => KeyCommand::Get,
            };
            let (next, output) = Register::step(&state, &input);
            state = next;
            let moment = 1_000 + at * 10;
            calls.push(call(
                moment - below(60),
                moment + 1 + below(60),
                input,
                output,
            ));
        }
        assert!(holds(&calls), "seed {seed}");
        // A number that no order gives.
        let at = usize::try_from(below(40)).expect("a small number");
        calls[at].output = Some(KeyAnswer::Number(-7));
        assert!(!holds(&calls), "seed {seed}");
    }
}
