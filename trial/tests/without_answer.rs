//! The checker on histories in which many calls have no answer: each was made at any later moment, or never.
use durkenzo_trial::{judge, judge_until, Call, KeyAnswer, KeyCommand, Model, Register, Verdict};
use std::time::{Duration, Instant};

const SEED: u64 = 0x9e37_79b9_7f4a_7c15;

/// Numbers from a seed.
struct Chance(u64);

impl Chance {
    fn below(&mut self, bound: u64) -> u64 {
        self.0 ^= self.0 << 13;
        self.0 ^= self.0 >> 7;
        self.0 ^= self.0 << 17;
        self.0 % bound
    }
}

fn command(chance: &mut Chance, at: u64) -> KeyCommand {
    match chance.below(10) {
        0 | 1 => KeyCommand::Set(format!("{at}x")),
        2 => KeyCommand::Set(at.to_string()),
        3 | 4 => KeyCommand::Incr,
        5 => KeyCommand::Append(format!("+{at}")),
        6 => KeyCommand::Del,
        _ => KeyCommand::Get,
    }
}

/// Returns a history that one thread made, with some calls without an answer. Some of these are made long after, and
/// some never.
fn history(
    chance: &mut Chance,
    count: u64,
    one_in: u64,
    spread: u64,
) -> Vec<Call<KeyCommand, KeyAnswer>> {
    let (mut state, mut calls, mut waiting) = (None, Vec::new(), Vec::new());
    for at in 0..count {
        let (input, moment) = (command(chance, at), 1_000 + at * 10);
        let began = moment - chance.below(spread);
        if one_in > 0 && chance.below(one_in) == 0 {
            waiting.push((
                moment + chance.below(20) * chance.below(20) * 10,
                input.clone(),
            ));
            calls.push(Call {
                input,
                output: None,
                began,
                ended: 0,
            });
            continue;
        }
        // A third of the calls without an answer is never made.
        waiting.retain(|(due, input)| {
            let is_due = *due <= moment;
            if is_due && chance.below(3) > 0 {
                state = Register::step(&state, input).0;
            }
            !is_due
        });
        let (next, output) = Register::step(&state, &input);
        state = next;
        calls.push(Call {
            input,
            output: Some(output),
            began,
            ended: moment + 1 + chance.below(spread),
        });
    }
    calls
}

/// Tries all orders.
fn has_order(calls: &[Call<KeyCommand, KeyAnswer>], taken: u32, state: &Option<String>) -> bool {
    let left = |it: &usize| taken >> it & 1 == 0;
    let answered = (0..calls.len()).filter(|it| left(it) && calls[*it].output.is_some());
    let Some(end) = answered.map(|it| calls[it].ended).min() else {
        return true;
    };
    (0..calls.len()).filter(left).any(|it| {
        let (next, found) = Register::step(state, &calls[it].input);
        let explains = calls[it].output.as_ref().is_none_or(|it| *it == found);
        calls[it].began <= end && explains && has_order(calls, taken | 1 << it, &next)
    })
}

#[test]
fn finds_what_all_orders_find() {
    let (mut wrong, mut right) = (0, 0);
    for seed in 1..3_000 {
        let mut chance = Chance(SEED.wrapping_mul(seed));
        let mut calls = history(&mut chance, 8, 3, 60);
        let at = chance.below(8) as usize;
        if chance.below(2) == 0 && calls[at].output.is_some() {
            let other = calls[chance.below(8) as usize].output.clone();
            calls[at].output = other.or(calls[at].output.take());
        }
        let wanted = match has_order(&calls, 0, &None) {
            true => Verdict::Linearizable,
            false => Verdict::Wrong,
        };
        assert_eq!(judge::<Register>(&calls), wanted, "seed {seed}: {calls:#?}");
        match wanted {
            Verdict::Wrong => wrong += 1,
            _ => right += 1,
        }
    }
    assert!(wrong > 100 && right > 100, "{wrong} wrong, {right} right");
}

#[test]
fn takes_long_histories() {
    for seed in 1..20 {
        let mut chance = Chance(SEED.wrapping_mul(seed));
        let calls = history(&mut chance, 600, 40, 20);
        assert_eq!(
            judge::<Register>(&calls),
            Verdict::Linearizable,
            "seed {seed}"
        );
    }
}

/// One wrong answer of each kind, in a long history of which a part has no answer.
#[test]
fn finds_wrong_answers_in_long_histories() {
    let set = |at: u64, text: &str| answered(at, KeyCommand::Set(text.to_owned()), KeyAnswer::Done);
    let get =
        |at: u64, text: &str| answered(at, KeyCommand::Get, KeyAnswer::Text(Some(text.to_owned())));
    let incr = |at: u64, number: i64| answered(at, KeyCommand::Incr, KeyAnswer::Number(number));
    let planted: [(&str, Vec<_>); 5] = [
        ("a lost update", vec![set(1, "5"), incr(2, 6), incr(3, 6)]),
        (
            "a doubled increment",
            vec![set(1, "5"), incr(2, 6), incr(3, 8)],
        ),
        ("a stale read", vec![set(1, "5"), set(2, "6"), get(3, "5")]),
        (
            "a write that goes",
            vec![set(1, "5"), get(2, "5"), get(3, "4"), get(4, "5")],
        ),
        (
            "a write made again",
            vec![
                open(0, "w"),
                set(1, "5"),
                get(2, "w"),
                set(3, "6"),
                get(4, "w"),
            ],
        ),
    ];
    for (name, last) in planted {
        for seed in 1..6 {
            let mut calls = history(&mut Chance(SEED.wrapping_mul(seed)), 300, 40, 20);
            assert_eq!(
                judge::<Register>(&calls),
                Verdict::Linearizable,
                "{name}, seed {seed}"
            );
            // The calls without an answer write nothing that is read here.
            calls.retain(|it| {
                it.output.is_some() || !matches!(it.input, KeyCommand::Incr | KeyCommand::Set(_))
            });
            calls.extend(last.clone());
            assert_ne!(
                judge::<Register>(&calls),
                Verdict::Linearizable,
                "{name}, seed {seed}"
            );
        }
    }
}

fn answered(at: u64, input: KeyCommand, output: KeyAnswer) -> Call<KeyCommand, KeyAnswer> {
    let began = 1_000_000 + at * 10;
    Call {
        input,
        output: Some(output),
        began,
        ended: began + 5,
    }
}

fn open(at: u64, text: &str) -> Call<KeyCommand, KeyAnswer> {
    let input = KeyCommand::Set(text.to_owned());
    Call {
        input,
        output: None,
        began: 1_000_000 + at * 10,
        ended: 0,
    }
}

/// A write without an answer may be made at any later moment, once.
#[test]
fn takes_a_write_that_comes_late() {
    let text = |it: &str| KeyAnswer::Text(Some(it.to_owned()));
    let set = answered(1, KeyCommand::Set("5".to_owned()), KeyAnswer::Done);
    let (five, late) = (
        |at| answered(at, KeyCommand::Get, text("5")),
        |at| answered(at, KeyCommand::Get, text("w")),
    );
    let calls = vec![open(0, "w"), set, five(2), late(3), late(4)];
    assert_eq!(judge::<Register>(&calls), Verdict::Linearizable);
    let again = [calls.clone(), vec![five(5)]].concat();
    assert_eq!(judge::<Register>(&again), Verdict::Wrong);
    // An increment without an answer counts at most once.
    let incr = Call {
        input: KeyCommand::Incr,
        output: None,
        began: 0,
        ended: 0,
    };
    let (one, two) = (
        answered(1, KeyCommand::Incr, KeyAnswer::Number(1)),
        answered(2, KeyCommand::Get, text("2")),
    );
    assert_eq!(
        judge::<Register>(&[incr.clone(), one.clone(), two.clone()]),
        Verdict::Linearizable
    );
    let three = answered(2, KeyCommand::Get, text("3"));
    assert_eq!(
        judge::<Register>(&[incr.clone(), one.clone(), three.clone()]),
        Verdict::Wrong
    );
    assert_eq!(
        judge::<Register>(&[incr.clone(), incr, one, three]),
        Verdict::Linearizable
    );
}

/// Takes as many calls as clients make of one key in a trial; as many have no answer as its key may have. Finds an
/// order in seconds, and also finds a read of the past by the last of them.
#[test]
fn decides_what_a_key_of_a_trial_has() {
    let in_time = || Instant::now() + Duration::from_secs(120);
    for seed in 1..6 {
        let mut calls = history(&mut Chance(SEED.wrapping_mul(seed)), 2_000, 0, 20);
        let open = calls
            .iter()
            .skip(500)
            .filter(|it| it.input != KeyCommand::Get);
        let open: Vec<_> = open.step_by(200).take(12).cloned().collect();
        calls.extend(open.into_iter().map(|it| Call {
            output: None,
            input: KeyCommand::Set(format!("lost{}", it.began)),
            ..it
        }));
        let right = judge_until::<Register>(&calls, in_time());
        assert_eq!(right, Verdict::Linearizable, "seed {seed}");
        calls.push(answered(
            1,
            KeyCommand::Set("5".to_owned()),
            KeyAnswer::Done,
        ));
        calls.push(answered(
            2,
            KeyCommand::Set("6".to_owned()),
            KeyAnswer::Done,
        ));
        let text = KeyAnswer::Text(Some("5".to_owned()));
        calls.push(answered(3, KeyCommand::Get, text));
        let wrong = judge_until::<Register>(&calls, in_time());
        assert_eq!(wrong, Verdict::Wrong, "seed {seed}");
    }
}

/// Calls without an answer that make no difference to later ones are tried once, and not at each place.
#[test]
fn decides_where_calls_without_answer_make_no_difference() {
    let mut calls = vec![answered(
        0,
        KeyCommand::Set("word".to_owned()),
        KeyAnswer::Done,
    )];
    calls.extend((0..20).map(|it| open(1, &format!("lost{it}"))));
    let later = |at| answered(at, KeyCommand::Incr, KeyAnswer::NoNumber);
    calls.extend((2..200).map(later));
    for (text, wanted) in [
        ("word", Verdict::Linearizable),
        ("lost7", Verdict::Linearizable),
        ("other", Verdict::Wrong),
    ] {
        let last = answered(200, KeyCommand::Get, KeyAnswer::Text(Some(text.to_owned())));
        let whole = [calls.clone(), vec![last]].concat();
        assert_eq!(judge::<Register>(&whole), wanted, "{text}");
    }
}

/// If a history has more orders than can be tried, the search is given up when the time is over.
#[test]
fn gives_up_in_time() {
    let append = |at: u64| Call {
        input: KeyCommand::Append(format!("+{at}")),
        output: None,
        began: at,
        ended: 0,
    };
    let mut calls: Vec<_> = (0..40).map(append).collect();
    calls.push(answered(
        1,
        KeyCommand::Get,
        KeyAnswer::Text(Some("no order gives it".to_owned())),
    ));
    let began = Instant::now();
    let found = judge_until::<Register>(&calls, began + Duration::from_millis(100));
    assert_eq!(found, Verdict::Undecided);
    assert!(
        began.elapsed() < Duration::from_secs(10),
        "{:?}",
        began.elapsed()
    );
}
