//! The reports of histories: counts of numbered requests, and the longest time without an answer.
use durkenzo_trial::{Call, History, KeyAnswer, KeyCommand, Report};
use std::time::{Duration, Instant};

fn in_time() -> Instant {
    Instant::now() + Duration::from_secs(60)
}

fn incr(began: u64, answer: Option<i64>) -> Call<KeyCommand, KeyAnswer> {
    let output = answer.map(KeyAnswer::Number);
    Call {
        input: KeyCommand::Incr,
        output,
        began,
        ended: began + 1,
    }
}

fn get(began: u64, text: &str) -> Call<KeyCommand, KeyAnswer> {
    Call {
        input: KeyCommand::Get,
        output: Some(KeyAnswer::Text(Some(text.to_owned()))),
        began,
        ended: began + 1,
    }
}

fn report(key: &str, calls: Vec<Call<KeyCommand, KeyAnswer>>) -> Report {
    let mut history = History::default();
    history.calls.insert(key.to_owned(), calls);
    Report::of(&history, in_time())
}

#[test]
fn finds_numbered_requests_that_were_made_twice_or_never() {
    let key = "trial:0:count:3";
    let of = |last: &str| {
        vec![
            incr(0, Some(1)),
            incr(2, None),
            incr(4, Some(2)),
            get(6, last),
        ]
    };
    // The call without an answer may be made last, or never.
    for last in ["2", "3"] {
        assert!(report(key, of(last)).is_right(), "{last}");
    }
    for last in ["1", "4"] {
        let found = report(key, of(last));
        assert_eq!(
            (found.miscounted.len(), found.wrong.len()),
            (1, 1),
            "{last}"
        );
    }
    // Nothing is counted for other keys.
    assert!(report("trial:0:3", of("4")).miscounted.is_empty());
}

#[test]
fn tells_the_longest_time_without_an_answer() {
    let calls = vec![
        incr(0, Some(1)),
        incr(2, Some(2)),
        incr(100, Some(3)),
        incr(150, None),
    ];
    let longest = report("trial:0:3", calls).longest;
    assert_eq!(longest, (98, "3".to_owned(), 3));
}

#[test]
fn is_not_right_where_a_client_panicked() {
    let mut history = History::default();
    let calls = [("trial:0".to_owned(), vec![incr(0, Some(1))])];
    history.join(Ok(History {
        calls: calls.into(),
        ..History::default()
    }));
    assert!(Report::of(&history, in_time()).is_right());
    history.join(std::thread::spawn(|| panic!("as this test wants")).join());
    let report = Report::of(&history, in_time());
    assert!(!report.is_right());
    let told = report.to_string();
    assert!(told.starts_with("1 clients panicked: "), "{told}");
}

#[test]
fn is_not_right_without_calls() {
    assert!(!Report::of(&History::default(), in_time()).is_right());
}
