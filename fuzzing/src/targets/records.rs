use super::pieces;
use crate::chance::Chance;
use crate::target::{holds, Target};
use durkenzo::word;
use durkenzo_store_sys::{Director, Head};

/// A store of one shard and two servers.
const SETTINGS: &str = concat!(
    r#"{"version":1,"bounds":[""],"servers":[{"id":1,"domain":0,"capacity":9},"#,
    r#"{"id":2,"domain":1,"capacity":9}],"groups":[{"limit":9,"down":9}],"#,
    r#""shards":[{"group":0,"load":1,"cap":1}],"ops":1,"kept":1,"ceiling":100000,"workers":1}"#
);
/// The revisions of the record and of the key of commands.
const STOOD: u64 = 5;
const PLACED: u64 = 7;
/// The faults of records or states that can't be a store's.
const FAULTS: [u32; 3] = [93, 94, 95];

/// The values at the keys of a shard's record, of servers' states and of a log's head.
pub struct StoreValues;

impl Target for StoreValues {
    fn check(&mut self, input: &[u8]) -> Result<(), String> {
        let pieces = pieces::of(input);
        let [record, first, second, ..] = pieces[..] else {
            return Ok(());
        };
        pieces.iter().try_for_each(|it| of_head(it))?;
        let mut director = Director::new(SETTINGS, 1, 1).map_err(|it| it.to_string())?;
        let read = director
            .record(record, STOOD)
            .and_then(|()| director.state(first))
            .and_then(|()| director.state(second))
            .and_then(|()| director.read(PLACED));
        match read {
            Ok(()) => accepted(&mut director, record),
            Err(code) => holds(FAULTS.contains(&code.0), || format!("it answers {code:?}")),
        }
    }

    fn seeds(&mut self) -> Vec<Vec<u8>> {
        let head = [
            &[1][..],
            &9u64.to_be_bytes(),
            &4u64.to_be_bytes(),
            &1u64.to_be_bytes(),
        ]
        .concat();
        let up = [&[1][..], &[0; 16]].concat();
        let words = [
            0,
            1 << 61 | 1 << 48 | 1,
            3 << 61 | 1 << 48 | 2 << 36 | 5,
            5 << 61 | 1 << 48 | 3,
        ];
        let of = |word: u64| [&[1][..], &word.to_be_bytes(), &7u64.to_be_bytes()].concat();
        words
            .iter()
            .map(|it| pieces::spelled(&[&of(*it), &up, &of(1), &head]))
            .collect()
    }

    fn spoil(&self, input: &mut Vec<u8>, other: &[u8], chance: &mut Chance) {
        pieces::spoil(input, other, self.words(), chance);
    }
}

/// If bytes are a head, it is written as these bytes.
fn of_head(bytes: &[u8]) -> Result<(), String> {
    let Ok(head) = Head::of(bytes) else {
        return Ok(());
    };
    let numbers = [head.batches, head.base, head.parts].map(u64::to_be_bytes);
    let spelled = [&[1][..], &numbers.concat()].concat();
    holds(spelled == bytes, || format!("{head:?} has other bytes"))
}

/// The record that was read must be the one that lies there, and the next step can be asked for.
fn accepted(director: &mut Director, record: &[u8]) -> Result<(), String> {
    let (word, stood) = director.record_of(0).map_err(|it| it.to_string())?;
    let is_same = record.get(1..9) == Some(&word.to_be_bytes()) && stood == STOOD;
    holds(is_same && record.len() == 17, || {
        format!("{word} of {stood} was read")
    })?;
    let again = word::record(word).as_ref().and_then(word::of);
    holds(again == Some(word), || {
        format!("{word} is {again:?} elsewhere")
    })?;
    for server in [1, 2] {
        let (state, _) = director.state_of(server).map_err(|it| it.to_string())?;
        holds(state <= 4, || format!("server {server} has state {state}"))?;
        director
            .next_of_server(server)
            .map_err(|it| it.to_string())?;
    }
    let next = director.next_of_shard(0).map_err(|it| it.to_string())?;
    if next.is_command() {
        director
            .command(next, 0)
            .map_err(|it| format!("{next:?} is refused: {it:?}"))?;
        director.sending().map_err(|it| it.to_string())?;
    }
    Ok(())
}
