//! Tests of servers of a caller's own service, whose replies are places.
#![cfg(feature = "relay")]
use durkenzo_store_sys::{Code, Decision, Limits, Passing, Relay, ServerRequest};

/// The record of a shard that server 1 serves, as control 7 wrote it.
const SERVED: [u8; 17] = [1, 32, 1, 0, 0, 0, 0, 0, 1, 0, 0, 0, 0, 0, 0, 0, 7];
/// The head of a log with no batch.
const EMPTY: [u8; 25] = {
    let mut bytes = [0; 25];
    bytes[0] = 1;
    bytes
};

/// Makes a server of a shard that it serves, with an empty log.
fn serving() -> Result<Relay, Code> {
    let mut relay = Relay::new(1, 0, 2, Limits::default())?;
    relay.read((&SERVED, 3), (&EMPTY, 5))?;
    Ok(relay)
}

fn asked(client: u64, number: u64, request: &[u8]) -> ServerRequest<'_> {
    ServerRequest {
        client,
        number,
        request,
        ..ServerRequest::default()
    }
}

/// Has the server make this request in a transaction of its own. Returns the place, and the batch.
fn made(relay: &mut Relay, asked: &ServerRequest<'_>) -> Result<(u64, Vec<u8>), Code> {
    assert_eq!(relay.take(asked)?, Decision::Waits);
    assert!(relay.flush()?);
    let batch = relay.sending()?.batch;
    let (made, _) = relay.made(6)?;
    assert_eq!(
        (made[0].client, made[0].number),
        (asked.client, asked.number)
    );
    Ok((made[0].place, batch))
}

#[test]
fn requests_have_places_and_a_retry_has_its_first_one() -> Result<(), Code> {
    let mut relay = serving()?;
    assert_eq!(made(&mut relay, &asked(7, 1, b"\x02first"))?.0, 0);
    assert_eq!(made(&mut relay, &asked(8, 1, b"\x02second"))?.0, 1);
    assert_eq!(
        (relay.count()?, relay.clients()?, relay.batch_count()?),
        (2, 2, 2)
    );
    assert_eq!(
        relay.take(&asked(7, 1, b"\x02first"))?,
        Decision::Replied(0)
    );
    assert_eq!(made(&mut relay, &asked(7, 2, b"\x02third"))?.0, 2);
    assert_eq!(relay.take(&asked(7, 1, b"\x02first"))?, Decision::Passed);
    Ok(())
}

#[test]
fn a_read_is_told_how_many_requests_came_before_it() -> Result<(), Code> {
    let mut relay = serving()?;
    made(&mut relay, &asked(7, 1, b"\x02first"))?;
    assert_eq!(relay.take(&asked(7, 2, b"\x02second"))?, Decision::Waits);
    assert_eq!(relay.take(&asked(9, 1, b"\x01question"))?, Decision::Waits);
    assert!(relay.flush()?);
    let (made, read) = relay.made(7)?;
    assert_eq!((made[0].client, made[0].place), (7, 1));
    assert_eq!((read[0].client, read[0].number, read[0].place), (9, 1, 1));
    Ok(())
}

#[test]
fn a_server_that_reads_a_log_goes_on_from_its_places() -> Result<(), Code> {
    let mut relay = serving()?;
    let (_, batch) = made(&mut relay, &asked(7, 1, b"\x02first"))?;
    let mut other = Relay::new(1, 0, 2, Limits::default())?;
    assert_eq!(other.count()?, 0);
    other.add_batch(&batch)?;
    let head = [&[1][..], &1u64.to_be_bytes(), &[0; 16]].concat();
    other.read((&SERVED, 3), (&head, 6))?;
    assert_eq!(
        other.take(&asked(7, 1, b"\x02first"))?,
        Decision::Replied(0)
    );
    assert_eq!(made(&mut other, &asked(8, 1, b"\x02second"))?.0, 1);
    Ok(())
}

#[test]
fn a_base_keeps_the_count_and_the_places() -> Result<(), Code> {
    let mut relay = serving()?;
    made(&mut relay, &asked(7, 1, b"\x02first"))?;
    made(&mut relay, &asked(8, 5, b"\x02second"))?;
    let base = relay.base()?.expect("a base begins");
    assert_eq!((base.number, base.parts.len()), (2, 1));
    relay.parts_made()?;
    assert!(relay.flush()?);
    let head = relay.sending()?.head;
    relay.made(8)?;
    assert!(relay.is_behind(Passing::Batch(2))? && relay.is_behind(Passing::Part(1, 0))?);
    assert!(!relay.is_behind(Passing::Part(2, 0))?);
    let mut other = Relay::new(1, 0, 2, Limits::default())?;
    other.add_part(&base.parts[0])?;
    other.read((&SERVED, 3), (&head, 8))?;
    assert_eq!(other.count()?, 2);
    assert_eq!(
        other.take(&asked(8, 5, b"\x02second"))?,
        Decision::Replied(1)
    );
    Ok(())
}

#[test]
fn what_was_lost_is_read_on() -> Result<(), Code> {
    let mut relay = serving()?;
    assert_eq!(relay.take(&asked(7, 1, b"\x02first"))?, Decision::Waits);
    assert!(relay.flush()?);
    relay.lost()?;
    let not_read = Decision::Refused(Code::NOT_READ);
    assert_eq!(relay.take(&asked(7, 1, b"\x02first"))?, not_read);
    relay.append((&SERVED, 3), (&EMPTY, 5))?;
    assert_eq!(made(&mut relay, &asked(7, 1, b"\x02first"))?.0, 0);
    Ok(())
}
