//! Many events in one call, over the linked library: days through `take_all`, cut anywhere and with any room, compared with the
//! same days event by event.

mod common;

use common::{day, Numbers};
use jubafiye::{Book, Error, Event, Refusal, Stopped, ANSWER_BYTES, BOOK_BYTES, SAID_BYTES};

/// Records one after the other, each after its length.
fn joined(records: &[Vec<u8>]) -> Vec<u8> {
    let with_length = |record: &Vec<u8>| [&(record.len() as u16).to_le_bytes(), &record[..]].concat();
    records.iter().flat_map(with_length).collect()
}

/// The answer's bytes of each event that is run by itself, or its refusal.
fn single(book: &mut Book, records: &[Vec<u8>]) -> Vec<Result<Vec<u8>, Refusal>> {
    let mut answer = [0; ANSWER_BYTES];
    records.iter().map(|record| book.take_record_into(record, &mut answer).map(<[u8]>::to_vec)).collect()
}

#[test]
fn days_in_calls_cut_anywhere_are_the_days_event_by_event() -> Result<(), Refusal> {
    let (mut refused, mut full, mut cut) = (0, 0, 0);
    for seed in 0..20 {
        let mut numbers = Numbers(seed);
        let (after, mut records) = day(seed, 200);
        records.insert(numbers.below(100), Vec::new());
        records.insert(numbers.below(100), vec![9; 2_000]);
        let journal = joined(&records);
        let (mut book, mut said, mut at, mut come) = (Book::new(10_000), Vec::new(), 0, 0);
        while at < journal.len() {
            come = (come.max(at) + numbers.below(4_000)).min(journal.len());
            let mut answers = vec![0xAA; SAID_BYTES + numbers.below(3_000)];
            let taken = book.take_all(&journal[at..come], &mut answers)?;
            match taken.stopped() {
                Stopped::AllRead => assert_eq!(at + taken.read(), come),
                Stopped::NoRoom => full += 1,
                Stopped::Cut { bytes } => {
                    let left = come - at - taken.read();
                    assert!(bytes.map_or(left == 1, |bytes| left < bytes));
                    cut += 1;
                }
            }
            let new: Vec<_> = taken.said().map(|said| said.map(<[u8]>::to_vec)).collect();
            assert_eq!(new.len(), taken.events());
            // A refusal is one byte, and an answer follows a byte that says so.
            let written: usize = new.iter().map(|said| 1 + said.as_ref().map_or(0, Vec::len)).sum();
            (at, said) = (at + taken.read(), [said, new].concat());
            assert!(answers[written..].iter().all(|&byte| byte == 0xAA));
        }
        assert_eq!(said, single(&mut Book::new(10_000), &records));
        assert!(book.as_bytes() == after.as_bytes());
        refused += said.iter().filter(|said| said.is_err()).count();
    }
    assert!(refused >= 40 && full > 20 && cut > 20, "{refused} refused, {full} full, {cut} cut");
    Ok(())
}

#[test]
fn an_answer_is_what_take_gives() -> Result<(), Error> {
    let events = [
        Event::UnknownAtVenue { venue: 3, downstream: b"G1" },
        Event::GatewayCancel { name: b"not-a-name" },
        Event::SendAgain { venue: 3, downstream: b"G1" },
    ];
    let (mut records, mut answers) = (Vec::new(), vec![0; 3 * SAID_BYTES]);
    events.iter().for_each(|event| event.append(&mut records));
    let taken = Book::new(10_000).take_all(&records, &mut answers)?;
    let mut book = Book::new(10_000);
    let single: Vec<_> = events.iter().map(|event| book.take(event)).collect();
    assert_eq!(taken.answers().collect::<Vec<_>>(), single);
    assert_eq!(single[1], Err(Error::Refused(Refusal::Range)));
    Ok(())
}

#[test]
fn what_is_not_there_whole_is_left() -> Result<(), Refusal> {
    let mut records = Vec::new();
    Event::GatewayCancel { name: b"G1" }.append(&mut records);
    let one = records.len();
    let mut answers = [0xAA; 2 * SAID_BYTES];
    for end in 0..one {
        let taken = Book::new(10_000).take_all(&records[..end], &mut answers)?;
        let stopped = match end {
            0 => Stopped::AllRead,
            1 => Stopped::Cut { bytes: None },
            _ => Stopped::Cut { bytes: Some(one) },
        };
        assert_eq!((taken.events(), taken.read(), taken.stopped()), (0, 0, stopped));
    }
    assert_eq!(answers, [0xAA; 2 * SAID_BYTES]);
    // A length that counts more than there ever can be room for, and one that counts nothing.
    let taken = Book::new(10_000).take_all(&[0xFF; 2_000], &mut answers)?;
    assert_eq!(taken.stopped(), Stopped::Cut { bytes: Some(65_537) });
    let taken = Book::new(10_000).take_all(&[0; 6], &mut answers)?;
    assert_eq!(taken.said().collect::<Vec<_>>(), [Err(Refusal::Record); 3]);
    Ok(())
}

#[test]
fn the_room_of_the_last_event() -> Result<(), Refusal> {
    let event = Event::UnknownAtVenue { venue: 3, downstream: b"G1" };
    let mut records = Vec::new();
    event.append(&mut records);
    let one = records.len();
    event.append(&mut records);
    for (more, read, stopped) in [(5, one, Stopped::NoRoom), (6, 2 * one, Stopped::AllRead)] {
        let mut answers = vec![0xAA; SAID_BYTES + more];
        let taken = Book::new(10_000).take_all(&records, &mut answers)?;
        assert_eq!((taken.read(), taken.stopped()), (read, stopped));
    }
    // Nothing is left to read: that there is no room for more is no reason to call again.
    let mut answers = [0; SAID_BYTES];
    assert_eq!(Book::new(10_000).take_all(&records[..one], &mut answers)?.stopped(), Stopped::AllRead);
    Ok(())
}

#[test]
fn a_refused_call_has_changed_nothing() {
    let (mut book, records) = day(7, 60);
    let (before, records) = (book.as_bytes().to_vec(), joined(&records));
    for room in [0, 1, ANSWER_BYTES] {
        let mut answers = vec![0xAA; room];
        assert_eq!(book.take_all(&records, &mut answers), Err(Refusal::AnswerBuffer));
        assert_eq!(book.take_all(&[], &mut answers), Err(Refusal::AnswerBuffer));
        assert!(answers.iter().all(|&byte| byte == 0xAA));
    }
    assert_eq!((book.as_bytes().len(), book.as_bytes() == before), (BOOK_BYTES, true));
}
