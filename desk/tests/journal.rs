//! The journal and its outbox: what is taken up again, what may go out twice and what may not (README.md, What may go out twice), and a
//! clear error for each thing that can be wrong with a file.

#[path = "../../host/tests/common/mod.rs"]
mod common;

use std::fs;
use std::path::{Path, PathBuf};
use std::process::{Command, Output};
use std::sync::OnceLock;

use common::Numbers;
use desk::{recipes, Error, Journal, Outgoing, SNAPSHOT_EVERY};
use jubafiye::text::from_text;
use jubafiye::{Book, Message, OrdStatus, Stage};

/// A folder of a test's own.
fn folder(name: &str) -> PathBuf {
    let folder = Path::new(env!("CARGO_TARGET_TMPDIR")).join(name);
    let _ = fs::remove_dir_all(&folder);
    fs::create_dir_all(&folder).unwrap();
    folder
}

fn journal(name: &str) -> (PathBuf, Journal) {
    let path = folder(name).join("journal");
    let journal = Journal::create(&path, 10_000).unwrap();
    (path, journal)
}

fn take(journal: &mut Journal, lines: &str) {
    for line in lines.lines().map(str::trim).filter(|line| !line.is_empty()) {
        let taken = journal.take(&from_text(line).unwrap()).unwrap();
        assert!(taken.answer.is_ok(), "{line}: {:?}", taken.answer);
    }
}

/// What is handed over, as the receiver tells it: marked or not, and its line.
fn hand_over(journal: &mut Journal) -> Vec<(bool, String)> {
    let mut sent = Vec::new();
    let send = |out: &Outgoing| {
        sent.push((out.repeat, out.message.to_string()));
        Ok::<(), Error>(())
    };
    journal.hand_over(send).unwrap();
    sent
}

const BOOKED: &str =
    "book client=7 venue=3 name=G1 clordid=C1 symbol=W side=buy ordtype=limit qty=100 price=10";
const FILLED: &str = "report venue=3 downstream=G1 exectype=trade ordstatus=partially-filled lastqty=40 lastpx=10 cumqty=40 avgpx=10";
const CANCEL: &str = "cancel client=7 clordid=C2 origclordid=C1 symbol=W side=buy";

#[test]
fn a_book_is_taken_up_where_it_was_left() {
    let (path, mut journal) = journal("again");
    let mut numbers = Numbers(1);
    let events = SNAPSHOT_EVERY as usize * 2 + 40;
    for number in 0..40 {
        let record = common::event(&mut numbers, journal.book(), number);
        let before = journal.seq();
        assert_eq!(journal.take(&record).unwrap().seq, before + 1);
    }
    drained(&mut journal, &mut numbers, 40..events);
    let (bytes, seq) = (journal.book().as_bytes().to_vec(), journal.seq());
    let kept = journal.events(1).unwrap();
    drop(journal);
    let read = Journal::read(&path).unwrap();
    assert!(read.book().as_bytes() == bytes && read.seq() == seq && read.events(1).unwrap() == kept);
    assert_eq!(kept.len(), events);
}

#[test]
fn a_drain_is_taken_whole() {
    let (path, mut journal) = journal("drain");
    let records = [BOOKED, FILLED, CANCEL, "again venue=9 downstream=X"].map(|line| from_text(line).unwrap());
    let taken = journal.drain(records.iter().map(Vec::as_slice)).unwrap();
    assert_eq!(taken.iter().map(|taken| taken.seq).collect::<Vec<_>>(), [1, 2, 3, 4]);
    let mut one_by_one = Book::new(10_000);
    records.iter().for_each(|record| drop(one_by_one.take_record(record)));
    assert!(journal.book().as_bytes() == one_by_one.as_bytes());
    assert_eq!(
        journal.outbox().unwrap().iter().map(|out| out.message.kind()).collect::<Vec<_>>(),
        [18, 16, 19]
    );
    drop(journal);
    assert_eq!(Journal::read(&path).unwrap().seq(), 4);
}

#[test]
fn a_refused_event_is_kept_and_changes_nothing() {
    let (_, mut journal) = journal("refused");
    take(&mut journal, BOOKED);
    let before = journal.book().as_bytes().to_vec();
    assert!(journal.take(&from_text(BOOKED).unwrap()).unwrap().answer.is_err());
    assert!(journal.take(b"no record").unwrap().answer.is_err());
    assert!(journal.book().as_bytes() == before);
    assert_eq!((journal.seq(), journal.outbox().unwrap().len()), (3, 1));
}

#[test]
fn a_booking_is_sent_to_its_venue() {
    let (_, mut journal) = journal("booking");
    take(&mut journal, BOOKED);
    assert_eq!(
        hand_over(&mut journal),
        [(false, "new order to venue 3: G1, buy 100 W, limit 10".to_string())]
    );
}

#[test]
fn what_was_handed_over_never_goes_again() {
    let (path, mut journal) = journal("handed");
    take(&mut journal, &[BOOKED, FILLED, CANCEL].join("\n"));
    assert_eq!(hand_over(&mut journal).len(), 3);
    assert_eq!(hand_over(&mut journal), []);
    drop(journal);
    let mut journal = Journal::open(&path).unwrap();
    assert_eq!(hand_over(&mut journal), []);
    assert_eq!(journal.seq(), 3);
}

#[test]
fn a_report_goes_again_under_its_exec_id_with_the_same_bytes_marked() {
    let (path, mut journal) = journal("report");
    take(&mut journal, BOOKED);
    hand_over(&mut journal);
    take(&mut journal, FILLED);
    let before = journal.outbox().unwrap();
    drop(journal);
    for _ in 0..3 {
        let journal = Journal::open(&path).unwrap();
        let after = journal.outbox().unwrap();
        let [one] = &after[..] else { panic!("{after:?}") };
        assert!(one.repeat && !before[0].repeat && one.record == before[0].record);
        let Message::Report(report) = &one.message else { panic!("{one:?}") };
        assert_eq!((&report.name[..], report.exec_seq), (&b"G1"[..], 1));
    }
}

#[test]
fn a_cancel_reject_goes_again_with_the_same_bytes_marked() {
    let (path, mut journal) = journal("reject");
    take(&mut journal, BOOKED);
    hand_over(&mut journal);
    take(&mut journal, &CANCEL.replace("C1", "C9"));
    let before = journal.outbox().unwrap();
    assert_eq!(before[0].message.kind(), 17);
    drop(journal);
    let after = Journal::open(&path).unwrap().outbox().unwrap();
    assert!(after.len() == 1 && after[0].repeat && after[0].record == before[0].record);
}

#[test]
fn a_request_to_a_venue_goes_again_under_its_own_cl_ord_id_marked() {
    let (path, mut journal) = journal("request");
    take(&mut journal, &[BOOKED, CANCEL].join("\n"));
    drop(journal);
    for _ in 0..3 {
        let journal = Journal::open(&path).unwrap();
        let again: Vec<(bool, String)> =
            journal.outbox().unwrap().iter().map(|out| (out.repeat, out.message.to_string())).collect();
        let wanted = [
            "new order to venue 3: G1, buy 100 W, limit 10",
            "cancel to venue 3: G1-1 for G1, buy 100 W, limit 10",
        ];
        assert_eq!(again, wanted.map(|line| (true, line.to_string())));
        assert_eq!(journal.book().requests().count(), 2);
    }
}

#[test]
fn a_request_whose_order_is_done_is_told_as_not_sent() {
    let (path, mut journal) = journal("moot");
    take(&mut journal, BOOKED);
    hand_over(&mut journal);
    take(&mut journal, &[CANCEL, &FILLED.replace("partially-", "").replace("40", "100")].join("\n"));
    drop(journal);
    let mut journal = Journal::open(&path).unwrap();
    let sent = hand_over(&mut journal);
    assert_eq!(sent.len(), 2, "{sent:?}");
    assert!(sent[0].0 && sent[0].1.starts_with("report to client 7"), "{sent:?}");
    let refusal =
        "refusal of a cancel to client 7: C2, filled, our reason 99, not sent before the gateway restarted";
    assert_eq!(sent[1], (false, refusal.to_string()));
}

#[test]
fn a_message_of_an_event_that_was_not_kept_never_goes_out() {
    let (path, mut journal) = journal("unkept");
    take(&mut journal, BOOKED);
    drop(journal);
    let before = fs::read(&path).unwrap();
    let report = stopped(&path, "full", 1, "take");
    assert!(report.contains("the disk is full: the event was not taken"), "{report}");
    // The file has what it had, and no message of the event.
    let journal = Journal::read(&path).unwrap();
    assert_eq!((journal.seq(), journal.outbox().unwrap().len()), (1, 1));
    assert_eq!(fs::read(&path).unwrap().len(), before.len());
}

#[test]
fn a_session_that_fails_keeps_the_rest() {
    let (_, mut journal) = journal("session");
    take(&mut journal, &[BOOKED, FILLED, CANCEL].join("\n"));
    let mut left = 2;
    let send = |_: &Outgoing| {
        left -= 1;
        if left < 0 {
            Err("session down")
        } else {
            Ok(())
        }
    };
    let why = journal.hand_over(send).unwrap_err();
    assert_eq!(why.to_string(), "the session did not take a message: session down");
    assert_eq!(journal.outbox().unwrap().len(), 1);
}

#[test]
fn recipes() {
    let (_, mut journal) = journal("recipes");
    take(
        &mut journal,
        &[BOOKED, FILLED, &BOOKED.replace("G1", "H").replace("C1", "D1"), CANCEL, "gateway-cancel name=G1"]
            .join("\n"),
    );
    // The gateway's cancel waits behind the client's, which could not be sent.
    take(&mut journal, "failed venue=3 downstream=G1-1 text=down");
    let order = journal.book().order("G1").unwrap();
    assert_eq!(order.gateway_cancel.unwrap().stage, Stage::Unsent);
    assert!(recipes::venue_up(journal.book(), 4).is_empty());
    let up = recipes::venue_up(journal.book(), 3);
    let sent = journal.drain(up.iter().map(Vec::as_slice)).unwrap();
    assert_eq!(sent[0].answer.as_ref().unwrap().messages[0].kind(), 19);
    assert_eq!(journal.book().order("G1").unwrap().gateway_cancel.unwrap().stage, Stage::Sent);
    // What the venue has not settled: the gateway's cancel, and H, which it has not acknowledged.
    let lost = recipes::venue_lost(journal.book(), 3);
    assert_eq!(lost.len(), 2);
    let again = journal.drain(lost.iter().map(Vec::as_slice)).unwrap();
    assert!(again.iter().all(|taken| taken.answer.as_ref().unwrap().messages.len() == 1));
    // The venue no longer knows G1.
    let gone = recipes::gone_at_venue(journal.book(), "G1").unwrap();
    assert_eq!(journal.take(&gone).unwrap().answer.unwrap().messages[0].kind(), 16);
    assert_eq!(journal.book().order("G1").unwrap().status, OrdStatus::Canceled);
    assert_eq!(recipes::gone_at_venue(journal.book(), "G1"), None);
    // The end of the day: H is cancelled, and is left open until the venue says so.
    let end = recipes::cancel_day_orders(journal.book());
    assert_eq!(journal.drain(end.iter().map(Vec::as_slice)).unwrap().len(), 1);
    assert!(recipes::cancel_day_orders(journal.book()).is_empty());
    assert_eq!(recipes::left_open(journal.book()).len(), 1);
    let canceled = "report venue=3 downstream=H-1 exectype=canceled ordstatus=canceled lastqty=0 lastpx=0 cumqty=0 avgpx=0";
    take(&mut journal, canceled);
    assert!(recipes::left_open(journal.book()).is_empty());
}

/// Takes events that are drawn, 32 in a transaction.
fn drained(journal: &mut Journal, numbers: &mut Numbers, events: std::ops::Range<usize>) {
    for from in events.clone().step_by(32) {
        let some = from..events.end.min(from + 32);
        let records: Vec<Vec<u8>> =
            some.map(|number| common::event(numbers, journal.book(), number)).collect();
        assert_eq!(journal.drain(records.iter().map(Vec::as_slice)).unwrap().len(), records.len());
    }
}

/// A journal of 300 events, whole.
fn some(name: &str) -> PathBuf {
    let (path, mut journal) = journal(name);
    drained(&mut journal, &mut Numbers(3), 0..300);
    path
}

#[test]
fn a_file_that_is_there_is_not_overwritten() {
    let path = folder("there").join("journal");
    fs::write(&path, b"a letter").unwrap();
    assert!(matches!(Journal::create(&path, 1), Err(Error::AlreadyThere(_))));
    assert!(matches!(Journal::open(&path), Err(Error::NotAJournal)));
    assert_eq!(fs::read(&path).unwrap(), b"a letter");
    assert!(matches!(Journal::open(path.with_file_name("other")), Err(Error::NotThere(_))));
    assert!(!path.with_file_name("other").exists());
}

/// At every write of its making, with and without what was not synced: the journal is there whole, or making it again makes it.
#[test]
fn a_journal_whose_making_was_killed() {
    let (mut anew, mut whole) = (0, 0);
    for how in ["kill", "power"] {
        for at in 1.. {
            let path = folder("unmade").join("journal");
            if run(&path, how, at, "create").status.success() {
                break;
            }
            // To look at it, or to try to open it, changes nothing of that.
            if at % 2 == 0 {
                assert!(matches!(Journal::open(&path), Ok(_) | Err(Error::NotAJournal | Error::NotThere(_))));
            }
            let mut journal = match Journal::create(&path, 10_000) {
                Err(Error::AlreadyThere(_)) => {
                    whole += 1;
                    Journal::open(&path).unwrap()
                }
                made => {
                    anew += 1;
                    made.unwrap_or_else(|why| panic!("{how} at {at}: {why}"))
                }
            };
            assert_eq!((journal.seq(), journal.setting()), (0, 10_000));
            take(&mut journal, BOOKED);
            drop(journal);
            assert_eq!(Journal::read(&path).unwrap().seq(), 1);
        }
    }
    assert!(anew > 10 && whole > 0, "{anew} made anew, {whole} whole");
}

#[test]
fn an_empty_file_is_made_a_journal_and_no_other() {
    let path = folder("empty").join("journal");
    fs::write(&path, b"").unwrap();
    assert!(matches!(Journal::open(&path), Err(Error::NotAJournal)));
    assert_eq!(fs::read(&path).unwrap(), b"");
    drop(Journal::create(&path, 10_000).unwrap());
    assert!(matches!(Journal::create(&path, 10_000), Err(Error::AlreadyThere(_))));
    // A file beside which SQLite's own journal seems to stand is not overwritten either.
    for content in [&b"a letter"[..], &fs::read(&path).unwrap()] {
        let other = path.with_file_name("other");
        fs::write(&other, content).unwrap();
        fs::write(path.with_file_name("other-journal"), b"some bytes").unwrap();
        assert!(matches!(Journal::create(&other, 10_000), Err(Error::AlreadyThere(_))));
        assert_eq!(fs::read(&other).unwrap(), content);
    }
}

#[test]
fn a_second_process_is_turned_away() {
    let (path, mut journal) = journal("second");
    take(&mut journal, BOOKED);
    assert!(stopped(&path, "none", 0, "take").contains("another process has the journal open"));
    drop(journal);
    assert_eq!(stopped(&path, "none", 0, "take"), "taken 3\n");
}

#[test]
fn a_file_that_may_not_be_written() {
    let (path, mut journal) = journal("readonly");
    take(&mut journal, BOOKED);
    drop(journal);
    let before = fs::read(&path).unwrap();
    let report = stopped(&path, "rofs", 0, "take");
    assert!(report.contains("the journal or its folder may not be written"), "{report}");
    assert_eq!(fs::read(&path).unwrap(), before);
    // It may be looked at.
    assert!(stopped(&path, "rofs", 0, "dump").contains("G1: client 7"));
    assert_eq!(fs::read(&path).unwrap(), before);
}

#[test]
fn a_disk_that_is_full_at_any_write() {
    let path = some("full");
    let (whole, mut failed) = (fs::read(&path).unwrap(), 0);
    for at in 1..40 {
        let report = stopped(&path, "full", at, "take");
        if report.starts_with("taken") {
            break;
        }
        assert!(report.contains("the disk is full"), "write {at}: {report}");
        failed += 1;
        assert!(Journal::read(&path).unwrap().seq() >= 300);
    }
    assert!(failed > 3 && whole.len() <= fs::read(&path).unwrap().len(), "{failed}");
}

#[test]
fn a_file_that_was_flipped_or_cut() {
    let path = some("flipped");
    let whole = fs::read(&path).unwrap();
    let journal = Journal::read(&path).unwrap();
    let (events, outbox) = (journal.events(1).unwrap(), journal.outbox().unwrap());
    drop(journal);
    let (mut numbers, mut refused) = (Numbers(4), 0);
    for _ in 0..150 {
        let mut bytes = whole.clone();
        let at = numbers.below(bytes.len());
        bytes[at] ^= 1 << numbers.below(8);
        fs::write(&path, &bytes).unwrap();
        match Journal::read(&path) {
            // A byte that is in no use.
            Ok(journal) => {
                assert!(
                    journal.events(1).unwrap() == events && journal.outbox().unwrap() == outbox,
                    "byte {at}"
                )
            }
            Err(_) => refused += 1,
        }
        let now = fs::read(&path).unwrap();
        assert!(now == bytes, "nothing is overwritten: byte {at}");
    }
    assert!(refused > 100, "{refused}");
    for part in 1..20 {
        fs::write(&path, &whole[..whole.len() * part / 20]).unwrap();
        assert!(Journal::read(&path).is_err(), "{part} of 20 parts");
    }
    fs::write(&path, b"").unwrap();
    assert!(matches!(Journal::read(&path), Err(Error::NotAJournal)));
}

/// All bytes of a journal's book and archives.
fn whole(journal: &Journal) -> Vec<Vec<u8>> {
    let archives = journal.shelf().archives(&()).iter().map(|archive| archive.as_bytes().to_vec());
    archives.chain([journal.book().as_bytes().to_vec()]).collect()
}

/// Orders, each filled some steps after it was booked.
fn filled(orders: std::ops::Range<usize>) -> Vec<Vec<u8>> {
    let line = |number: usize| {
        let terms = "client=7 venue=3 symbol=W side=buy ordtype=market qty=100";
        let fill = "venue=3 exectype=trade ordstatus=filled lastqty=100 lastpx=10 cumqty=100 avgpx=10";
        [
            format!("book {terms} name=G{number} clordid={number}"),
            format!("report {fill} downstream=G{}", number - 9),
        ]
    };
    orders.flat_map(line).map(|line| from_text(&line).unwrap()).collect()
}

#[test]
fn a_book_does_not_fill() {
    let (path, mut journal) = journal("retired");
    for number in 0..9 {
        let line = format!(
            "book client=7 venue=3 name=G{number} clordid={number} symbol=W side=buy ordtype=market qty=100"
        );
        assert!(journal.take(&from_text(&line).unwrap()).unwrap().answer.is_ok());
    }
    let events = filled(9..400);
    for events in events.chunks(50) {
        let taken = journal.drain(events.iter().map(Vec::as_slice)).unwrap();
        assert!(taken.iter().all(|taken| taken.answer.is_ok()));
    }
    let (before, seq) = (whole(&journal), journal.seq());
    assert_eq!((before.len(), journal.shelf().orders().count()), (8, 400));
    assert_eq!(journal.shelf().net_position()[0].net.to_string(), "39100");
    // the booking again is refused, a late report known
    assert_eq!(journal.take(&events[0]).unwrap().answer, Err(jubafiye::Refusal::InUse));
    assert!(journal.take(&events[1]).unwrap().answer.unwrap().alarms.is_empty());
    drop(journal);
    let mut journal = Journal::open(&path).unwrap();
    assert!(journal.seq() > seq && journal.shelf().orders().count() == 400);
    for events in filled(400..600).chunks(3) {
        assert!(journal
            .drain(events.iter().map(Vec::as_slice))
            .unwrap()
            .iter()
            .all(|taken| taken.answer.is_ok()));
    }
    let after = whole(&journal);
    drop(journal);
    assert!(whole(&Journal::read(&path).unwrap()) == after);
    // an archive that was changed, or lost
    let db = rusqlite::Connection::open(&path).unwrap();
    db.execute("UPDATE archive SET book = zeroblob(65536) WHERE number = 2", []).unwrap();
    drop(db);
    assert!(matches!(Journal::open(&path), Err(Error::Damaged(_))));
    let db = rusqlite::Connection::open(&path).unwrap();
    db.execute("DELETE FROM archive WHERE number = 2", []).unwrap();
    drop(db);
    assert!(matches!(Journal::open(&path), Err(Error::Damaged(_))));
}

#[test]
fn another_version() {
    let path = some("version");
    let db = rusqlite::Connection::open(&path).unwrap();
    db.pragma_update(None, "user_version", 9).unwrap();
    drop(db);
    assert!(matches!(Journal::open(&path), Err(Error::Version { found: 9, wanted: 2 })));
    let db = rusqlite::Connection::open(&path).unwrap();
    db.pragma_update(None, "user_version", 1).unwrap();
    db.execute("UPDATE snapshot SET layout = 7", []).unwrap();
    drop(db);
    assert!(matches!(Journal::open(&path), Err(Error::Version { found: 7, wanted: 1 })));
}

#[test]
fn an_event_that_was_changed() {
    let (path, mut journal) = journal("changed");
    take(&mut journal, BOOKED);
    drop(journal);
    let db = rusqlite::Connection::open(&path).unwrap();
    db.execute("UPDATE event SET record = x'09040000000247'", []).unwrap();
    drop(db);
    assert!(matches!(Journal::open(&path), Err(Error::Damaged(_))));
}

/// The shim, built once.
fn shim() -> &'static Path {
    static SHIM: OnceLock<PathBuf> = OnceLock::new();
    SHIM.get_or_init(|| {
        let shim = Path::new(env!("CARGO_TARGET_TMPDIR")).join(format!("shim-{}.so", std::process::id()));
        let source = Path::new(env!("CARGO_MANIFEST_DIR")).join("tests/shim.c");
        let built =
            Command::new("cc").args(["-shared", "-fPIC", "-o"]).arg(&shim).arg(source).arg("-ldl").status();
        assert!(built.unwrap().success(), "the shim is built with cc");
        shim
    })
}

/// What the command says with the shim under it.
fn stopped(path: &Path, how: &str, at: u64, command: &str) -> String {
    let output = run(path, how, at, command);
    String::from_utf8_lossy(&[output.stdout, output.stderr].concat()).into_owned()
}

/// Runs the command with the shim under it; `take` takes an event that the book refuses.
fn run(path: &Path, how: &str, at: u64, command: &str) -> Output {
    let mut desk = Command::new(env!("CARGO_BIN_EXE_desk"));
    desk.arg(command).arg(path).args(["gateway-cancel", "name=NOBODY"].iter().filter(|_| command == "take"));
    desk.env("LD_PRELOAD", shim()).env("SHIM_DO", how).env("SHIM_AT", at.to_string()).env("SHIM_PATH", path);
    desk.output().unwrap()
}
