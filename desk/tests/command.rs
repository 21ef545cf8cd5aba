//! The command: what it prints and its exit statuses.

use std::fs;
use std::path::{Path, PathBuf};
use std::process::{Command, Output};

const DAY: &str = "# a morning
book client=7 venue=3 name=G1 clordid=C1 symbol=WHEATH27 side=buy ordtype=limit qty=100 price=10.25
report venue=3 downstream=G1 exectype=trade ordstatus=partially-filled lastqty=40 lastpx=10 cumqty=40 avgpx=10
failed venue=3 downstream=G1 text=\"<b>down & out</b>\"
cancel client=7 clordid=C2 origclordid=C1 symbol=WHEATH27 side=buy
reject venue=3 downstream=G1-1 reason=99 text=\"too late\"
report venue=3 downstream=X exectype=new ordstatus=new lastqty=0 lastpx=0 cumqty=0 avgpx=0
";

fn folder(name: &str) -> PathBuf {
    let folder = Path::new(env!("CARGO_TARGET_TMPDIR")).join(format!("command-{name}"));
    let _ = fs::remove_dir_all(&folder);
    fs::create_dir_all(&folder).unwrap();
    fs::write(folder.join("day.txt"), DAY).unwrap();
    folder
}

/// The exit status, standard output and standard error of a call in a folder.
fn desk(folder: &Path, arguments: &[&str]) -> (i32, String, String) {
    let Output { status, stdout, stderr } =
        Command::new(env!("CARGO_BIN_EXE_desk")).args(arguments).current_dir(folder).output().unwrap();
    let text = |bytes: Vec<u8>| String::from_utf8(bytes).unwrap();
    (status.code().unwrap(), text(stdout), text(stderr))
}

#[test]
fn a_day_as_text_and_as_records() {
    let folder = folder("events");
    let (status, text, _) = desk(&folder, &["events", "day.txt"]);
    assert_eq!((status, text.as_str()), (0, DAY.split_once('\n').unwrap().1));
    fs::write(folder.join("day.bin"), printed(&folder, &["events", "day.txt", "--to", "records"])).unwrap();
    assert_eq!(desk(&folder, &["events", "day.bin"]).1, text);
}

/// What a call prints that is no text.
fn printed(folder: &Path, arguments: &[&str]) -> Vec<u8> {
    Command::new(env!("CARGO_BIN_EXE_desk")).args(arguments).current_dir(folder).output().unwrap().stdout
}

#[test]
fn a_refused_event_is_marked_and_the_text_reads_back() {
    let folder = folder("marked");
    let refused = [DAY.lines().nth(1).unwrap(), "record ff00", "record 090400000002472d"].join("\n");
    fs::write(folder.join("refused.txt"), [DAY, &refused, "\n"].concat()).unwrap();
    let (status, text, _) = desk(&folder, &["events", "refused.txt"]);
    assert_eq!((status, text.lines().count()), (0, DAY.lines().count() - 1 + 3));
    let marked: Vec<(&str, &str)> = text.lines().filter_map(|line| line.split_once(" # ")).collect();
    let why = [
        "refused with 5: the order name or ClOrdID is in use",
        "refused with 3: the record does not read whole, at byte 2: it has not the five bytes of a kind and a map",
        "refused with 4: a field is out of its range, at byte 5: an order name has letters and digits alone and is not NONE",
    ];
    assert_eq!(marked, refused.lines().zip(why).collect::<Vec<_>>());
    assert_eq!(
        desk(&folder, &["replay", "refused.txt"]).1.matches(&format!("\n    {}\n", why[2])).count(),
        1
    );
    fs::write(folder.join("marked.txt"), &text).unwrap();
    assert_eq!(desk(&folder, &["events", "marked.txt"]).1, text);
    let records = |day| printed(&folder, &["events", day, "--to", "records"]);
    assert_eq!(records("marked.txt"), records("refused.txt"));
    assert!(records("marked.txt").ends_with(b"\x02\0\xff\0\x08\0\x09\x04\0\0\0\x02G-"));
}

#[test]
fn the_day_of_the_repository() {
    let folder = folder("repository");
    let day = Path::new(env!("CARGO_MANIFEST_DIR")).join("../crates/evening/stdin");
    let (status, page, _) = desk(&folder, &["page", day.to_str().unwrap()]);
    assert_eq!(status, 0);
    let kept = fs::read_to_string(day.with_file_name("stdout")).unwrap();
    let (ours, theirs): (Vec<&str>, Vec<&str>) = (page.lines().collect(), kept.lines().collect());
    let orders = ours.iter().take_while(|line| line.len() == 80).count();
    assert_eq!((ours[..orders] == theirs[..orders], ours.len()), (true, theirs.len()));
}

#[test]
fn a_book_then_and_what_was_told() {
    let folder = folder("replay");
    let (status, until, _) = desk(&folder, &["replay", "day.txt", "--until", "2"]);
    assert_eq!(status, 0);
    assert!(
        until.contains("\n    report to client 7: C1, trade, partially filled, last 40 at 10"),
        "{until}"
    );
    assert!(until.contains("\nG1: client 7 (C1), venue 3, buy 100 WHEATH27 limit 10.25, partially filled, cum 40 at 10, leaves 60\n"));
    assert!(!until.contains("refusal of a cancel"));
    let (status, whole, _) = desk(&folder, &["replay", "day.txt"]);
    assert!(
        status == 0 && whole.contains("    alarm 3: a venue named an order or request that is not known\n"),
        "{whole}"
    );
    fs::write(folder.join("twice.txt"), [DAY, DAY].concat()).unwrap();
    let (status, twice, _) = desk(&folder, &["replay", "twice.txt"]);
    assert!(status == 1 && twice.contains("    refused with 5: the order name or ClOrdID is in use\n"));
}

#[test]
fn books_are_shown_compared_and_explained() {
    let folder = folder("books");
    let mut book = jubafiye::Book::new(10_000).into_bytes();
    fs::write(folder.join("empty.book"), &book).unwrap();
    assert_eq!(desk(&folder, &["diff", "empty.book", "empty.book"]), (0, String::new(), String::new()));
    let (status, changes, _) = desk(&folder, &["diff", "empty.book", "day.txt"]);
    assert!(status == 1 && changes.starts_with("header: orders in use: 0 -> 1\n"), "{changes}");
    assert_eq!(desk(&folder, &["explain", "empty.book"]).1, "the book keeps its rules\n");
    book[0] = 65;
    fs::write(folder.join("bad.book"), &book).unwrap();
    let (status, said, _) = desk(&folder, &["explain", "bad.book"]);
    assert_eq!(
        (status, said.lines().next()),
        (1, Some("header, orders in use at byte 0: every field is in its range"))
    );
    let (status, _, why) = desk(&folder, &["dump", "bad.book"]);
    assert!(
        status == 3
            && why.starts_with("desk: bad.book: refused with 1: the book does not keep its rules: header"),
        "{why}"
    );
    assert_eq!(
        desk(&folder, &["dump", "empty.book"]).1,
        "0 of 64 orders, 0 of 256 requests, 10000 ClOrdIDs for a client\n"
    );
}

#[test]
fn records_are_explained() {
    let folder = folder("records");
    assert_eq!(
        desk(&folder, &["explain", "--record", "0904000000024731"]),
        (0, "gateway-cancel name=G1\n".into(), String::new())
    );
    let (status, said, _) = desk(&folder, &["explain", "--record", "09040000000247"]);
    assert_eq!(
        (status, said.as_str()),
        (1, "refused with 3: the record does not read whole, at byte 5: it ends within the field name\n")
    );
}

#[test]
fn a_fix_log() {
    let folder = folder("fix");
    let good = "8=FIX.4.4|9=103|35=D|49=US|56=THEM|34=7|52=20261116-12:34:56|11=G1|55=WHEAT|54=1|40=1|38=100.0000|60=20261116-12:34:56|10=067|";
    fs::write(folder.join("good.log"), format!("12:34:56 out {good}\nno message\n")).unwrap();
    let (status, shown, _) = desk(&folder, &["fix", "good.log"]);
    assert_eq!(status, 0, "{shown}");
    assert!(shown.starts_with("line 1: reads\n       8 BeginString      FIX.4.4\n"), "{shown}");
    assert!(shown.ends_with("1 messages, 0 of them do not read\n"));
    let said = |from: &str, to: &str| {
        fs::write(folder.join("bad.log"), good.replace(from, to)).unwrap();
        let (status, shown, _) = desk(&folder, &["fix", "bad.log"]);
        assert_eq!(status, 1);
        shown.lines().next().unwrap().to_string()
    };
    assert_eq!(said("54=1", "54=9"), "line 1: DOES NOT READ: CheckSum(10) is 067, and the bytes have 075");
    assert_eq!(said("9=103", "9=130"), "line 1: DOES NOT READ: BodyLength(9) is 130, and the bytes have 103");
    assert!(said("54=1|40=1", "54=1|4=1|0").starts_with("line 1: DOES NOT READ: "));
    // With BodyLength and CheckSum as they are to be, the field itself is pointed at.
    let framed = |from: &str, to: &str| {
        let body = good.split_once("|35").unwrap().1.rsplit_once("10=").unwrap().0.replace(from, to);
        let whole = format!("8=FIX.4.4|9={}|35{body}", body.len() + 2);
        let sum = whole.bytes().fold(0u8, |sum, byte| sum.wrapping_add(if byte == b'|' { 1 } else { byte }));
        fs::write(folder.join("bad.log"), format!("{whole}10={sum:03}|\n")).unwrap();
        let (status, shown, _) = desk(&folder, &["fix", "bad.log"]);
        (status, shown.lines().next().unwrap().replace("line 1: ", ""))
    };
    assert_eq!(framed("54=1", "54=1"), (0, "reads".into()));
    for (from, to, why) in [
        ("54=1", "54=9", "Side(54) is \"9\", not a side"),
        ("38=100.0000", "38=100", "OrderQty(38) is \"100\", not a quantity with four decimals"),
        ("|54=1", "", "OrdType(40) stands in place of Side(54)"),
        ("54=1|40=1", "40=1|54=1", "OrdType(40) stands in place of Side(54)"),
        ("55=WHEAT", "55=WHEAT|55=WHEAT", "Symbol(55) stands in place of Side(54)"),
        ("=D|", "=AE|", "MsgType(35) AE is none of the book's"),
        ("34=7", "34=x", "MsgSeqNum(34) is \"x\", not a number"),
        ("|38=100.0000", "|38=100.0000|97=Y", "the tag 97 is none that the book's messages have"),
    ] {
        assert_eq!(framed(from, to), (1, format!("DOES NOT READ: {why}")), "{from} {to}");
    }
    fs::write(folder.join("none.log"), "nothing\n").unwrap();
    assert_eq!(desk(&folder, &["fix", "none.log"]).0, 3);
}

#[test]
fn one_page_for_the_clerk() {
    let folder = folder("html");
    assert_eq!(
        desk(&folder, &["html", "day.txt", "-o", "day.html", "--title", "A & B"]),
        (0, String::new(), String::new())
    );
    let page = fs::read_to_string(folder.join("day.html")).unwrap();
    for part in [
        "<title>A &amp; B</title>",
        "id=\"G1\"",
        "too late",
        "alarm 3",
        "<td class=\"n\">+40</td>",
        "&lt;b&gt;down &amp; out&lt;/b&gt;",
    ] {
        assert!(page.contains(part), "{part}");
    }
    assert!(!page.contains("<b>down"), "what a venue says is no markup");
    assert!(
        !page.contains("http://") && !page.contains("https://") && !page.contains("<script"),
        "nothing is fetched"
    );
}

#[test]
fn a_journal_is_made_and_written_and_looked_at() {
    let folder = folder("journal");
    assert_eq!(desk(&folder, &["create", "monday"]), (0, String::new(), String::new()));
    let (status, _, why) = desk(&folder, &["create", "monday"]);
    assert_eq!((status, why.as_str()), (3, "desk: monday is there already, and is not overwritten\n"));
    for line in DAY.lines().skip(1) {
        assert_eq!(desk(&folder, &["take", "monday", line]).0, 0, "{line}");
    }
    let (status, said, _) = desk(&folder, &["take", "monday", DAY.lines().nth(1).unwrap()]);
    assert_eq!((status, said.as_str()), (1, "refused with 5: the order name or ClOrdID is in use\n"));
    let dumped = desk(&folder, &["dump", "monday"]).1;
    assert!(dumped.contains("G1: client 7 (C1), venue 3, buy 100 WHEATH27 limit 10.25"), "{dumped}");
    // Opening it for each event puts what was not handed over again: event 8 stands among the events.
    let events = desk(&folder, &["events", "monday"]).1;
    assert!(events.contains("again venue=3 downstream=G1\n"));
    assert_eq!(events.matches(" # refused with 5: the order name or ClOrdID is in use\n").count(), 1);
    fs::write(folder.join("monday.txt"), &events).unwrap();
    assert_eq!(desk(&folder, &["dump", "monday.txt"]).1, dumped);
}

#[test]
fn an_event_that_does_not_read_is_a_wrong_call() {
    let folder = folder("misused");
    assert_eq!(desk(&folder, &["create", "monday"]).0, 0);
    for (event, why) in [
        ("buy client=7", "\"buy\" is no event: book, cancel, "),
        ("book client=7 venu=3", "\"venu\" is no field"),
        ("again venue=3", "the field downstream is missing"),
        ("gateway-cancel name=G1 client=7", "bit 0 of the map, the field client, is none of this kind"),
        ("again venue=x downstream=G1", "venue: no number up to 65535"),
        ("gateway-cancel name=G-1", "an order name has letters and digits alone"),
        ("record 0g", "the record is not in hexadecimal digits"),
    ] {
        let (status, said, told) = desk(&folder, &["take", "monday", event]);
        assert_eq!((status, said.as_str()), (2, ""), "{event}");
        assert!(told.starts_with(&format!("desk: {why}")), "{told}");
    }
    assert_eq!(desk(&folder, &["events", "monday"]), (0, String::new(), String::new()), "nothing was taken");
    assert_eq!(desk(&folder, &["explain", "--record", "0g"]).0, 2);
    assert_eq!(desk(&folder, &["take", "tuesday", "gateway-cancel name=G1"]).0, 3);
}

#[test]
fn a_refused_record_names_its_field() {
    let folder = folder("field");
    assert_eq!(desk(&folder, &["create", "monday"]).0, 0);
    for (record, why) in [
        ("09040000000247", "refused with 3: the record does not read whole, at byte 5: it ends within the field name\n"),
        ("0904000000002471", "refused with 3: the record does not read whole, at byte 6: 2 bytes stand behind the last field\n"),
        ("090400000000", "refused with 4: a field is out of its range, at byte 5: name has 0 bytes, not 1 to 20\n"),
    ] {
        assert_eq!(desk(&folder, &["take", "monday", "record", record]), (1, why.into(), String::new()));
        assert!(desk(&folder, &["events", "monday"]).1.ends_with(&format!("record {record} # {why}")));
    }
    assert_eq!(desk(&folder, &["html", "monday", "-o", "day.html"]).0, 0);
    let page = fs::read_to_string(folder.join("day.html")).unwrap();
    assert!(page.contains("at byte 5: name has 0 bytes, not 1 to 20</td>"), "{page}");
}

#[test]
fn what_is_not_there_or_no_day_is_said() {
    let folder = folder("wrong");
    fs::write(folder.join("empty"), "").unwrap();
    fs::write(folder.join("cut"), b"\x24\0\x01").unwrap();
    fs::write(folder.join("letter"), "Dear Sir\n").unwrap();
    let why = |file: &str| desk(&folder, &["page", file]);
    assert_eq!(why("empty"), (3, String::new(), "desk: empty: no event stands in it\n".into()));
    assert_eq!(
        why("cut").2,
        "desk: cut: it is no day: after 0 records, 3 bytes are left that are no record\n"
    );
    assert!(why("letter").2.starts_with("desk: letter: line 1: \"Dear\" is no event"));
    assert!(why("other").2.starts_with("desk: other: No such file"));
    assert_eq!(desk(&folder, &["page"]).0, 2);
    assert_eq!(desk(&folder, &["nonsense"]).0, 2);
    let (status, help, _) = desk(&folder, &["--help"]);
    assert!(status == 0 && help.contains("Examples:") && help.contains("Exit status: 0 done"));
    let (status, help, _) = desk(&folder, &["take", "--help"]);
    assert!(status == 0 && help.contains("Events, a line each"), "{help}");
    for line in help.lines().skip_while(|line| !line.starts_with("Events")).skip(1) {
        assert!(jubafiye::text::from_text(line).is_ok(), "{line}");
    }
}

#[test]
fn the_next_day_begins_with_the_live_orders() {
    let folder = folder("next");
    assert_eq!(desk(&folder, &["create", "monday", "--setting", "300"]).0, 0);
    for number in 0..70 {
        let (name, id) = (format!("name=G{number}"), format!("clordid={number}"));
        let terms = ["client=7", "venue=3", "symbol=W", "side=buy", "ordtype=market", "qty=100"];
        let booking = [&["take", "monday", "book", &name, &id][..], &terms].concat();
        assert_eq!(desk(&folder, &booking).0, 0);
        let fill = "exectype=trade ordstatus=filled lastqty=100 lastpx=10 cumqty=100 avgpx=10";
        let downstream = format!("downstream=G{number}");
        let mut report = vec!["take", "monday", "report", "venue=3", &downstream];
        report.extend(fill.split(' '));
        assert_eq!(desk(&folder, &report).0, 0);
    }
    let live = [
        "client=7",
        "venue=3",
        "symbol=W",
        "side=buy",
        "ordtype=market",
        "qty=5",
        "timeinforce=good-till-cancel",
    ];
    let booking = [&["take", "monday", "book", "name=GTC", "clordid=GTC"][..], &live].concat();
    assert_eq!(desk(&folder, &booking).0, 0);
    let (_, page, _) = desk(&folder, &["page", "monday"]);
    assert_eq!((page.lines().count(), page.contains("+7000")), (74, true));
    let (_, dump, _) = desk(&folder, &["dump", "monday"]);
    assert!(dump.starts_with("archive 1, retired: 64 of 64 orders"), "{dump}");
    let (status, _, said) = desk(&folder, &["create", "tuesday", "--from", "monday"]);
    assert_eq!((status, said.contains("were not handed over")), (0, true));
    let (_, dump, _) = desk(&folder, &["dump", "tuesday"]);
    assert!(dump.starts_with("1 of 64 orders, 1 of 256 requests, 300 ClOrdIDs"), "{dump}");
    assert_eq!(desk(&folder, &["take", "tuesday", "gateway-cancel", "name=GTC"]).0, 0);
    assert_eq!(desk(&folder, &["create", "tuesday", "--from", "monday"]).0, 3);
}
