//! FIX messages over the linked library, the book's not needed: rooms, refusals, the header's texts, and any bytes.

use jubafiye::fix::{self, Body, Error, Extra, Header};
use jubafiye::{FixedText, OrdStatus, Price, Refusal, RequestKind};

const HEADER: Header<'static> =
    Header { sender: b"GATEWAY", target: b"DESK", sequence: 42, time: b"20261116-12:34:56.789" };

/// A cancel reject about no order: client 7, C2 for C1, Rejected, reason 1 of ours, fixed text 6, to a replace.
const REJECT: &[u8] = b"\x11\x19\x20\x08\x38\x07\0\x02C2\x02C18\x01\0\0\0\x06\x01\x02";

const TOLD: &[u8] =
    b"8=FIX.4.4\x019=109\x0135=9\x0149=GATEWAY\x0156=DESK\x0134=42\x0152=20261116-12:34:56.789\x01\
    37=NONE\x0111=C2\x0141=C1\x0139=8\x01102=1\x0158=unknown order\x01434=2\x0110=119\x01";

#[test]
fn a_message_is_written_and_read() {
    assert_eq!(fix::to_vec(REJECT, &HEADER).as_deref(), Ok(TOLD));
    let read = fix::read(TOLD).expect("a message");
    assert_eq!(read.header, HEADER);
    let Body::CancelReject(reject) = &read.body else { panic!("a cancel reject") };
    assert_eq!((reject.order_id, reject.cl_ord_id, reject.orig_cl_ord_id), (None, &b"C2"[..], &b"C1"[..]));
    assert_eq!((reject.status, reject.reason), (OrdStatus::Rejected, 1));
    assert_eq!((reject.text, reject.response_to), (&b"unknown order"[..], RequestKind::Replace));
    let tags: Vec<u32> = read.fields.iter().map(|field| field.0).collect();
    assert_eq!(tags, [8, 9, 35, 49, 56, 34, 52, 37, 11, 41, 39, 102, 58, 434, 10]);
    assert_eq!((read.fields.get(37), read.fields.get(60)), (Some(&b"NONE"[..]), None));
}

#[test]
fn each_room_up_to_the_length_and_past_it() {
    for room in 0..TOLD.len() + 20 {
        let mut out = vec![0xA5; room];
        let written = fix::write(REJECT, &HEADER, &mut out).map(<[u8]>::to_vec);
        if room < TOLD.len() {
            assert_eq!(written, Err(Refusal::Room));
            assert!(out.iter().all(|&byte| byte == 0xA5));
        } else {
            assert_eq!(written.as_deref(), Ok(TOLD));
            assert!(out.starts_with(TOLD) && out[TOLD.len()..].iter().all(|&byte| byte == 0xA5));
        }
    }
}

#[test]
fn each_refusal() {
    assert_eq!(fix::to_vec(b"", &HEADER), Err(Refusal::Record));
    assert_eq!(fix::to_vec(&REJECT[1..], &HEADER), Err(Refusal::Record));
    let mut unlisted = REJECT.to_vec();
    unlisted[13] = b'9';
    assert_eq!(fix::to_vec(&unlisted, &HEADER), Err(Refusal::Range));
    for text in [&b""[..], b"a\x1fb", b"\n"] {
        for header in [
            Header { sender: text, ..HEADER },
            Header { target: text, ..HEADER },
            Header { time: text, ..HEADER },
        ] {
            assert_eq!(fix::to_vec(REJECT, &header), Err(Refusal::Text));
            assert_eq!(fix::to_vec(&unlisted, &header), Err(Refusal::Range));
            assert_eq!(fix::write(REJECT, &header, &mut []), Err(Refusal::Text));
        }
    }
    let odd = Header { sender: b"a=b", target: b"\xff\x7f ", ..HEADER };
    let message = fix::to_vec(REJECT, &odd).expect("any bytes from 32 on");
    assert_eq!(fix::read(&message).map(|read| read.header), Ok(odd));
}

/// A report with every field that it may have, each as long as it may be.
fn longest() -> Vec<u8> {
    let bits = [0, 2, 3, 4, 6, 7, 8, 9, 10, 11, 12, 13, 14, 16, 17, 19, 20, 24, 25, 26, 28, 31];
    let map: u32 = bits.iter().map(|bit| 1 << bit).sum();
    let text = |length: u8| [vec![length], vec![b'x'; length.into()]].concat();
    let qty = 1_000_000_000_000_u64.to_le_bytes().to_vec();
    let price = 100_000_000_000_000_u64.to_le_bytes().to_vec();
    let fields = [
        vec![0; 2],
        text(20),
        text(32),
        text(32),
        text(16),
        b"12".to_vec(),
        qty.clone(),
        price.clone(),
        b"1F1".to_vec(),
        qty.clone(),
        qty.clone(),
        price,
        vec![255; 4],
        text(64),
        qty,
        vec![255; 8],
        vec![255; 16],
        vec![2, 3],
    ];
    [vec![16], map.to_le_bytes().to_vec(), fields.concat()].concat()
}

#[test]
fn the_room_of_a_header_holds_any_message() {
    for length in [1, 21, 300] {
        let text = vec![b'x'; length];
        let header = Header { sender: &text, target: &text, sequence: u64::MAX, time: &text };
        for record in [REJECT, &longest()] {
            let message = fix::to_vec(record, &header).expect("the room is enough");
            assert_eq!(fix::read(&message).map(|read| read.header), Ok(header));
        }
        let message = fix::to_vec(&longest(), &header).expect("the room is enough");
        assert!((400 + 3 * length..=header.room()).contains(&message.len()));
        let Ok(Body::Report(report)) = fix::read(&message).map(|read| read.body) else { panic!("a report") };
        assert_eq!(
            (report.exec_seq, report.last_px, report.reason),
            (u64::MAX, Price(u128::MAX), Some(u32::MAX))
        );
    }
}

/// Where the text of [`longest`] stands: behind kind and map, client, four texts, eight codes and numbers, and the reason.
const TEXT: std::ops::Range<usize> = 161..225;

#[test]
fn a_text_that_fix_does_not_carry_is_cleaned_and_nothing_else() {
    let plain = longest();
    assert_eq!((plain[TEXT.start - 1], &plain[TEXT]), (64, &[b'x'; 64][..]));
    assert_eq!(fix::with_clean_text(&plain), plain);
    for byte in 0..=u8::MAX {
        let mut said = plain.clone();
        said[TEXT.start] = byte;
        said[TEXT.end - 1] = byte;
        let cleaned = fix::with_clean_text(&said);
        if byte >= 32 {
            assert_eq!(cleaned, said);
            continue;
        }
        assert_eq!(fix::to_vec(&said, &HEADER), Err(Refusal::Text));
        let mut blank = plain.clone();
        blank[TEXT.start] = b' ';
        blank[TEXT.end - 1] = b' ';
        assert_eq!(cleaned, blank);
        let message = fix::to_vec(&cleaned, &HEADER).expect("a message");
        let Ok(Body::Report(report)) = fix::read(&message).map(|read| read.body) else { panic!("a report") };
        assert_eq!(report.text, Some(&blank[TEXT]));
    }
}

#[test]
fn only_a_text_is_cleaned() {
    let mut named = longest();
    named[30] = 7;
    assert_eq!(fix::with_clean_text(&named), named, "a ClOrdID goes back as it came");
    assert_eq!(fix::with_clean_text(REJECT), REJECT, "a fixed text is a number");
    for end in 0..TEXT.end {
        let mut cut = longest()[..end].to_vec();
        cut.iter_mut().skip(TEXT.start).for_each(|byte| *byte = 1);
        assert_eq!(fix::with_clean_text(&cut), cut, "no record");
    }
    let mut numbers = Numbers(2);
    for length in (0..40).chain([300]).cycle().take(5_000) {
        let bytes = numbers.bytes(length);
        assert_eq!(fix::with_clean_text(&bytes).len(), bytes.len());
    }
}

#[test]
fn a_session_adds_fields() {
    let told = |extras: &[Extra<'_>]| fix::with_extras(TOLD, extras).map(|message| message.to_vec());
    assert_eq!(told(&[]).as_deref(), Ok(TOLD));
    for nowhere in [8, 9, 10, 31] {
        assert_eq!(told(&[Extra { behind: nowhere, tag: 97, value: b"Y" }]).as_deref(), Ok(TOLD));
    }
    let extras = [
        Extra { behind: 52, tag: 43, value: b"Y" },
        Extra { behind: 52, tag: 122, value: b"20261116-12:34:50" },
        Extra { behind: 434, tag: 60, value: b"20261116-12:34:56" },
    ];
    let message = told(&extras).expect("a message");
    let text = String::from_utf8(message.clone()).expect("a text").replace('\x01', "|");
    let body = "35=9|49=GATEWAY|56=DESK|34=42|52=20261116-12:34:56.789|43=Y|122=20261116-12:34:50|37=NONE|11=C2|41=C1|\
        39=8|102=1|58=unknown order|434=2|60=20261116-12:34:56|";
    let (front, sum) = text.rsplit_once("10=").expect("a checksum");
    assert_eq!(front, format!("8=FIX.4.4|9={}|{body}", body.len()));
    let right = message[..front.len()].iter().map(|&byte| u32::from(byte)).sum::<u32>() % 256;
    assert_eq!(sum, format!("{right:03}|"));
    assert_eq!(fix::read(&message), Err(Error::Refused(Refusal::Record)));
    assert_eq!(fix::with_extras(&message, &extras), Err(Error::Refused(Refusal::Record)));
}

/// The examples of docs/FIX.md are messages; the one with a field of the session's is none of the library's.
#[test]
fn the_documents_examples_are_messages() {
    let page = include_str!("../../docs/FIX.md");
    let examples: Vec<&str> = page.lines().filter(|line| line.starts_with("8=FIX.4.4|")).collect();
    assert_eq!(examples.len(), 7);
    for example in examples {
        let message = example.replace('|', "\x01");
        let bare = message.replace("\x0197=Y\x01", "\x01");
        let extra = [Extra { behind: 52, tag: 97, value: b"Y" }];
        match fix::read(message.as_bytes()) {
            Ok(read) => assert_eq!(read.fields.get(97), None),
            Err(_) => {
                let body = bare.split_once("\x0135=").expect("a body").1.rsplit_once("10=").expect("a sum").0;
                let length = body.len() + "35=".len();
                let mut written = format!("8=FIX.4.4\x019={length}\x0135={body}").into_bytes();
                let sum = written.iter().fold(0_u8, |sum, &byte| sum.wrapping_add(byte));
                written.extend(format!("10={sum:03}\x01").bytes());
                assert_eq!(fix::with_extras(&written, &extra).as_deref(), Ok(message.as_bytes()));
            }
        }
    }
}

/// The words of docs/DIFFERENCES.md: those that are written, and the Rust's.
#[test]
fn fixed_texts_are_written_in_the_documents_words() {
    let page = include_str!("../../docs/DIFFERENCES.md");
    let mut seen = 0;
    for line in page.lines().filter_map(|line| line.strip_prefix("| text ")) {
        let cells: Vec<&str> = line.split('|').map(|cell| cell.trim().trim_matches('`')).collect();
        let number: u8 = cells[0].parse().expect("a number");
        let mut record = REJECT.to_vec();
        record[18] = number;
        let message = fix::to_vec(&record, &HEADER).expect("a message");
        let read = fix::read(&message).expect("what was written");
        assert_eq!(read.fields.get(58), Some(cells[1].as_bytes()));
        assert_eq!(FixedText::from_number(number).map(|text| text.to_string()).as_deref(), Some(cells[2]));
        seen += 1;
    }
    assert_eq!(seen, 11);
}

/// Numbers that are the same each time (splitmix64).
struct Numbers(u64);

impl Numbers {
    fn next(&mut self) -> u64 {
        self.0 = self.0.wrapping_add(0x9E37_79B9_7F4A_7C15);
        let a = (self.0 ^ self.0 >> 30).wrapping_mul(0xBF58_476D_1CE4_E5B9);
        let b = (a ^ a >> 27).wrapping_mul(0x94D0_49BB_1331_11EB);
        b ^ b >> 31
    }

    fn bytes(&mut self, length: usize) -> Vec<u8> {
        (0..length).map(|_| self.next() as u8).collect()
    }
}

#[test]
fn any_bytes() {
    let mut numbers = Numbers(1);
    for length in (0..40).chain([100, 1_000]).cycle().take(5_000) {
        let bytes = numbers.bytes(length);
        assert_eq!(fix::read(&bytes), Err(Error::Refused(Refusal::Record)));
        assert_eq!(fix::to_vec(&bytes, &HEADER), Err(Refusal::Record));
        assert!(fix::records(&bytes).is_err());
    }
}

#[test]
fn a_changed_byte_is_refused_or_read_as_it_is() {
    for at in 0..TOLD.len() {
        for byte in 0..=u8::MAX {
            let mut changed = TOLD.to_vec();
            changed[at] = byte;
            let taken = fix::read(&changed).is_ok();
            // One changed byte changes the sum.
            assert_eq!(taken, byte == TOLD[at]);
        }
    }
}

#[test]
fn the_header_for_c_has_the_same_numbers() {
    let header = include_str!("../include/fix.h");
    let refusals = [
        ("RECORD", Refusal::Record),
        ("RANGE", Refusal::Range),
        ("TEXT", Refusal::Text),
        ("ROOM", Refusal::Room),
    ];
    let defined: Vec<&str> =
        header.lines().filter_map(|line| line.trim().strip_prefix("JUBAFIYE_FIX_REFUSED_")).collect();
    for (name, refusal) in refusals {
        let number = format!("{name} = {}", refusal.number());
        assert!(defined.iter().any(|line| line.split([',', ' ']).take(3).eq(number.split(' '))), "{number}");
    }
    assert_eq!(defined.len(), refusals.len());
}
