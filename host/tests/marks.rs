//! Marks over the linked library: where they go, what a return takes, names of every kind, and buffers of any bytes.

use jubafiye::{
    Book, Booking, Error, Event, ExecType, Marks, Message, OrdStatus, OrdType, Price, Qty, Refusal, Side,
    VenueReport, PLACE_BYTES,
};

const NAME: usize = 32;

fn booking(name: &[u8]) -> Event<'_> {
    Event::Book(Booking {
        client: 7,
        venue: 3,
        name,
        cl_ord_id: name,
        symbol: b"W",
        side: Side::Buy,
        ord_type: OrdType::Market,
        qty: Qty::units(100),
        price: None,
        time_in_force: None,
    })
}

fn fill(downstream: &[u8], cum: u64) -> Event<'_> {
    Event::VenueReport(VenueReport {
        venue: 3,
        downstream,
        exec_type: ExecType::Trade,
        status: Some(OrdStatus::PartiallyFilled),
        last_qty: Qty::units(1),
        last_px: Price::units(10),
        cum_qty: Qty::units(cum),
        avg_px: Price::units(10),
        venue_order_id: None,
        reason: None,
        text: None,
    })
}

/// A book with so many orders.
fn booked(orders: usize) -> Book {
    let mut book = Book::new(10_000);
    for number in 0..orders {
        drop(book.take(&booking(format!("N{number}").as_bytes())).unwrap());
    }
    book
}

/// A place's bytes, whatever its name.
fn place(name: &[u8], image: &[u8]) -> Vec<u8> {
    let mut place = name.to_vec();
    place.resize(NAME, 0);
    place.extend(image);
    place
}

fn broken() -> Vec<u8> {
    vec![0xFF; PLACE_BYTES - NAME]
}

/// The book that a return leaves, or the refusal; a refused one has changed nothing.
fn returned(places: &[u8], name: &[u8]) -> Result<Vec<u8>, Refusal> {
    let mut book = booked(1);
    let before = book.as_bytes().to_vec();
    let given = Marks::over(places).return_to(&mut book, name);
    assert!(book.keeps_rules());
    if given.is_err() {
        assert!(book.as_bytes() == before);
    }
    given.map(|()| book.into_bytes())
}

/// Which place a mark goes to, or the refusal; no other byte changes.
fn set(places: &[u8], name: &[u8]) -> Result<usize, Refusal> {
    let book = booked(1);
    let mut marks = Marks::over(places.to_vec());
    let given = marks.set(&book, name);
    let after = marks.into_inner();
    let changed: Vec<usize> = (0..after.len()).filter(|&at| after[at] != places[at]).collect();
    let Some(first) = changed.first() else { return Err(given.expect_err("a set writes the place")) };
    let at = first / PLACE_BYTES;
    assert!(changed.iter().all(|byte| byte / PLACE_BYTES == at));
    assert!(after[at * PLACE_BYTES..][..PLACE_BYTES] == place(name, book.as_bytes()));
    given.map(|()| at)
}

#[test]
fn a_return_gives_back_the_book_that_was_marked() -> Result<(), Error> {
    let (mut book, mut marks) = (booked(3), Marks::new(2));
    let marked = book.clone();
    marks.set(&book, "before")?;
    let [told, again] = {
        let told = book.take(&fill(b"N0", 40))?;
        drop(book.take(&booking(b"LATER"))?);
        marks.set(&book, "after")?;
        marks.return_to(&mut book, "before")?;
        assert!(book.as_bytes() == marked.as_bytes());
        // The name and the ClOrdID are unused again, and so is the report's number.
        drop(book.take(&booking(b"LATER"))?);
        [told, book.take(&fill(b"N0", 70))?]
    };
    let report = |answer: &jubafiye::Answer| match &answer.messages[..] {
        [Message::Report(report)] => (report.exec_seq, report.last_qty, report.cum_qty),
        _ => panic!("one report"),
    };
    assert_eq!(report(&told), (1, Qty::units(40), Qty::units(40)));
    assert_eq!(report(&again), (1, Qty::units(70), Qty::units(70)));
    assert_eq!(marks.names(), ["before", "after"]);
    Ok(())
}

#[test]
fn a_mark_goes_to_the_first_place_of_its_name_else_to_the_first_free_one() {
    let (image, other) = (booked(2).into_bytes(), booked(0).into_bytes());
    let free_first = [place(b"", &image), place(b"A", &other), place(b"A", &image)].concat();
    assert_eq!((set(&free_first, b"A"), set(&free_first, b"B")), (Ok(1), Ok(0)));
    let damaged = [place(b"A", &broken()), place(b"A", &image), place(b"", &broken())].concat();
    assert_eq!((set(&damaged, b"A"), set(&damaged, b"B")), (Ok(0), Ok(2)));
    let nobodys =
        [place(b"A\0B", &image), place(b"SEVENTEENletters1", &image), place(b"\0A", &image)].concat();
    assert_eq!(set(&nobodys, b"A"), Err(Refusal::NoPlace));
    assert_eq!(Marks::over(nobodys).names(), [""; 0]);
}

#[test]
fn a_return_takes_the_first_image_of_its_name_that_keeps_the_rules() {
    let (image, other) = (booked(2).into_bytes(), booked(3).into_bytes());
    let damaged = [place(b"A", &broken()), place(b"A", &image), place(b"A", &other)].concat();
    assert!(returned(&damaged, b"A") == Ok(image.clone()));
    assert!(returned(&damaged, b"a") == Err(Refusal::NoMark));
    assert_eq!(Marks::over(&damaged[..]).names(), ["A"]);
    let nobodys = [place(b"A\0B", &image), place(b"", &image), place(b"AB", &image)].concat();
    assert!(returned(&nobodys, b"A") == Err(Refusal::NoMark));
    assert_eq!((Marks::over(&nobodys[..]).names(), Marks::over(&nobodys[..]).free()), (vec!["AB"], 1));
}

#[test]
fn a_last_part_is_no_place() {
    let whole = place(b"A", &booked(2).into_bytes());
    for length in [0, 1, NAME, PLACE_BYTES - 1] {
        let part = &whole[..length];
        assert_eq!(set(part, b"A"), Err(Refusal::NoPlace));
        assert!(returned(part, b"A") == Err(Refusal::NoMark));
        let buffer = [&place(b"", &broken())[..], part].concat();
        assert_eq!((set(&buffer, b"A"), Marks::over(&buffer[..]).places()), (Ok(0), 1));
    }
}

#[test]
fn names() {
    let room = vec![0; PLACE_BYTES];
    for name in ["A", "z", "0", "NONE", "SIXTEENletters16"] {
        assert_eq!(set(&room, name.as_bytes()), Ok(0), "{name}");
        let mut marks = Marks::new(1);
        assert_eq!((marks.set(&booked(0), name), marks.names()), (Ok(()), vec![name]));
    }
    let long = [b'A'; 257];
    let wrong = [&b""[..], b"SEVENTEENletters1", b"A\0", b"\0", b"a b", b"a-b", b"\xc4", &[0; NAME], &long];
    for name in wrong {
        assert_eq!(set(&room, name), Err(Refusal::MarkName));
        assert!(returned(&room, name) == Err(Refusal::MarkName));
    }
}

#[test]
fn a_buffer_is_owned_or_lent_and_taken_up_again() -> Result<(), Refusal> {
    let (book, mut stored) = (booked(2), vec![0; 2 * PLACE_BYTES + 5]);
    Marks::over(&mut stored).set(&book, "A")?;
    Marks::over(&mut stored[..]).set(&book, "B")?;
    let mut marks = Marks::over(stored);
    assert_eq!(marks.set(&book, "C"), Err(Refusal::NoPlace));
    assert_eq!(format!("{marks:?}"), "Marks { places: 2, names: [\"A\", \"B\"] }");
    let mut other = booked(5);
    marks.return_to(&mut other, "B")?;
    assert!(other.as_bytes() == book.as_bytes());
    assert_eq!((marks.places(), marks.free(), marks.as_bytes().len()), (2, 0, 2 * PLACE_BYTES + 5));
    Ok(())
}

#[test]
fn refusals_have_their_texts() {
    let texts = [Refusal::MarkName, Refusal::NoMark, Refusal::NoPlace].map(|refusal| refusal.to_string());
    assert_eq!(texts[0], "refused with 13: a mark's name is not 1 to 16 letters or digits");
    assert_eq!(texts[1], "refused with 14: no mark of that name has an image that keeps the rules");
    assert_eq!(texts[2], "refused with 15: no place is free for a new mark");
}

/// Whatever bytes a buffer has, nothing panics, and a book that is returned to keeps its rules.
#[test]
fn buffers_of_any_bytes() {
    let mut number = 1_u64;
    let mut byte = || {
        number = number.wrapping_mul(6_364_136_223_846_793_005).wrapping_add(1_442_695_040_888_963_407);
        (number >> 56) as u8
    };
    for round in 0..40 {
        let length = [0, 31, PLACE_BYTES, 2 * PLACE_BYTES + 100][round % 4];
        let mut buffer: Vec<u8> = (0..length).map(|_| byte()).collect();
        for at in (0..length).step_by(PLACE_BYTES) {
            if let (true, Some(name)) = (byte() % 2 == 0, buffer.get_mut(at..at + NAME)) {
                name.fill(0);
                name[0] = b'A' + byte() % 2;
            }
        }
        let mut marks = Marks::over(buffer.clone());
        assert!(marks.names().iter().all(|name| name.len() <= 16));
        let mut book = booked(1);
        let _ = marks.return_to(&mut book, "A");
        let _ = marks.set(&book, "B");
        assert!(book.keeps_rules() && marks.into_inner().len() == buffer.len());
    }
}
