//! The evening page over the linked library: any symbol, a full book, and buffers of every length.

use jubafiye::{Book, Booking, Error, Event, OrdType, Qty, Refusal, Side, PAGE_BYTES};

fn book(name: &[u8], symbol: &[u8], qty: Qty, book: &mut Book) -> Result<(), Error> {
    let booking = Booking {
        client: 7,
        venue: 3,
        name,
        cl_ord_id: name,
        symbol,
        side: Side::Sell,
        ord_type: OrdType::Market,
        qty,
        price: None,
        time_in_force: None,
    };
    book.take(&Event::Book(booking)).map(|_| ())
}

#[test]
fn every_byte_of_a_symbol_prints() -> Result<(), Error> {
    for byte in 0..=u8::MAX {
        let mut day = Book::new(10_000);
        book(b"A", &[byte, b'X', byte], Qty(1), &mut day)?;
        let page = day.page();
        let shown = if byte < 32 { b' ' } else { byte };
        assert_eq!(page.as_bytes().len(), 81);
        assert_eq!(page.as_bytes()[20..24], [shown, b'X', shown, b' ']);
        assert_eq!(page.to_string().chars().count(), 81);
        assert_eq!(page.as_str().is_some(), shown < 128);
        assert!(page.lines().eq([&page.as_bytes()[..80]]));
    }
    Ok(())
}

#[test]
fn a_full_book_and_the_largest_quantity() -> Result<(), Error> {
    let mut day = Book::new(10_000);
    for number in 0..64 {
        book(format!("N{number}").as_bytes(), b"WHEATH27", Qty(1_000_000_000_000), &mut day)?;
    }
    let page = day.page();
    assert_eq!(page.as_bytes().len(), PAGE_BYTES);
    for (number, line) in page.lines().enumerate() {
        let name = format!("N{number}");
        let right = format!("{name:20}{:16}A100000000.0000        0.0000100000000.0000 ", "WHEATH27");
        assert_eq!(line, right.as_bytes());
    }
    Ok(())
}

#[test]
fn a_short_buffer_stays_and_a_long_one_keeps_its_end() -> Result<(), Error> {
    let mut day = Book::new(10_000);
    book(b"A", b"X", Qty::units(1), &mut day)?;
    book(b"B", b"Y", Qty::units(2), &mut day)?;
    for length in 0..200 {
        let mut out = vec![0xA5; length];
        if length < 162 {
            assert_eq!(day.page_into(&mut out), Err(Refusal::PageBuffer));
            assert!(out.iter().all(|&byte| byte == 0xA5));
        } else {
            assert_eq!(day.page_into(&mut out)?, day.page().as_bytes());
            assert!(out[162..].iter().all(|&byte| byte == 0xA5));
        }
    }
    Ok(())
}
