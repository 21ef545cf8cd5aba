//! The net position over the linked library: signs, pairs, a full book, and buffers of every size.

use jubafiye::{
    Book, Booking, Error, Event, ExecType, Message, Net, NetLine, OrdStatus, OrdType, Price, Qty, Refusal,
    Side, VenueReport, NET_BYTES, NET_SCRATCH,
};

fn booking<'a>((client, symbol): (u16, &'a [u8]), side: Side, name: &'a [u8]) -> Event<'a> {
    Event::Book(Booking {
        client,
        venue: 3,
        name,
        cl_ord_id: name,
        symbol,
        side,
        ord_type: OrdType::Market,
        qty: Qty::units(100),
        price: None,
        time_in_force: None,
    })
}

fn report(downstream: &[u8], cum: u64, status: OrdStatus) -> Event<'_> {
    Event::VenueReport(VenueReport {
        venue: 3,
        downstream,
        exec_type: ExecType::Trade,
        status: Some(status),
        last_qty: Qty::units(1),
        last_px: Price::units(10),
        cum_qty: Qty::units(cum),
        avg_px: Price::units(10),
        venue_order_id: None,
        reason: None,
        text: None,
    })
}

/// Books 100 and has so much of it filled, done or not; what the client is told of it, with its sign.
fn trade(
    book: &mut Book,
    pair: (u16, &[u8]),
    side: Side,
    name: &str,
    (cum, status): (u64, OrdStatus),
) -> Result<i64, Error> {
    drop(book.take(&booking(pair, side, name.as_bytes()))?);
    let answer = book.take(&report(name.as_bytes(), cum, status))?;
    let told = answer.messages.iter().map(|message| match message {
        Message::Report(report) if report.side == Side::Buy => report.last_qty.0 as i64,
        Message::Report(report) => -(report.last_qty.0 as i64),
        _ => 0,
    });
    Ok(told.sum())
}

fn lines(book: &Book) -> Vec<(u16, Vec<u8>, Net)> {
    book.net_position().into_iter().map(|line| (line.client, line.symbol, line.net)).collect()
}

fn units(units: i64) -> Net {
    Net(units * 10_000)
}

#[test]
fn bought_less_sold_of_all_orders() -> Result<(), Error> {
    use OrdStatus::{Canceled, Filled, PartiallyFilled};
    let mut book = Book::new(10_000);
    let mut told = [0; 3];
    let trades = [
        (0, (7, &b"W"[..]), Side::Buy, "A", (30, PartiallyFilled)),
        (1, (9, b"W"), Side::SellShort, "B", (100, Filled)),
        (0, (7, b"W"), Side::Sell, "C", (50, Canceled)),
        (2, (7, b"W\0"), Side::Buy, "D", (20, PartiallyFilled)),
        (1, (9, b"W"), Side::Buy, "E", (100, Filled)),
        (0, (7, b"W"), Side::SellShort, "F", (5, Canceled)),
    ];
    for (pair, of, side, name, fill) in trades {
        told[pair] += trade(&mut book, of, side, name, fill)?;
    }
    let right =
        [(7, b"W".to_vec(), units(-25)), (9, b"W".to_vec(), units(0)), (7, b"W\0".to_vec(), units(20))];
    assert_eq!(lines(&book), right);
    // The same from what was told.
    assert_eq!(told.map(Net), [units(-25), units(0), units(20)]);
    Ok(())
}

#[test]
fn sixty_four_pairs() -> Result<(), Error> {
    let mut book = Book::new(10_000);
    let mut right = Vec::new();
    for number in 0..64_u16 {
        let (client, symbol) = (number / 8, format!("S{}", number % 8).into_bytes());
        let side = if number % 2 == 0 { Side::Buy } else { Side::Sell };
        let fill = (number.into(), OrdStatus::PartiallyFilled);
        let net = trade(&mut book, (client, &symbol), side, &format!("N{number}"), fill)?;
        right.push((client, symbol, Net(net)));
        assert_eq!(lines(&book), right);
    }
    assert_eq!(right[63].2, units(-63));
    Ok(())
}

#[test]
fn small_buffers_stay_and_large_ones_keep_their_end() -> Result<(), Error> {
    let mut some = Book::new(10_000);
    trade(&mut some, (7, b"W"), Side::Buy, "A", (30, OrdStatus::PartiallyFilled))?;
    for (book, written) in [(Book::new(10_000), 0), (some, 27)] {
        for length in [0, 1, 27, NET_BYTES - 1, NET_BYTES, NET_BYTES + 1, 2 * NET_BYTES] {
            for count in [0, 1, NET_SCRATCH - 1, NET_SCRATCH, NET_SCRATCH + 1, 2 * NET_SCRATCH] {
                let (mut scratch, mut out) = (vec![0xA5; count], vec![0xA5; length]);
                if count < NET_SCRATCH || length < NET_BYTES {
                    assert_eq!(book.net_position_into(&mut scratch, &mut out), Err(Refusal::NetBuffers));
                    assert!(scratch.iter().all(|&number| number == 0xA5));
                    assert!(out.iter().all(|&byte| byte == 0xA5));
                } else {
                    let lines = book.net_position_into(&mut scratch, &mut out)?;
                    assert_eq!(lines.len(), written);
                    assert!(out[written..].iter().all(|&byte| byte == 0xA5));
                }
            }
        }
    }
    Ok(())
}

#[test]
fn bytes_that_are_no_line_do_not_read() {
    let line = b"\x01\x02\x10ABCDEFGHIJKLMNOP\0\0\0\0\0\0\0\x80";
    let read = NetLine::read(line).map(|line| (line.client, line.symbol, line.net));
    assert_eq!(read, Some((0x0201, b"ABCDEFGHIJKLMNOP".to_vec(), Net(i64::MIN))));
    for end in 0..line.len() {
        assert_eq!(NetLine::read(&line[..end]), None);
    }
    for length in 17..=u8::MAX {
        let mut line = *line;
        line[2] = length;
        assert_eq!(NetLine::read(&line), None);
    }
}
