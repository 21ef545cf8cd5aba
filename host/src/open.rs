//! The open quantity of a client, and how an older book, without it, is carried over. Rests on entries, layout, book,
//! chain and explain.

use crate::book::Book;
use crate::chain::write_origins;
use crate::decimal::Qty;
use crate::entries::{self, BookBytes};
use crate::error::Refusal;
use crate::explain::leaves;
use crate::layout::{self, OPEN};

impl Book {
    /// A client's open quantity: the sum of what its orders leave open, 0 if it has none. The book keeps its rules, so that
    /// the library refuses nothing; should one of another version do so, the quantity is 0.
    ///
    /// ```
    /// # use jubafiye::{Book, Booking, Event, OrdType, Qty, Side};
    /// let mut book = Book::new(10_000);
    /// # let booking = |name, qty| Event::Book(Booking {
    /// #     client: 7, venue: 3, name, cl_ord_id: name, symbol: b"WHEATH27", side: Side::Buy,
    /// #     ord_type: OrdType::Market, qty: Qty::units(qty), price: None, time_in_force: None,
    /// # });
    /// # book.take(&booking(b"G1", 100))?;
    /// # book.take(&booking(b"G2", 20))?;
    /// // client 7 has booked orders of 100 and of 20
    /// assert_eq!(book.open_quantity(7), Qty::units(120));
    /// assert_eq!(book.open_quantity(8), Qty(0));
    /// # Ok::<(), jubafiye::Error>(())
    /// ```
    pub fn open_quantity(&self, client: u16) -> Qty {
        Qty(entries::open_quantity(self.bytes(), client).unwrap_or_default())
    }

    /// A book from the bytes of one that was stored **before** books had open quantities (docs/changes/04.md). Its other bytes are
    /// right as they are, but if the book has a live order, [`Book::from_bytes`] refuses it, since the sums are not there.
    /// Here each client's sum is worked out from its orders and written; so is the link to the request that an OrigClOrdID names
    /// (docs/changes/09.md); then all rules are asked. What an answered request came to stands nowhere in a book without
    /// outcomes: one that has such a request stays refused.
    ///
    /// Bytes of a book of today come back as they are. Whoever takes a book up after a restart still uses [`Book::from_bytes`]:
    /// it refuses a sum that was damaged, which this function would write anew.
    ///
    /// ```
    /// # use jubafiye::{Book, Booking, Event, OrdType, Qty, Refusal, Side};
    /// # let mut book = Book::new(10_000);
    /// # book.take(&Event::Book(Booking {
    /// #     client: 7, venue: 3, name: b"G1", cl_ord_id: b"C1", symbol: b"WHEATH27", side: Side::Buy,
    /// #     ord_type: OrdType::Market, qty: Qty::units(100), price: None, time_in_force: None,
    /// # })).unwrap();
    /// # let mut stored = book.into_bytes();
    /// # stored[49_408..].fill(0);
    /// // `stored` is an older book, in which client 7 has a live order of 100
    /// assert!(matches!(Book::from_bytes(&stored), Err(Refusal::Book)));
    /// let book = Book::carry_over(&stored)?;
    /// assert_eq!(book.open_quantity(7), Qty::units(100));
    /// # Ok::<(), Refusal>(())
    /// ```
    pub fn carry_over(bytes: &[u8]) -> Result<Self, Refusal> {
        let mut bytes: Box<BookBytes> = Box::<[u8]>::from(bytes).try_into().map_err(|_| Refusal::Book)?;
        write_opens(&mut bytes);
        write_origins(&mut bytes);
        Self::from_bytes(&bytes[..])
    }
}

/// Writes each client's sum at the place of its first order, and no other byte.
fn write_opens(book: &mut BookBytes) {
    let orders: Vec<(u16, u64)> = (0..layout::orders_in_use(book)).map(|index| leaves(book, index)).collect();
    for (index, &(client, _)) in orders.iter().enumerate() {
        if orders.iter().position(|order| order.0 == client) != Some(index) {
            continue;
        }
        let own = orders.iter().filter(|order| order.0 == client);
        let open = own.fold(0, |sum: u64, order| sum.saturating_add(order.1));
        let at = layout::open(book, index).at(OPEN);
        layout::write(book, at, OPEN, open);
    }
}
