//! Done orders retired from a book into an archive. Rests on entries and book.

use crate::book::Book;
use crate::entries;
use crate::error::Refusal;

impl Book {
    /// Moves every done order with all its requests to the archive, which is a book too, and gives how many they were. They go
    /// behind what it holds, orders in booking order and requests in the order of sending; the live orders stay, in order, with
    /// theirs. With none done, nothing changes. Page, net position, chain and views of an archive are those of any book.
    ///
    /// If the name or a ClOrdID of a done order stands in the archive it is refused with [`Refusal::InArchive`], if there is no
    /// room for all of them with [`Refusal::FullArchive`]; neither book nor archive has then changed. A fresh archive,
    /// [`Book::new`], gets neither.
    ///
    /// **The book does not know what it has retired.** A name or ClOrdID that was retired must not be used again, a late report of
    /// a retired order raises [`Alarm::UnknownOrder`](crate::Alarm::UnknownOrder), and a mark that was set before a retirement has
    /// the retired orders again. A [`Shelf`](crate::Shelf) sees to the first two.
    ///
    /// ```
    /// use jubafiye::{text::from_text, Book, OrdStatus, Qty};
    ///
    /// let mut book = Book::new(100);
    /// for line in [
    ///     "book client=7 venue=3 name=G1 clordid=C1 symbol=WHEATH27 side=buy ordtype=market qty=100",
    ///     "book client=7 venue=3 name=G2 clordid=C2 symbol=WHEATH27 side=buy ordtype=market qty=20",
    ///     "report venue=3 downstream=G1 exectype=trade ordstatus=filled lastqty=100 lastpx=10 cumqty=100 avgpx=10",
    /// ] {
    ///     drop(book.take_record(&from_text(line)?)?);
    /// }
    /// // G1 is filled, G2 is live
    /// let mut archive = Book::new(100);
    /// assert_eq!(book.retire(&mut archive)?, 1);
    /// assert_eq!(archive.order("G1").unwrap().status, OrdStatus::Filled);
    /// assert_eq!((book.order("G1"), book.orders().count()), (None, 1));
    /// assert_eq!(book.open_quantity(7), Qty::units(20));
    /// assert_eq!((archive.net_position()[0].net.to_string(), archive.chain(7, "C1").len()), ("100".into(), 1));
    /// // nothing more is done
    /// assert_eq!(book.retire(&mut archive)?, 0);
    /// # Ok::<(), Box<dyn std::error::Error>>(())
    /// ```
    pub fn retire(&mut self, archive: &mut Book) -> Result<u32, Refusal> {
        entries::retire(self.bytes_mut(), archive.bytes_mut())
    }
}
