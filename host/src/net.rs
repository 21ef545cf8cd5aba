//! The net position: what each client has bought less what it has sold in each symbol. Rests on entries, book and decimal.

use crate::book::Book;
use crate::decimal::Net;
use crate::entries::{self, NET_LINE, NET_LINES, NET_NUMBERS};
use crate::error::Refusal;
use crate::show::shown;

/// The bytes that the lines of the net position need, whatever the book.
///
/// ```
/// use jubafiye::{Book, Refusal, NET_BYTES};
///
/// let mut scratch = [0; jubafiye::NET_SCRATCH];
/// assert!(Book::new(10_000).net_position_into(&mut scratch, &mut [0; NET_BYTES]).is_ok());
/// let short = Book::new(10_000).net_position_into(&mut scratch, &mut [0; NET_BYTES - 1]).err();
/// assert_eq!(short, Some(Refusal::NetBuffers));
/// ```
pub const NET_BYTES: usize = NET_LINES;

/// The numbers that the scratch of the net position needs.
///
/// ```
/// use jubafiye::{Book, Refusal, NET_SCRATCH};
///
/// let mut lines = [0; jubafiye::NET_BYTES];
/// assert!(Book::new(10_000).net_position_into(&mut [0; NET_SCRATCH], &mut lines).is_ok());
/// assert_eq!(Book::new(10_000).net_position_into(&mut [], &mut lines), Err(Refusal::NetBuffers));
/// ```
pub const NET_SCRATCH: usize = NET_NUMBERS;

/// What a client has bought less what it has sold in a symbol: a line of the net position.
///
/// ```
/// use jubafiye::{text::from_text, Book, Net, NetLine};
///
/// let mut book = Book::new(10_000);
/// for line in [
///     "book client=7 venue=3 name=G1 clordid=C1 symbol=WHEATH27 side=sell ordtype=market qty=100",
///     "report venue=3 downstream=G1 exectype=trade ordstatus=partially-filled lastqty=40 lastpx=10 cumqty=40 avgpx=10",
/// ] {
///     drop(book.take_record(&from_text(line)?)?);
/// }
/// let lines: Vec<NetLine> = book.net_position();
/// assert_eq!((lines.len(), lines[0].client, lines[0].net), (1, 7, Net(-400_000)));
/// # Ok::<(), Box<dyn std::error::Error>>(())
/// ```
#[derive(Clone, PartialEq, Eq, Hash)]
#[non_exhaustive]
pub struct NetLine {
    /// The client.
    pub client: u16,
    /// The symbol, which may hold any byte.
    pub symbol: Vec<u8>,
    /// Bought less sold, over all orders, done ones included; a short sale is a sale.
    pub net: Net,
}

shown!(NetLine { client, symbol as text, net });

impl NetLine {
    /// The line at the front of some bytes; none if they are no line.
    ///
    /// ```
    /// use jubafiye::{Net, NetLine};
    ///
    /// let line = NetLine::read(b"\x07\0\x01W\0\0\0\0\0\0\0\0\0\0\0\0\0\0\0\xff\xff\xff\xff\xff\xff\xff\xff").unwrap();
    /// assert_eq!((line.client, &line.symbol[..], line.net), (7, &b"W"[..], Net(-1)));
    /// assert_eq!(NetLine::read(b"no line"), None);
    /// ```
    pub fn read(line: &[u8]) -> Option<Self> {
        let (client, rest) = line.split_first_chunk()?;
        let (length, rest) = rest.split_first()?;
        let (symbol, rest) = rest.split_first_chunk::<16>()?;
        let net = rest.first_chunk()?;
        let symbol = symbol.get(..usize::from(*length))?.to_vec();
        Some(Self { client: u16::from_le_bytes(*client), symbol, net: Net(i64::from_le_bytes(*net)) })
    }
}

impl Book {
    /// The net position: a line for each client and symbol that has an order, by first booking. The book keeps its rules and the
    /// room is enough, so that the library refuses nothing; should one of another version do so, there are no lines.
    ///
    /// ```
    /// # use jubafiye::{Book, Booking, Event, ExecType, Net, OrdStatus, OrdType, Price, Qty, Side, VenueReport};
    /// let mut book = Book::new(10_000);
    /// assert_eq!(book.net_position(), []);
    /// # book.take(&Event::Book(Booking {
    /// #     client: 7, venue: 3, name: b"G1", cl_ord_id: b"C1", symbol: b"WHEATH27", side: Side::SellShort,
    /// #     ord_type: OrdType::Market, qty: Qty::units(100), price: None, time_in_force: None,
    /// # }))?;
    /// # book.take(&Event::VenueReport(VenueReport {
    /// #     venue: 3, downstream: b"G1", exec_type: ExecType::Trade, status: Some(OrdStatus::PartiallyFilled),
    /// #     last_qty: Qty::units(40), last_px: Price::units(10), cum_qty: Qty::units(40), avg_px: Price::units(10),
    /// #     venue_order_id: None, reason: None, text: None,
    /// # }))?;
    /// // client 7 has sold 40 short
    /// let lines = book.net_position();
    /// assert_eq!((lines.len(), lines[0].client, &lines[0].symbol[..]), (1, 7, &b"WHEATH27"[..]));
    /// assert_eq!(lines[0].net, Net(-400_000));
    /// assert_eq!(lines[0].net.to_string(), "-40");
    /// # Ok::<(), jubafiye::Error>(())
    /// ```
    pub fn net_position(&self) -> Vec<NetLine> {
        let (mut scratch, mut lines) = ([0; NET_SCRATCH], [0; NET_BYTES]);
        let lines = self.net_position_into(&mut scratch, &mut lines).unwrap_or_default();
        lines.chunks(NET_LINE).map_while(NetLine::read).collect()
    }

    /// Writes the lines, 27 bytes each ([`NetLine::read`]), to the front of `lines` and gives them back. Nothing is allocated.
    /// A scratch of less than [`NET_SCRATCH`] numbers or lines of less than [`NET_BYTES`] bytes are refused with
    /// [`Refusal::NetBuffers`], whatever the book, and stay as they were; else what the scratch then holds is free.
    ///
    /// ```
    /// use jubafiye::{Book, Refusal, NET_BYTES, NET_SCRATCH};
    ///
    /// let (mut scratch, mut lines) = ([0; NET_SCRATCH], [0; NET_BYTES]);
    /// let book = Book::new(10_000);
    /// assert_eq!(book.net_position_into(&mut scratch, &mut lines)?, b"");
    /// assert_eq!(book.net_position_into(&mut scratch, &mut lines[1..]), Err(Refusal::NetBuffers));
    /// # Ok::<(), Refusal>(())
    /// ```
    pub fn net_position_into<'a>(
        &self,
        scratch: &mut [u64],
        lines: &'a mut [u8],
    ) -> Result<&'a [u8], Refusal> {
        let count = entries::net_position(self.bytes(), scratch, lines)?;
        Ok(lines.get(..count.saturating_mul(NET_LINE)).unwrap_or(lines))
    }
}
