//! A shelf: a book for each client, or for each group of clients, and the archives that its done orders are retired into. Rests on
//! book, retire, page, net, chain and view.

mod batch;
mod concern;
mod shelved;

use std::collections::{BTreeMap, HashMap};
use std::fmt;
use std::sync::Arc;
use std::thread;

use crate::book::Book;
use crate::chain::ChainEntry;
use crate::decimal::{Net, Qty};
use crate::entries::ANSWER_BYTES;
use crate::error::Refusal;
use crate::event::Event;
use crate::net::NetLine;
use crate::page::Page;
use crate::view::Order;

use concern::Concern;
use shelved::{read, Answered, Shelved};

pub use batch::Batch;

/// Books that do not fill: one for each client, or for each key that the host gives clients, with archives for its done orders.
///
/// - **A client's event** goes to the client's book, a venue's and event 9 to the book of the order, by its name: what stands before
///   `-` in the downstream ClOrdID. What concerns no order of the shelf is answered as any book answers it.
/// - **If an order or request finds no room**, the book retires its done orders into its newest archive, into a fresh one if that
///   refuses them, and takes the event again. Only a book whose orders are all live still refuses with [`Refusal::Full`].
/// - **What was retired stays known.** A late report of a retired order, a client's request for one, and a booking with a name
///   or ClOrdID that was retired go to its archive, which is a book and answers them as one: with alarm 5, a reject, or
///   [`Refusal::InUse`]. A name is one order's in all books.
///
/// ```
/// use jubafiye::{Alarm, Booking, Error, Event, ExecType, OrdStatus, Price, Qty, Refusal, Shelf, Side, VenueReport};
///
/// let mut shelf = Shelf::new(100);
/// for number in 0..70 {
///     let name = format!("G{number}");
///     let booking = Booking::new(7, 3, Side::Buy, Qty::units(100), b"WHEATH27");
///     drop(shelf.event(&Event::Book(booking.named(name.as_bytes(), name.as_bytes())))?);
///     let fill = VenueReport::new(3, name.as_bytes(), ExecType::Trade, Qty::units(100), Price::units(10));
///     let fill = fill.status(OrdStatus::Filled).last(Qty::units(100), Price::units(10));
///     assert_eq!(shelf.event(&Event::VenueReport(fill))?.messages.len(), 1);
/// }
/// // 64 orders fit a book: the 65th booking retired those that were filled
/// assert_eq!((shelf.book(&7).unwrap().orders().count(), shelf.archives(&7).len()), (6, 1));
/// assert_eq!(shelf.page().lines().count(), 70);
/// assert_eq!(shelf.net_position()[0].net.to_string(), "7000");
///
/// // G0 was retired: its name stays used, and its venue's late report is known
/// let again = Booking::new(7, 3, Side::Buy, Qty::units(100), b"WHEATH27").named(b"G0", b"G0");
/// assert_eq!(shelf.event(&Event::Book(again)), Err(Error::Refused(Refusal::InUse)));
/// let late = VenueReport::new(3, b"G0", ExecType::Trade, Qty::units(120), Price::units(10));
/// let late = late.status(OrdStatus::Filled).last(Qty::units(20), Price::units(10));
/// assert_ne!(shelf.event(&Event::VenueReport(late))?.alarms, [Alarm::UnknownOrder]);
/// # Ok::<(), Error>(())
/// ```
///
/// A clone shares the archives and the names with what it was made of, until one of them changes: it costs the books.
#[derive(Clone)]
pub struct Shelf<K = u16> {
    setting: u32,
    key: fn(u16) -> K,
    keys: BTreeMap<K, usize>,
    books: Vec<Shelved>,
    /// The book of each order's name.
    names: Arc<HashMap<Vec<u8>, usize>>,
    /// An empty book, which answers what concerns no order of the shelf.
    nobody: Book,
    threads: usize,
    retires: bool,
}

impl Shelf {
    /// A shelf with a book for each client. `setting`: the most ClOrdIDs that a client may use in a book, the reserve included; a
    /// retirement frees those of the orders that it moves.
    /// [`Shelf`] has an example.
    pub fn new(setting: u32) -> Self {
        Shelf::keyed(setting, |client| client)
    }
}

impl<K: Ord> Shelf<K> {
    /// A shelf with a book for each key: all orders of a client stand in one book, and clients of one key share one.
    ///
    /// ```
    /// use jubafiye::{Booking, Event, Qty, Shelf, Side};
    ///
    /// // four books, whoever the clients are
    /// let mut shelf = Shelf::keyed(100, |client| client % 4);
    /// for (client, name) in [(1, b"G1"), (5, b"G2"), (2, b"G3")] {
    ///     let booking = Booking::new(client, 3, Side::Buy, Qty::units(1), b"OATS").named(name, name);
    ///     drop(shelf.event(&Event::Book(booking))?);
    /// }
    /// let orders: Vec<_> = shelf.books().map(|(key, book, _)| (*key, book.orders().count())).collect();
    /// assert_eq!(orders, [(1, 2), (2, 1)]);
    /// # Ok::<(), jubafiye::Error>(())
    /// ```
    pub fn keyed(setting: u32, key: fn(u16) -> K) -> Self {
        let threads = thread::available_parallelism().map_or(1, usize::from);
        let nobody = Book::new(setting);
        let (keys, books, names) = (BTreeMap::new(), Vec::new(), Arc::default());
        Self { setting, key, keys, books, names, nobody, threads, retires: true }
    }

    /// On how many threads [`Shelf::take_all`] runs at most, in place of as many as there are cores.
    ///
    /// ```
    /// let mut shelf = jubafiye::Shelf::new(100).threads(2);
    /// assert_eq!(shelf.take_all(b"").read, 0);
    /// ```
    #[must_use]
    pub fn threads(mut self, threads: usize) -> Self {
        self.threads = threads;
        self
    }

    /// The most ClOrdIDs that a client may use in a book that is made.
    /// ```
    /// assert_eq!(jubafiye::Shelf::new(100).setting(), 100);
    /// ```
    pub fn setting(&self) -> u32 {
        self.setting
    }

    /// Whether the books retire by themselves if they find no room, as they do if nothing is said, or by [`Shelf::retire_all`] alone.
    ///
    /// ```
    /// use jubafiye::{text::from_text, Error, Refusal, Shelf};
    ///
    /// let mut shelf = Shelf::new(100);
    /// shelf.retires(false);
    /// for number in 0..64 {
    ///     let line = format!("book client=7 venue=3 name=G{number} clordid={number} symbol=W side=buy ordtype=market qty=1");
    ///     drop(shelf.take_record(&from_text(&line)?)?);
    /// }
    /// drop(shelf.take_record(&from_text("failed venue=3 downstream=G0 text=down")?)?);
    /// let more = from_text("book client=7 venue=3 name=H clordid=H symbol=W side=buy ordtype=market qty=1")?;
    /// assert_eq!(shelf.take_record(&more), Err(Error::Refused(Refusal::Full)));
    /// shelf.retires(true);
    /// assert!(shelf.take_record(&more).is_ok());
    /// # Ok::<(), Box<dyn std::error::Error>>(())
    /// ```
    pub fn retires(&mut self, by_themselves: bool) {
        self.retires = by_themselves;
        self.books.iter_mut().for_each(|shelved| shelved.retires = by_themselves);
    }

    /// Puts a book with its archives, oldest first, on the shelf: how a shelf is taken up again after a restart, or on the next day.
    /// If the key has a book already, or an order's name is on the shelf, it is refused with [`Refusal::InUse`].
    ///
    /// ```
    /// use jubafiye::{Book, Refusal, Shelf};
    ///
    /// let (mut shelf, stored) = (Shelf::new(100), Book::new(100).into_bytes());
    /// shelf.put(7, Book::from_bytes(&stored)?, Vec::new())?;
    /// assert_eq!(shelf.put(7, Book::new(100), Vec::new()), Err(Refusal::InUse));
    /// assert_eq!(shelf.books().count(), 1);
    /// # Ok::<(), Refusal>(())
    /// ```
    pub fn put(&mut self, key: K, book: Book, archives: Vec<Arc<Book>>) -> Result<(), Refusal> {
        let shelved = Shelved::new(book, archives, self.retires);
        let names: Vec<Vec<u8>> =
            shelved.all().flat_map(|book| book.orders().map(|order| order.name.to_vec())).collect();
        if self.keys.contains_key(&key) || names.iter().any(|name| self.names.contains_key(name)) {
            return Err(Refusal::InUse);
        }
        let index = self.books.len();
        Arc::make_mut(&mut self.names).extend(names.into_iter().map(|name| (name, index)));
        self.books.push(shelved);
        self.keys.insert(key, index);
        Ok(())
    }

    /// Takes an event, as [`Book::take`] does in the book or archive that it goes to.
    /// [`Shelf`] has an example.
    pub fn event(&mut self, event: &Event<'_>) -> Answered {
        self.take_record(&event.record())
    }

    /// Takes an event's record, which may be any bytes.
    ///
    /// ```
    /// use jubafiye::{Error, Refusal, Shelf};
    ///
    /// assert_eq!(Shelf::new(100).take_record(b"no record"), Err(Error::Refused(Refusal::Record)));
    /// ```
    pub fn take_record(&mut self, record: &[u8]) -> Answered {
        let mut answer = [0; ANSWER_BYTES];
        read(self.take_record_into(record, &mut answer))
    }

    /// Takes an event's record and gives back the answer's bytes, at the front of `answer`, as [`Book::take_record_into`] does.
    ///
    /// ```
    /// use jubafiye::{Event, Shelf, ANSWER_BYTES};
    ///
    /// let record = Event::UnknownAtVenue { venue: 3, downstream: b"G1" }.record();
    /// assert_eq!(Shelf::new(100).take_record_into(&record, &mut [0; ANSWER_BYTES])?, [5, 0, 0, 3, 0]);
    /// # Ok::<(), jubafiye::Refusal>(())
    /// ```
    pub fn take_record_into<'a>(&mut self, record: &[u8], answer: &'a mut [u8]) -> Result<&'a [u8], Refusal> {
        let concern = Concern::of(record);
        let index = self.index(&concern);
        let Some((index, shelved)) = index.and_then(|index| Some((index, self.books.get_mut(index)?))) else {
            return self.nobody.take_record_into(record, answer);
        };
        let answered = shelved.take(&concern, record, answer);
        if let (Concern::Booking { name, .. }, Ok(_)) = (concern, answered) {
            Arc::make_mut(&mut self.names).insert(name.to_vec(), index);
        }
        answered
    }

    /// The book that an event goes to; a booking's is made if it is the first of its key.
    fn index(&mut self, concern: &Concern<'_>) -> Option<usize> {
        match *concern {
            Concern::Booking { client, name, .. } => match self.names.get(name) {
                Some(&index) => Some(index),
                None => Some(self.own(client)),
            },
            Concern::Amendment { client, .. } => self.keys.get(&(self.key)(client)).copied(),
            Concern::Order(name) => self.names.get(name).copied(),
            Concern::Nothing => None,
        }
    }

    /// A client's book, which is made if there is none.
    fn own(&mut self, client: u16) -> usize {
        let (books, setting, retires) = (&mut self.books, self.setting, self.retires);
        *self.keys.entry((self.key)(client)).or_insert_with(|| {
            books.push(Shelved::new(Book::new(setting), Vec::new(), retires));
            books.len().saturating_sub(1)
        })
    }

    /// The books with their archives in the keys' order.
    fn all(&self) -> impl Iterator<Item = (&K, &Shelved)> {
        self.keys.iter().filter_map(|(key, &index)| Some((key, self.books.get(index)?)))
    }

    fn of_client(&self, client: u16) -> Option<&Shelved> {
        self.books.get(*self.keys.get(&(self.key)(client))?)
    }

    /// Retires the done orders of every book, and gives how many they were: at the end of a day, before books and archives are
    /// stored.
    ///
    /// ```
    /// use jubafiye::{text::from_text, Shelf};
    ///
    /// let mut shelf = Shelf::new(100);
    /// for line in [
    ///     "book client=7 venue=3 name=G1 clordid=C1 symbol=WHEATH27 side=buy ordtype=market qty=100",
    ///     "book client=8 venue=3 name=G2 clordid=C1 symbol=OATS side=buy ordtype=market qty=20 timeinforce=good-till-cancel",
    ///     "report venue=3 downstream=G1 exectype=trade ordstatus=filled lastqty=100 lastpx=10 cumqty=100 avgpx=10",
    /// ] {
    ///     drop(shelf.take_record(&from_text(line)?)?);
    /// }
    /// assert_eq!(shelf.retire_all(), 1);
    /// // G2 is good till cancelled and stays in its book
    /// let orders: Vec<_> = shelf.books().map(|(_, book, archives)| (book.orders().count(), archives.len())).collect();
    /// assert_eq!(orders, [(0, 1), (1, 0)]);
    /// # Ok::<(), Box<dyn std::error::Error>>(())
    /// ```
    pub fn retire_all(&mut self) -> usize {
        self.books.iter_mut().fold(0, |moved: usize, shelved| moved.saturating_add(shelved.retire()))
    }

    /// Hands the archives out, oldest first for each key, for the host's store; the books stay. From then on the shelf does not
    /// know what they hold: their names and ClOrdIDs are the host's to keep from being used again, and a late report of one of
    /// their orders raises alarm 3.
    ///
    /// ```
    /// use jubafiye::{text::from_text, Shelf};
    ///
    /// let mut shelf = Shelf::new(100);
    /// for line in [
    ///     "book client=7 venue=3 name=G1 clordid=C1 symbol=WHEATH27 side=buy ordtype=market qty=100",
    ///     "report venue=3 downstream=G1 exectype=trade ordstatus=filled lastqty=100 lastpx=10 cumqty=100 avgpx=10",
    /// ] {
    ///     drop(shelf.take_record(&from_text(line)?)?);
    /// }
    /// assert_eq!(shelf.retire_all(), 1);
    /// let archives = shelf.take_archives();
    /// assert_eq!((archives[0].0, archives[0].1[0].orders().count()), (&7, 1));
    /// assert!(shelf.order("G1").is_none() && shelf.archives(&7).is_empty());
    /// # Ok::<(), Box<dyn std::error::Error>>(())
    /// ```
    pub fn take_archives(&mut self) -> Vec<(&K, Vec<Arc<Book>>)> {
        let mut archives: Vec<Vec<Arc<Book>>> = Vec::with_capacity(self.books.len());
        for shelved in std::mem::take(&mut self.books) {
            let Shelved { book, archives: own, .. } = shelved;
            let names = Arc::make_mut(&mut self.names);
            names.retain(|name, &mut index| index != archives.len() || book.order(name).is_some());
            archives.push(own);
            self.books.push(Shelved::new(book, Vec::new(), self.retires));
        }
        let mut taken = |index: usize| archives.get_mut(index).map(std::mem::take).unwrap_or_default();
        self.keys.iter().map(|(key, &index)| (key, taken(index))).collect()
    }

    /// The book of a key.
    /// [`Shelf`] has an example.
    pub fn book(&self, key: &K) -> Option<&Book> {
        self.books.get(*self.keys.get(key)?).map(|shelved| &shelved.book)
    }

    /// The archives of a key, oldest first.
    /// [`Shelf`] has an example.
    pub fn archives(&self, key: &K) -> &[Arc<Book>] {
        let shelved = self.keys.get(key).and_then(|&index| self.books.get(index));
        shelved.map_or(&[], |shelved| &shelved.archives[..])
    }

    /// Each key's book and its archives, oldest first, in the keys' order: what a host stores.
    /// [`Shelf::keyed`] has an example.
    pub fn books(&self) -> impl Iterator<Item = (&K, &Book, &[Arc<Book>])> {
        self.all().map(|(key, shelved)| (key, &shelved.book, &shelved.archives[..]))
    }

    /// The order of a name, wherever it stands.
    ///
    /// ```
    /// assert!(jubafiye::Shelf::new(100).order("G1").is_none());
    /// ```
    pub fn order(&self, name: impl AsRef<[u8]>) -> Option<Order<'_>> {
        self.holder(&name)?.order(name)
    }

    /// The book or archive that has the order of a name.
    ///
    /// ```
    /// use jubafiye::{text::from_text, Shelf};
    ///
    /// let mut shelf = Shelf::new(100);
    /// let line = "book client=7 venue=3 name=G1 clordid=C1 symbol=WHEATH27 side=buy ordtype=market qty=100";
    /// drop(shelf.take_record(&from_text(line)?)?);
    /// assert_eq!(shelf.holder("G1").unwrap().requests().count(), 1);
    /// assert!(shelf.holder("G2").is_none());
    /// # Ok::<(), Box<dyn std::error::Error>>(())
    /// ```
    pub fn holder(&self, name: impl AsRef<[u8]>) -> Option<&Book> {
        let name = name.as_ref();
        Some(self.books.get(*self.names.get(name)?)?.holds(name))
    }

    /// All orders, in the order of the page: for each key those of its archives, oldest first, and then its book's.
    ///
    /// ```
    /// assert_eq!(jubafiye::Shelf::new(100).orders().count(), 0);
    /// ```
    pub fn orders(&self) -> impl Iterator<Item = Order<'_>> {
        self.all().flat_map(|(_, shelved)| shelved.all()).flat_map(Book::orders)
    }

    /// The order that a client's ClOrdID was used for, wherever it stands, with its status.
    ///
    /// ```
    /// use jubafiye::{text::from_text, OrdStatus, Shelf};
    ///
    /// let mut shelf = Shelf::new(100);
    /// let line = "book client=7 venue=3 name=G1 clordid=C1 symbol=WHEATH27 side=buy ordtype=market qty=100";
    /// drop(shelf.take_record(&from_text(line)?)?);
    /// assert_eq!(shelf.order_of(7, "C1").unwrap().status, OrdStatus::PendingNew);
    /// assert!(shelf.order_of(8, "C1").is_none());
    /// # Ok::<(), Box<dyn std::error::Error>>(())
    /// ```
    pub fn order_of(&self, client: u16, cl_ord_id: impl AsRef<[u8]>) -> Option<Order<'_>> {
        let id = cl_ord_id.as_ref();
        let book = self.of_client(client)?.holds_id(client, id);
        let used =
            book.requests().find(|request| request.client == client && request.cl_ord_id == Some(id))?;
        book.order(used.order_name)
    }

    /// The chain of a client's ClOrdID, as [`Book::chain`] gives it, wherever its order stands: all requests of an order stand
    /// beside it.
    ///
    /// ```
    /// # use jubafiye::{text::from_text, Shelf};
    /// # let mut shelf = Shelf::new(100);
    /// # for line in [
    /// #     "book client=7 venue=3 name=G1 clordid=C1 symbol=WHEATH27 side=buy ordtype=market qty=100",
    /// #     "report venue=3 downstream=G1 exectype=trade ordstatus=filled lastqty=100 lastpx=10 cumqty=100 avgpx=10",
    /// # ] {
    /// #     drop(shelf.take_record(&from_text(line)?)?);
    /// # }
    /// // client 7 booked C1, which is filled
    /// assert_eq!(shelf.retire_all(), 1);
    /// assert_eq!((shelf.chain(7, "C1").len(), shelf.chain(7, "C2").len()), (1, 0));
    /// # Ok::<(), Box<dyn std::error::Error>>(())
    /// ```
    pub fn chain(&self, client: u16, cl_ord_id: impl AsRef<[u8]>) -> Vec<ChainEntry> {
        let id = cl_ord_id.as_ref();
        self.of_client(client).map_or_else(Vec::new, |own| own.holds_id(client, id).chain(client, id))
    }

    /// A client's open quantity, as [`Book::open_quantity`] gives it.
    ///
    /// ```
    /// assert_eq!(jubafiye::Shelf::new(100).open_quantity(7), jubafiye::Qty(0));
    /// ```
    pub fn open_quantity(&self, client: u16) -> Qty {
        let books = self.of_client(client).into_iter().flat_map(Shelved::all);
        books.map(|book| book.open_quantity(client)).sum()
    }

    /// The evening page over all of it: for each key its archives' lines, oldest first, and then its book's.
    /// [`Shelf`] has an example.
    pub fn page(&self) -> Page {
        let books = self.all().flat_map(|(_, shelved)| shelved.all());
        Page::of(books.flat_map(|book| book.page().into_bytes()).collect())
    }

    /// The net position over all of it: a line for each client and symbol, in the order of the page.
    /// [`Shelf`] has an example.
    pub fn net_position(&self) -> Vec<NetLine> {
        let mut all: Vec<NetLine> = Vec::new();
        let mut places: HashMap<(u16, Vec<u8>), usize> = HashMap::new();
        for line in self.all().flat_map(|(_, shelved)| shelved.all()).flat_map(Book::net_position) {
            let place = *places.entry((line.client, line.symbol.clone())).or_insert(all.len());
            match all.get_mut(place) {
                Some(before) => before.net = Net(before.net.0.saturating_add(line.net.0)),
                None => all.push(line),
            }
        }
        all
    }
}

impl<K: Ord + fmt::Debug> fmt::Debug for Shelf<K> {
    fn fmt(&self, f: &mut fmt::Formatter<'_>) -> fmt::Result {
        let books = self.books().map(|(key, book, archives)| (key, (book.orders().count(), archives.len())));
        f.debug_map().entries(books).finish()
    }
}
