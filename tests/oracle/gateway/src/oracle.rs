//! Child module of the gateway's book: what the harness of docs/SCOPE.md, Comparison, needs of its private parts.
//! Booking stands here since docs/SCOPE.md adds it; all else is the book's own.

use super::*;

/// The book's tables, copied whole: all that an event of docs/SCOPE.md can change.
#[derive(Debug, Clone)]
pub struct Tables {
    orders: HashMap<OrderId, Order>,
    index: HashMap<(ClientId, CompactString), OrderId>,
    used: HashMap<ClientId, usize>,
    downstream: HashMap<CompactString, Sent>,
    unknown_at_venue: HashSet<OrderId>,
}

/// The only time there is: times are left out.
pub const NO_TIME: DateTime<Utc> = DateTime::UNIX_EPOCH;

/// The client with this number.
pub fn client(number: u16) -> ClientId {
    let text = format_compact!("{number}");
    ClientId::from_parts(text.to_string(), text)
}

impl Book {
    /// An empty book whose clients may use `setting` ClOrdIDs, reserve included.
    pub fn with_setting(setting: u32) -> Self {
        let mut book = Self::new(Router::default());
        book.max_cl_ord_ids = setting as usize;
        book.amend_reserve = 0;
        book
    }

    /// Enters an admitted order: PendingNew, cumulative 0, its first downstream ClOrdID its name.
    pub fn enter(
        &mut self,
        name: CompactString,
        client: ClientId,
        venue: VenueId,
        request: OrderRequest,
    ) -> OrderId {
        let id = OrderId(self.next_id);
        self.next_id += 1;
        self.remember(&client, request.cl_ord_id.clone(), id);
        self.downstream.insert(name.clone(), first_request(id, &request, self.now));
        let order = Order {
            id,
            downstream: name.clone(),
            name,
            client,
            venue,
            request,
            amendments: 0,
            status: Status::PendingNew,
            cum_qty: Decimal::ZERO,
            avg_px: Decimal::ZERO,
            risk_price: Decimal::ZERO,
            pending: None,
            exec_seq: 0,
            venue_order_id: None,
            cancel: None,
            gateway_cancel: None,
        };
        self.orders.insert(id, order);
        id
    }

    /// The book's own booking of an admitted order, and what it puts out.
    pub fn book_whole(&mut self, client: ClientId, request: OrderRequest, venue: VenueId) -> Vec<Output> {
        let mut out = Vec::new();
        self.book_order(client, request, venue, &mut out);
        out
    }

    /// The blocked mark and the verdict that the next replace brings.
    pub fn judge_next(&mut self, blocked: bool, verdict: Option<RiskReject>) {
        self.blocked.clear();
        if blocked {
            self.blocked.push(Scope::All);
        }
        self.risk.verdict = verdict;
    }

    pub fn tables(&self) -> Tables {
        Tables {
            orders: self.orders.clone(),
            index: self.index.clone(),
            used: self.used.clone(),
            downstream: self.downstream.clone(),
            unknown_at_venue: self.unknown_at_venue.clone(),
        }
    }

    pub fn set_tables(&mut self, tables: Tables) {
        self.next_id = tables.orders.len() as u64 + 1;
        self.orders = tables.orders;
        self.index = tables.index;
        self.used = tables.used;
        self.downstream = tables.downstream;
        self.unknown_at_venue = tables.unknown_at_venue;
    }

    /// Fills an empty book as a store would: orders, and requests by their downstream ClOrdIDs. What
    /// the Rust derives from them, the index of ClOrdIDs and their counts, is made anew.
    pub fn restore_tables(&mut self, orders: Vec<Order>, requests: Vec<(CompactString, Sent)>) {
        self.next_id = orders.len() as u64 + 1;
        self.orders = orders.into_iter().map(|order| (order.id, order)).collect();
        for (downstream, sent) in requests {
            if sent.origin == Origin::Client {
                let client = self.orders[&sent.order].client.clone();
                self.remember(&client, sent.cl_ord_id.clone(), sent.order);
            }
            self.downstream.insert(downstream, sent);
        }
        self.discard_changes();
    }

    pub fn order_table(&self) -> &HashMap<OrderId, Order> {
        &self.orders
    }

    pub fn order_mut(&mut self, id: OrderId) -> Option<&mut Order> {
        self.orders.get_mut(&id)
    }

    /// Marks a request answered, or not.
    pub fn set_answered(&mut self, downstream: &str, answered: bool) {
        self.downstream.get_mut(downstream).expect("a request").answered = answered;
    }

    /// A request, to be changed from outside.
    pub fn sent_mut(&mut self, downstream: &str) -> Option<&mut Sent> {
        self.downstream.get_mut(downstream)
    }

    pub fn request_table(&self) -> &HashMap<CompactString, Sent> {
        &self.downstream
    }

    /// Whether the gateway's own cancel of the order is at the venue, unanswered.
    pub fn gateway_cancels(&self, order: &Order) -> bool {
        self.gateway_cancel_in_flight(order)
    }

    /// The book's own `check()`: it panics if an invariant is broken.
    pub fn check_invariants(&self) {
        self.check();
    }
}

impl Order {
    /// The order's own `leaves_qty`.
    pub fn leaves(&self) -> Decimal {
        self.leaves_qty()
    }
}

fn first_request(order: OrderId, request: &OrderRequest, sent_at: DateTime<Utc>) -> Sent {
    Sent {
        order,
        origin: Origin::Client,
        cl_ord_id: request.cl_ord_id.clone(),
        orig_cl_ord_id: None,
        kind: None,
        answered: false,
        sent_at,
    }
}
