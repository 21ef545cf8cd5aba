//! One self-contained page for the clerk: what is to be looked at, the net position, and each order with its line of time.

use std::error::Error;
use std::fmt::Write;

use jubafiye::{Alarm, Event, Message, Order, Shelf};

use super::day::{Day, Step};

/// What a mark on a line of time says.
#[derive(Clone, Copy, PartialEq, Eq)]
enum Mark {
    Asked,
    Booked,
    Sent,
    Told,
    Filled,
    Refused,
    Alarm,
}

impl Mark {
    const ALL: [Self; 7] =
        [Self::Asked, Self::Booked, Self::Sent, Self::Told, Self::Filled, Self::Refused, Self::Alarm];

    fn word(self) -> &'static str {
        match self {
            Self::Asked => "event",
            Self::Booked => "booked",
            Self::Sent => "sent",
            Self::Told => "told",
            Self::Filled => "filled",
            Self::Refused => "refused",
            Self::Alarm => "alarm",
        }
    }

    /// The height at which its shape stands: what was sent above the line, what was told below it.
    fn middle(self) -> i32 {
        match self {
            Self::Asked | Self::Booked | Self::Alarm => 18,
            Self::Sent => 6,
            Self::Told | Self::Filled | Self::Refused => 30,
        }
    }

    /// Its shape at a place: each differs without its colour too.
    fn shape(self, x: f64) -> String {
        let (left, right) = (x - 5.0, x + 5.0);
        let class = self.word();
        match self {
            Self::Asked => format!("<line class=\"{class}\" x1=\"{x}\" x2=\"{x}\" y1=\"14\" y2=\"22\"/>"),
            Self::Booked => {
                format!("<rect class=\"{class}\" x=\"{left}\" y=\"13\" width=\"10\" height=\"10\"/>")
            }
            Self::Sent => format!("<path class=\"{class}\" d=\"M{left} 11 L{right} 6 L{left} 1Z\"/>"),
            Self::Told => format!("<circle class=\"{class}\" cx=\"{x}\" cy=\"30\" r=\"3.5\"/>"),
            Self::Filled => format!("<circle class=\"{class}\" cx=\"{x}\" cy=\"30\" r=\"6\"/>"),
            Self::Refused => {
                format!("<path class=\"{class}\" d=\"M{left} 25 L{right} 35 M{left} 35 L{right} 25\"/>")
            }
            Self::Alarm => format!("<path class=\"{class}\" d=\"M{x} 10 L{right} 18 L{x} 26 L{left} 18Z\"/>"),
        }
    }
}

/// A line of an order's table.
struct Line {
    seq: u64,
    mark: Mark,
    text: String,
}

/// Text that stands in a page as it is.
fn plain(text: &str) -> String {
    text.replace('&', "&amp;").replace('<', "&lt;").replace('>', "&gt;").replace('"', "&quot;")
}

fn bytes(text: &[u8]) -> String {
    String::from_utf8_lossy(text).replace(char::is_control, " ")
}

/// The page of a day.
pub fn page(day: &Day, title: &str) -> Result<String, Box<dyn Error>> {
    let mut steps = Vec::new();
    let shelf = day.run(None, |step| {
        steps.push(Step {
            seq: step.seq,
            record: step.record.clone(),
            answer: step.answer.clone(),
            order: step.order.clone(),
        });
        Ok(())
    })?;
    let mut page = String::new();
    write!(
        page,
        "<!doctype html>\n<html lang=\"en\"><head><meta charset=\"utf-8\"><title>{}</title>",
        plain(title)
    )?;
    write!(
        page,
        "<meta name=\"viewport\" content=\"width=device-width\"><style>{STYLE}</style></head><body>"
    )?;
    write!(page, "<h1>{}</h1>", plain(title))?;
    summary(&mut page, &shelf, &steps)?;
    look_at(&mut page, &shelf, &steps)?;
    overview(&mut page, &shelf)?;
    net(&mut page, &shelf)?;
    legend(&mut page)?;
    for order in shelf.orders() {
        card(&mut page, &order, &steps)?;
    }
    others(&mut page, &steps)?;
    page.push_str("</body></html>\n");
    Ok(page)
}

fn summary(page: &mut String, shelf: &Shelf<()>, steps: &[Step]) -> Result<(), Box<dyn Error>> {
    let live = shelf.orders().filter(|order| !order.status.is_done()).count();
    let alarms: usize =
        steps.iter().filter_map(|step| step.answer.as_ref().ok()).map(|answer| answer.alarms.len()).sum();
    let refused = steps.iter().filter(|step| step.answer.is_err()).count();
    let tiles = [
        ("orders", shelf.orders().count()),
        ("live", live),
        ("events", steps.len()),
        ("refused events", refused),
        ("alarms", alarms),
    ];
    page.push_str("<ul class=\"tiles\">");
    for (what, count) in tiles {
        let hot = count > 0 && matches!(what, "alarms" | "refused events");
        write!(page, "<li{}><b>{count}</b> {what}</li>", if hot { " class=\"hot\"" } else { "" })?;
    }
    page.push_str("</ul>");
    Ok(())
}

/// What a person has to look at: alarms, cancels that were given up, refused events.
fn look_at(page: &mut String, shelf: &Shelf<()>, steps: &[Step]) -> Result<(), Box<dyn Error>> {
    let mut lines = Vec::new();
    for order in shelf.books().flat_map(|(_, book, _)| book.stuck()) {
        lines.push((
            None,
            format!(
                "The gateway has given up cancelling {}: cancel it at venue {}.",
                bytes(order.name),
                order.venue
            ),
        ));
    }
    for step in steps {
        let of = step.order.as_deref().map(|name| format!("{}: ", bytes(name))).unwrap_or_default();
        match &step.answer {
            Ok(answer) => {
                let told = |alarm: &Alarm| (Some(step.seq), format!("{of}alarm {}, {alarm}", alarm.number()));
                lines.extend(answer.alarms.iter().map(told));
            }
            Err(refusal) => {
                let why = refusal.of_record(&step.record);
                lines.push((Some(step.seq), format!("{of}{} was {why}", words(&step.record))))
            }
        }
    }
    page.push_str("<h2>To be looked at</h2>");
    if lines.is_empty() {
        page.push_str("<p>Nothing.</p>");
        return Ok(());
    }
    page.push_str("<table class=\"look\"><tbody>");
    for (seq, line) in lines {
        let seq = seq.map(|seq| seq.to_string()).unwrap_or_else(|| "now".into());
        write!(page, "<tr><td class=\"n\">{seq}</td><td>{}</td></tr>", plain(&line))?;
    }
    page.push_str("</tbody></table>");
    Ok(())
}

fn overview(page: &mut String, shelf: &Shelf<()>) -> Result<(), Box<dyn Error>> {
    page.push_str("<h2>Orders</h2><div class=\"wide\"><table><thead><tr><th>Order</th><th class=\"n\">Client</th><th>ClOrdID</th><th>Symbol</th><th>Side</th>");
    page.push_str("<th class=\"n\">Ordered</th><th class=\"n\">Price</th><th class=\"n\">Filled</th><th></th><th class=\"n\">Average</th>");
    page.push_str("<th class=\"n\">Leaves</th><th>Status</th></tr></thead><tbody>");
    for order in shelf.orders() {
        let name = plain(&bytes(order.name));
        let price = order.price.map_or_else(|| "market".into(), |price| price.to_string());
        let average = if order.cum_qty.0 > 0 { order.avg_px.to_string() } else { String::new() };
        write!(page, "<tr><td><a href=\"#{name}\">{name}</a></td><td class=\"n\">{}</td>", order.client)?;
        write!(page, "<td>{}</td><td>{}</td>", plain(&bytes(order.cl_ord_id)), plain(&bytes(order.symbol)))?;
        write!(
            page,
            "<td>{}</td><td class=\"n\">{}</td><td class=\"n\">{price}</td>",
            order.side, order.qty
        )?;
        write!(
            page,
            "<td class=\"n\">{}</td><td>{}</td><td class=\"n\">{average}</td>",
            order.cum_qty,
            bar(&order)
        )?;
        write!(page, "<td class=\"n\">{}</td><td>{}</td></tr>", order.leaves_qty(), order.status)?;
    }
    page.push_str("</tbody></table></div>");
    Ok(())
}

/// How much of an order is filled, as a bar.
fn bar(order: &Order<'_>) -> String {
    let part = order.cum_qty.0.saturating_mul(100).checked_div(order.qty.0).unwrap_or(0);
    format!("<span class=\"bar\"><span style=\"width:{part}%\"></span></span>")
}

fn net(page: &mut String, shelf: &Shelf<()>) -> Result<(), Box<dyn Error>> {
    page.push_str(
        "<h2>Net position</h2><table class=\"net\"><thead><tr><th class=\"n\">Client</th><th>Symbol</th>",
    );
    page.push_str("<th class=\"n\">Bought less sold</th></tr></thead><tbody>");
    for line in shelf.net_position() {
        let symbol = plain(&bytes(&line.symbol));
        let net = if line.net.0 == 0 { "0".into() } else { format!("{:+}", line.net) };
        write!(
            page,
            "<tr><td class=\"n\">{}</td><td>{symbol}</td><td class=\"n\">{net}</td></tr>",
            line.client
        )?;
    }
    page.push_str("</tbody></table>");
    Ok(())
}

fn legend(page: &mut String) -> Result<(), Box<dyn Error>> {
    page.push_str("<h2>Each order's line of time</h2><p class=\"legend\">");
    for mark in Mark::ALL {
        let middle = mark.middle() - 8;
        let svg =
            format!("<svg viewBox=\"0 {middle} 16 16\" width=\"16\" height=\"16\">{}</svg>", mark.shape(8.0));
        write!(page, "<span>{svg} {}</span>", mark.word())?;
    }
    page.push_str("</p>");
    Ok(())
}

/// An order: its state, its line of time over the day, and what happened.
fn card(page: &mut String, order: &Order<'_>, steps: &[Step]) -> Result<(), Box<dyn Error>> {
    let name = plain(&bytes(order.name));
    let own = steps.iter().filter(|step| step.order.as_deref() == Some(order.name));
    let lines: Vec<Line> = own.flat_map(lines).collect();
    write!(page, "<section id=\"{name}\"><h3>{name} <small>{}</small></h3>", plain(&state(order)))?;
    strip(page, &lines, steps.len())?;
    table(page, &lines)?;
    page.push_str("</section>");
    Ok(())
}

/// An order's line without its name, which stands before it.
fn state(order: &Order<'_>) -> String {
    let line = order.to_string();
    line.split_once(": ").map_or(line.clone(), |(_, rest)| rest.to_string())
}

fn strip(page: &mut String, lines: &[Line], events: usize) -> Result<(), Box<dyn Error>> {
    let place = |seq: u64| 20.0 + 960.0 * (seq as f64 - 1.0) / (events.max(2) as f64 - 1.0);
    let (first, last) = (lines.first().map_or(1, |line| line.seq), lines.last().map_or(1, |line| line.seq));
    write!(page, "<svg class=\"strip\" viewBox=\"0 0 1000 48\" role=\"img\" aria-label=\"line of time\">")?;
    write!(page, "<line class=\"day\" x1=\"20\" x2=\"980\" y1=\"18\" y2=\"18\"/>")?;
    write!(
        page,
        "<line class=\"life\" x1=\"{:.1}\" x2=\"{:.1}\" y1=\"18\" y2=\"18\"/>",
        place(first),
        place(last)
    )?;
    for line in lines {
        page.push_str(&line.mark.shape((place(line.seq) * 10.0).round() / 10.0));
    }
    write!(page, "<text x=\"{:.1}\" y=\"46\">{first}</text>", place(first))?;
    if last > first {
        write!(page, "<text x=\"{:.1}\" y=\"46\">{last}</text>", place(last))?;
    }
    page.push_str("</svg>");
    Ok(())
}

fn table(page: &mut String, lines: &[Line]) -> Result<(), Box<dyn Error>> {
    page.push_str("<table class=\"time\"><tbody>");
    let mut before = 0;
    for line in lines {
        let seq = if line.seq == before { String::new() } else { line.seq.to_string() };
        let first = if line.seq == before { "" } else { " class=\"first\"" };
        before = line.seq;
        let word = line.mark.word();
        write!(page, "<tr{first}><td class=\"n\">{seq}</td><td><b class=\"tag {word}\">{word}</b></td><td>{}</td></tr>", plain(&line.text))?;
    }
    page.push_str("</tbody></table>");
    Ok(())
}

/// What happened at an event: itself, then what went out and the alarms.
fn lines(step: &Step) -> Vec<Line> {
    let line = |mark, text| Line { seq: step.seq, mark, text };
    let answer = match &step.answer {
        Ok(answer) => answer,
        Err(refusal) => {
            let why = refusal.of_record(&step.record);
            return vec![line(Mark::Refused, format!("{}: {why}", words(&step.record)))];
        }
    };
    let booked = matches!(step.record.first(), Some(1));
    let mut all = vec![line(if booked { Mark::Booked } else { Mark::Asked }, words(&step.record))];
    if let (true, Ok(Event::Book(order))) = (booked, Event::read(&step.record)) {
        all.push(line(Mark::Sent, format!("new order to venue {}: {}", order.venue, bytes(order.name))));
    }
    for message in &answer.messages {
        let mark = match message {
            Message::Report(report) if report.last_qty.0 > 0 => Mark::Filled,
            Message::Report(_) => Mark::Told,
            Message::CancelReject(_) => Mark::Refused,
            _ => Mark::Sent,
        };
        all.push(line(mark, message.to_string()));
    }
    all.extend(
        answer.alarms.iter().map(|alarm| line(Mark::Alarm, format!("alarm {}: {alarm}", alarm.number()))),
    );
    all
}

/// Events that concern no order of the book.
fn others(page: &mut String, steps: &[Step]) -> Result<(), Box<dyn Error>> {
    let lines: Vec<Line> = steps.iter().filter(|step| step.order.is_none()).flat_map(lines).collect();
    if lines.is_empty() {
        return Ok(());
    }
    page.push_str("<section><h3>About no order of the book</h3>");
    table(page, &lines)?;
    page.push_str("</section>");
    Ok(())
}

/// An event in words.
fn words(record: &[u8]) -> String {
    let Ok(event) = Event::read(record) else {
        return format!("a record of {} bytes that is no event", record.len());
    };
    match event {
        Event::Book(order) => {
            let price = order.price.map_or_else(String::new, |price| format!(" {price}"));
            let (symbol, id) = (bytes(order.symbol), bytes(order.cl_ord_id));
            format!(
                "client {} orders {id}: {} {} {symbol}, {}{price}, for venue {}",
                order.client, order.side, order.qty, order.ord_type, order.venue
            )
        }
        Event::Cancel(amend) => format!(
            "client {} cancels: {} for {}",
            amend.client,
            bytes(amend.cl_ord_id),
            bytes(amend.orig_cl_ord_id)
        ),
        Event::Replace(replace) => {
            let price = replace.price.map_or_else(String::new, |price| format!(" at {price}"));
            let (id, orig) = (bytes(replace.amend.cl_ord_id), bytes(replace.amend.orig_cl_ord_id));
            format!("client {} replaces: {id} for {orig}, {}{price}", replace.amend.client, replace.qty)
        }
        Event::VenueReport(report) => {
            let status = report.status.map_or_else(|| "no status".into(), |status| status.to_string());
            let last = if report.last_qty.0 > 0 {
                format!(", last {} at {}", report.last_qty, report.last_px)
            } else {
                String::new()
            };
            let text =
                report.text.map_or_else(String::new, |text| format!(", \u{201c}{}\u{201d}", bytes(text)));
            let (venue, id) = (report.venue, bytes(report.downstream));
            format!(
                "venue {venue} reports on {id}: {}, {status}{last}, cum {}{text}",
                report.exec_type, report.cum_qty
            )
        }
        Event::UnknownAtVenue { venue, downstream } => {
            format!("venue {venue} does not know {}", bytes(downstream))
        }
        Event::CancelReject(reject) => {
            let text =
                reject.text.map_or_else(String::new, |text| format!(", \u{201c}{}\u{201d}", bytes(text)));
            let reason = reject.reason.map_or_else(String::new, |reason| format!(", reason {reason}"));
            format!("venue {} refuses {}{reason}{text}", reject.venue, bytes(reject.downstream))
        }
        Event::SendFailed { venue, downstream, text } => {
            format!("{} could not be sent to venue {venue}: {}", bytes(downstream), bytes(text))
        }
        Event::SendAgain { venue, downstream } => {
            format!("{} may not have been sent to venue {venue}", bytes(downstream))
        }
        Event::GatewayCancel { name } => format!("the gateway is to cancel {}", bytes(name)),
    }
}

const STYLE: &str = "
:root{--ink:#1c2430;--soft:#5b6675;--line:#d5dbe3;--bad:#b3261e;--good:#1b6e3c;--sent:#2457a6}
*{box-sizing:border-box}
html{font-size:15px}body{font:1rem/1.45 system-ui,\"DejaVu Sans\",sans-serif;color:var(--ink);max-width:68rem;margin:2rem auto;padding:0 1.25rem}
td,th{overflow-wrap:anywhere}.wide td{white-space:nowrap}h1{font-size:1.6rem;margin:0 0 .75rem}h2{font-size:1.15rem;margin:2rem 0 .5rem}h3{font-size:1.05rem;margin:0 0 .25rem}
h3 small{font-weight:400;color:var(--soft);font-size:.88rem;margin-left:.5rem}
.tiles{display:flex;flex-wrap:wrap;gap:.6rem;list-style:none;padding:0;margin:0}
.tiles li{border:1px solid var(--line);border-radius:.4rem;padding:.4rem .8rem;color:var(--soft)}
.tiles b{color:var(--ink);font-size:1.2rem;margin-right:.2rem}.tiles .hot,.tiles .hot b{color:var(--bad);border-color:var(--bad)}
table{border-collapse:collapse;width:100%;font-variant-numeric:tabular-nums}
th,td{text-align:left;padding:.22rem .5rem;border-bottom:1px solid var(--line);vertical-align:top}
th{color:var(--soft);font-weight:600;font-size:.85rem}.n{text-align:right;white-space:nowrap}
table.net{width:auto;min-width:24rem}.look td:first-child,.time td:first-child{width:3.5rem;color:var(--soft)}
.time td{border-bottom:0;padding:.12rem .5rem}.time tr.first td{border-top:1px solid var(--line)}.time td:nth-child(2){width:5.5rem}
section{border:1px solid var(--line);border-radius:.4rem;padding:.8rem 1rem;margin:.9rem 0;break-inside:avoid}
.bar{display:inline-block;width:3.2rem;height:.55rem;background:#e6eaf0;border-radius:.3rem;overflow:hidden}.wide{overflow-x:auto}
.bar span{display:block;height:100%;background:var(--good)}
.strip{display:block;width:100%;height:auto;margin:.3rem 0 .4rem}.strip text{font-size:11px;fill:var(--soft);text-anchor:middle}
.legend span{display:inline-flex;align-items:center;gap:.3rem;margin-right:1.1rem;color:var(--soft)}
svg .day{stroke:var(--line);stroke-width:2}svg .life{stroke:var(--soft);stroke-width:2}
svg .event{stroke:var(--soft);stroke-width:2}svg .booked{fill:var(--ink)}svg .sent{fill:var(--sent)}svg .told{fill:#fff;stroke:var(--ink);stroke-width:1.5}
svg .filled{fill:var(--good)}svg .refused{stroke:var(--bad);stroke-width:2.5;fill:none}svg .alarm{fill:#fff;stroke:var(--bad);stroke-width:2.5}
.tag{font-size:.78rem;font-weight:600;color:var(--soft)}.tag.booked{color:var(--ink)}.tag.sent{color:var(--sent)}.tag.filled{color:var(--good)}
.tag.refused,.tag.alarm{color:var(--bad)}a{color:var(--sent);text-decoration:none}
@media print{html{font-size:10.5px}body{margin:0;max-width:none;font-size:1rem}section{border-color:#999;break-inside:auto}tr,svg{break-inside:avoid}h2,h3,.strip,.legend{break-after:avoid}a{color:inherit}*{print-color-adjust:exact;-webkit-print-color-adjust:exact}}
";
