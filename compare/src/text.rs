//! Calls and results as text, and a driver that makes the calls of a sheet. README.md describes both formats.

use crate::{Accepted, Book, Kind, Line, Order, Sharing, Side, Term, Ticket};
use std::fmt;
use std::io::{self, BufRead, Write};
use std::str::FromStr;

/// The first line of a sheet.
#[derive(Clone, Copy, Debug, PartialEq, Eq)]
pub struct Opening {
    pub bid_places: usize,
    pub offer_places: usize,
    pub tick: u32,
    pub series: u32,
}

/// The sharing rule and the lengths of tape and claim sheet, which go with an entry and a return.
#[derive(Clone, Copy, Debug, PartialEq, Eq)]
pub struct Means {
    pub rule: Sharing,
    pub tape: usize,
    pub sheet: usize,
}

#[derive(Clone, Copy, Debug, PartialEq, Eq)]
pub enum Call {
    Enter { means: Means, order: Order },
    Return { means: Means, id: u64, executed: u32 },
    Size { id: u64, firm: u16, size: u32 },
    Cancel { id: u64, firm: u16 },
    Market { side: Side, price: Option<u32> },
}

/// What came of a call.
#[derive(Clone, Debug, PartialEq, Eq)]
pub enum Outcome {
    /// A return for which the driver holds no ticket; the call was not made.
    NoTicket,
    Refused(u8),
    Accepted(Accepted),
}

/// A book, and the route tickets of the orders that are out.
#[derive(Clone, Debug)]
pub struct Driver {
    pub book: Book,
    pub tickets: Vec<Ticket>,
}

impl Driver {
    pub fn open(opening: &Opening) -> Result<Driver, u8> {
        let book = Book::open(opening.bid_places, opening.offer_places, opening.tick, opening.series)?;
        Ok(Driver { book, tickets: Vec::new() })
    }

    pub fn make(&mut self, call: &Call) -> Outcome {
        let result = match call {
            Call::Enter { means, order } => self.book.enter(order, means.rule, means.tape, means.sheet),
            Call::Return { means, id, executed } => {
                let Some(place) = self.tickets.iter().position(|ticket| ticket.id == *id) else {
                    return Outcome::NoTicket;
                };
                let ticket = self.tickets[place];
                let result = self.book.give_back(&ticket, *executed, means.rule, means.tape, means.sheet);
                if result.is_ok() {
                    self.tickets.remove(place);
                }
                result
            }
            Call::Size { id, firm, size } => self.book.size(*id, *firm, *size),
            Call::Cancel { id, firm } => self.book.cancel(*id, *firm),
            Call::Market { side, price } => self.book.market(*side, *price),
        };
        match result {
            Err(number) => Outcome::Refused(number),
            Ok(accepted) => {
                self.tickets.extend(accepted.ticket);
                Outcome::Accepted(accepted)
            }
        }
    }
}

/// Makes the calls of a sheet and writes their results.
pub fn run(input: impl BufRead, mut output: impl Write) -> io::Result<()> {
    let mut lines = input.lines();
    let opening = match lines.next() {
        Some(line) => in_line(1, read_opening(&line?))?,
        None => return Err(unreadable(1, "no opening".to_string())),
    };
    let mut driver = match Driver::open(&opening) {
        Ok(driver) => driver,
        Err(number) => {
            writeln!(output, "refused {number}")?;
            return output.flush();
        }
    };
    writeln!(output, "ok 0")?;
    for (index, line) in lines.enumerate() {
        let call = in_line(index + 2, read_call(&line?))?;
        write!(output, "{}", driver.make(&call))?;
    }
    let bids = driver.book.entries(Side::Buy).len();
    let offers = driver.book.entries(Side::Sell).len();
    writeln!(output, "end {bids} {offers} {}", driver.book.out().len())?;
    output.flush()
}

fn in_line<T>(line: usize, result: Result<T, String>) -> io::Result<T> {
    result.map_err(|what| unreadable(line, what))
}

fn unreadable(line: usize, what: String) -> io::Error {
    io::Error::new(io::ErrorKind::InvalidData, format!("line {line}: {what}"))
}

// ---------------------------------------------------------------------------------------------------------------------
// Reading

pub fn read_opening(line: &str) -> Result<Opening, String> {
    let fields = Fields::of(line, 5)?;
    if fields.word(0) != "open" {
        return Err("a sheet begins with open".to_string());
    }
    Ok(Opening {
        bid_places: fields.number(1)?,
        offer_places: fields.number(2)?,
        tick: fields.number(3)?,
        series: fields.number(4)?,
    })
}

pub fn read_call(line: &str) -> Result<Call, String> {
    match line.split(' ').next() {
        Some("enter") => read_enter(&Fields::of(line, 15)?),
        Some("return") => {
            let fields = Fields::of(line, 6)?;
            Ok(Call::Return { means: fields.means()?, id: fields.number(4)?, executed: fields.number(5)? })
        }
        Some("size") => {
            let fields = Fields::of(line, 4)?;
            Ok(Call::Size { id: fields.number(1)?, firm: fields.number(2)?, size: fields.number(3)? })
        }
        Some("cancel") => {
            let fields = Fields::of(line, 3)?;
            Ok(Call::Cancel { id: fields.number(1)?, firm: fields.number(2)? })
        }
        Some("market") => {
            let fields = Fields::of(line, 3)?;
            Ok(Call::Market { side: fields.side(1)?, price: fields.number_or_none(2)? })
        }
        _ => Err("no such call".to_string()),
    }
}

fn read_enter(fields: &Fields) -> Result<Call, String> {
    let kind = match fields.word(6) {
        "customer" => Kind::Customer,
        "other" => Kind::Other,
        "maker" => Kind::Maker,
        "specialist" => Kind::Specialist,
        word => return Err(format!("no kind: {word}")),
    };
    let term = match fields.word(8) {
        "day" => Term::Day,
        "ioc" => Term::Ioc,
        word => return Err(format!("no term: {word}")),
    };
    let order = Order {
        id: fields.number(4)?,
        firm: fields.number(5)?,
        kind,
        side: fields.side(7)?,
        term,
        price: fields.number_or_none(9)?,
        size: fields.number(10)?,
        least: fields.number(11)?,
        directed: fields.number_or_none(12)?,
        mark: fields.flag(13)?,
        route: fields.flag(14)?,
    };
    Ok(Call::Enter { means: fields.means()?, order })
}

/// The fields of a line; field 0 is the name of the call.
struct Fields<'a>(Vec<&'a str>);

impl<'a> Fields<'a> {
    fn of(line: &'a str, count: usize) -> Result<Fields<'a>, String> {
        let fields: Vec<&str> = line.split(' ').collect();
        if fields.len() == count {
            Ok(Fields(fields))
        } else {
            Err(format!("{} fields instead of {count}", fields.len()))
        }
    }

    fn word(&self, place: usize) -> &'a str {
        self.0[place]
    }

    fn number<N: FromStr>(&self, place: usize) -> Result<N, String> {
        self.word(place).parse().map_err(|_| format!("no number that fits: {}", self.word(place)))
    }

    fn number_or_none<N: FromStr>(&self, place: usize) -> Result<Option<N>, String> {
        if self.word(place) == "-" {
            Ok(None)
        } else {
            self.number(place).map(Some)
        }
    }

    fn flag(&self, place: usize) -> Result<bool, String> {
        match self.word(place) {
            "0" => Ok(false),
            "1" => Ok(true),
            word => Err(format!("neither 0 nor 1: {word}")),
        }
    }

    fn side(&self, place: usize) -> Result<Side, String> {
        match self.word(place) {
            "buy" => Ok(Side::Buy),
            "sell" => Ok(Side::Sell),
            word => Err(format!("no side: {word}")),
        }
    }

    /// Rule, tape and sheet, which stand in front in an entry and a return.
    fn means(&self) -> Result<Means, String> {
        let rule = match self.word(1) {
            "time" => Sharing::ByTime,
            "size" => Sharing::SizeProRata,
            word => return Err(format!("no rule: {word}")),
        };
        Ok(Means { rule, tape: self.number(2)?, sheet: self.number(3)? })
    }
}

// ---------------------------------------------------------------------------------------------------------------------
// Writing

impl fmt::Display for Opening {
    fn fmt(&self, f: &mut fmt::Formatter) -> fmt::Result {
        writeln!(f, "open {} {} {} {}", self.bid_places, self.offer_places, self.tick, self.series)
    }
}

impl fmt::Display for Means {
    fn fmt(&self, f: &mut fmt::Formatter) -> fmt::Result {
        let rule = match self.rule {
            Sharing::ByTime => "time",
            Sharing::SizeProRata => "size",
        };
        write!(f, "{rule} {} {}", self.tape, self.sheet)
    }
}

impl fmt::Display for Call {
    fn fmt(&self, f: &mut fmt::Formatter) -> fmt::Result {
        match self {
            Call::Enter { means, order } => {
                let Order { id, firm, size, least, .. } = order;
                let kind = match order.kind {
                    Kind::Customer => "customer",
                    Kind::Other => "other",
                    Kind::Maker => "maker",
                    Kind::Specialist => "specialist",
                };
                let term = match order.term {
                    Term::Day => "day",
                    Term::Ioc => "ioc",
                };
                let side = side_word(order.side);
                let price = or_dash(order.price);
                let directed = or_dash(order.directed);
                let (mark, route) = (u8::from(order.mark), u8::from(order.route));
                write!(f, "enter {means} {id} {firm} {kind} {side} {term} ")?;
                writeln!(f, "{price} {size} {least} {directed} {mark} {route}")
            }
            Call::Return { means, id, executed } => writeln!(f, "return {means} {id} {executed}"),
            Call::Size { id, firm, size } => writeln!(f, "size {id} {firm} {size}"),
            Call::Cancel { id, firm } => writeln!(f, "cancel {id} {firm}"),
            Call::Market { side, price } => writeln!(f, "market {} {}", side_word(*side), or_dash(*price)),
        }
    }
}

fn side_word(side: Side) -> &'static str {
    match side {
        Side::Buy => "buy",
        Side::Sell => "sell",
    }
}

fn or_dash<N: ToString>(number: Option<N>) -> String {
    number.map_or("-".to_string(), |number| number.to_string())
}

impl fmt::Display for Outcome {
    fn fmt(&self, f: &mut fmt::Formatter) -> fmt::Result {
        match self {
            Outcome::NoTicket => writeln!(f, "noticket"),
            Outcome::Refused(number) => writeln!(f, "refused {number}"),
            Outcome::Accepted(accepted) => {
                writeln!(f, "ok {}", accepted.answer)?;
                for line in &accepted.tape {
                    write!(f, "{line}")?;
                }
                Ok(())
            }
        }
    }
}

impl fmt::Display for Line {
    fn fmt(&self, f: &mut fmt::Formatter) -> fmt::Result {
        match self {
            Line::Fill { id, firm, size, price, step } => writeln!(f, "fill {id} {firm} {size} {price} {step}"),
            Line::Cancel { id, firm, size, cause } => writeln!(f, "cancel {id} {firm} {size} {cause}"),
            Line::Filled { id, firm } => writeln!(f, "filled {id} {firm}"),
            Line::Rest { id, firm, size, price } => writeln!(f, "rest {id} {firm} {size} {price}"),
            Line::Route { id, firm, size } => writeln!(f, "route {id} {firm} {size}"),
        }
    }
}

#[cfg(test)]
mod tests {
    use super::*;

    #[test]
    fn a_sheet_gives_its_results() {
        let sheet = "open 4 4 5 1\n\
                     enter size 5 4 1 11 maker sell day 105 100 0 - 0 0\n\
                     enter size 5 4 2 12 maker sell day 105 200 0 - 0 0\n\
                     enter size 5 4 3 13 maker sell day 105 500 0 - 0 0\n\
                     enter size 5 4 4 21 other buy ioc 105 200 0 - 0 0\n\
                     market sell 100\n\
                     enter time 5 4 5 22 customer buy day 105 7 0 - 0 1\n\
                     size 1 11 70\n\
                     return time 5 4 6 0\n\
                     return time 5 4 5 8\n\
                     return time 5 4 5 7\n\
                     cancel 2 12\n\
                     cancel 2 12\n";
        let results = "ok 0\n\
                       ok 1\nrest 1 11 100 105\n\
                       ok 1\nrest 2 12 200 105\n\
                       ok 1\nrest 3 13 500 105\n\
                       ok 4\nfill 1 11 25 105 5\nfill 2 12 50 105 5\nfill 3 13 125 105 5\nfilled 4 21\n\
                       ok 0\n\
                       ok 1\nroute 5 22 7\n\
                       ok 70\n\
                       noticket\n\
                       refused 42\n\
                       ok 1\nfilled 5 22\n\
                       ok 150\n\
                       refused 27\n\
                       end 0 2 0\n";
        let mut output = Vec::new();
        run(sheet.as_bytes(), &mut output).unwrap();
        assert_eq!(String::from_utf8(output).unwrap(), results);
    }

    #[test]
    fn calls_are_written_as_they_are_read() {
        for line in [
            "enter size 5 4 18446744073709551615 65535 specialist sell ioc - 100000 3 0 1 0\n",
            "enter time 0 0 0 0 other buy day 105 0 0 - 0 1\n",
            "return time 5 4 6 0\n",
            "size 1 11 70\n",
            "cancel 2 12\n",
            "market sell 100\n",
            "market buy -\n",
        ] {
            let call = read_call(line.trim_end()).unwrap();
            assert_eq!(call.to_string(), line);
        }
    }

    #[test]
    fn a_refused_opening_ends_the_sheet() {
        let mut output = Vec::new();
        run("open 0 4 7 0\nmarket buy -\n".as_bytes(), &mut output).unwrap();
        assert_eq!(output, b"refused 13\n");
    }
}
