//! `generate SEED CALLS` writes a random sheet of calls to standard output: an opening and CALLS calls. The same two
//! numbers give the same sheet.
//!
//! The reference runs beside it, so that the calls fit what rests and what is out. What a sheet is like is drawn once
//! (`Venue`); what its firms are about changes every so often (`Mood`). Some calls are then spoiled on purpose.

use compare::text::{Call, Driver, Means, Opening, Outcome};
use compare::{Entry, Kind, Order, Out, Sharing, Side, Term, Ticket, HIGHEST_PRICE, LARGEST_SIZE, MOST_PLACES};
use std::io::{self, BufWriter, Write};
use std::process::ExitCode;

fn main() -> ExitCode {
    let arguments: Vec<u64> = std::env::args().skip(1).filter_map(|argument| argument.parse().ok()).collect();
    let [seed, calls] = arguments[..] else {
        eprintln!("usage: generate SEED CALLS");
        return ExitCode::FAILURE;
    };
    match write_sheet(seed, calls, &mut BufWriter::new(io::stdout().lock())) {
        Ok(()) => ExitCode::SUCCESS,
        Err(error) => {
            eprintln!("generate: {error}");
            ExitCode::FAILURE
        }
    }
}

fn write_sheet(seed: u64, calls: u64, output: &mut impl Write) -> io::Result<()> {
    let mut random = Random(seed);
    let opening = draw_opening(&mut random);
    write!(output, "{opening}")?;
    if let Ok(driver) = Driver::open(&opening) {
        let mut sheet = Sheet::new(random, driver, calls);
        sheet.fill();
        for call in &sheet.calls {
            write!(output, "{call}")?;
        }
    }
    output.flush()
}

// ---------------------------------------------------------------------------------------------------------------------
// Random numbers

/// splitmix64.
#[derive(Clone)]
struct Random(u64);

impl Random {
    fn next(&mut self) -> u64 {
        self.0 = self.0.wrapping_add(0x9e37_79b9_7f4a_7c15);
        let mut z = self.0;
        z = (z ^ (z >> 30)).wrapping_mul(0xbf58_476d_1ce4_e5b9);
        z = (z ^ (z >> 27)).wrapping_mul(0x94d0_49bb_1331_11eb);
        z ^ (z >> 31)
    }

    /// From `low` to `high`, both included.
    fn between(&mut self, low: u64, high: u64) -> u64 {
        low + self.next() % (high - low + 1)
    }

    fn number(&mut self, low: u32, high: u32) -> u32 {
        self.between(u64::from(low), u64::from(high)) as u32
    }

    fn chance(&mut self, percent: u64) -> bool {
        self.next() % 100 < percent
    }

    fn pick<T: Copy>(&mut self, choices: &[T]) -> T {
        choices[self.next() as usize % choices.len()]
    }

    /// Like `pick`, but of nothing there is nothing to pick.
    fn pick_any<T: Copy>(&mut self, choices: &[T]) -> Option<T> {
        if choices.is_empty() {
            None
        } else {
            Some(self.pick(choices))
        }
    }
}

// ---------------------------------------------------------------------------------------------------------------------
// What a sheet is like

fn draw_opening(random: &mut Random) -> Opening {
    let (low, high) = random.pick(&[(1, 4), (1, 4), (5, 40), (64, 256), (256, 256)]);
    let mut opening = Opening {
        bid_places: random.between(low, high) as usize,
        offer_places: random.between(low, high) as usize,
        tick: random.pick(&[1, 5, 10]),
        series: random.pick(&[1, 2, 65_535]),
    };
    if random.chance(10) {
        opening.offer_places = random.between(1, MOST_PLACES as u64) as usize;
    }
    // Now and then a refused opening.
    if random.chance(10) {
        match random.between(1, 4) {
            1 => opening.bid_places = random.pick(&[0, 257]),
            2 => opening.offer_places = random.pick(&[0, 257]),
            3 => opening.tick = random.pick(&[0, 2, 4, 15, 100]),
            _ => opening.series = 0,
        }
        if random.chance(20) {
            opening.tick = 3;
        }
    }
    opening
}

struct Venue {
    /// Bids stand below it and offers above, unless they cross.
    middle: u32,
    /// From one level to the next.
    gap: u32,
    /// How many levels on either side.
    levels: u32,
    firms: Vec<u16>,
}

impl Venue {
    fn draw(random: &mut Random, tick: u32) -> Venue {
        let middle = match random.between(1, 6) {
            1 => random.number(2, 60),
            // Where a collar's distance changes.
            2..=4 => random.pick(&[200, 500, 1_000, 2_000, 5_000, 10_000]),
            5 => random.pick(&[HIGHEST_PRICE - 30, HIGHEST_PRICE - 150, HIGHEST_PRICE - 300]),
            _ => random.number(60, 20_000),
        };
        // Levels lie a few ticks from each other, or so far that collars come between them.
        let gap = if random.chance(75) { tick * random.number(1, 3) } else { random.pick(&[10, 20, 30, 50]) };
        let mut firms = vec![1, 2, 3, 65_535];
        firms.truncate(random.between(2, 4) as usize);
        Venue { middle: middle / tick * tick, gap, levels: random.number(1, 6), firms }
    }
}

/// What the firms are about for a while. All are percentages, but for the last two.
#[derive(Clone, Copy)]
struct Mood {
    /// Orders that mean to trade.
    crossing: u64,
    /// Of those, the ones whose size is near all that they can get.
    sweeping: u64,
    immediate: u64,
    market_orders: u64,
    marks: u64,
    routes: u64,
    returns: u64,
    cancels: u64,
    /// Market updates that set a price.
    aways: u64,
    largest: u32,
    /// How many calls it lasts.
    lasts: u64,
}

impl Mood {
    /// Everything now and then.
    const MIXED: Mood = Mood {
        crossing: 40,
        sweeping: 30,
        immediate: 40,
        market_orders: 10,
        marks: 0,
        routes: 30,
        returns: 45,
        cancels: 8,
        aways: 60,
        largest: 0,
        lasts: 0,
    };
    /// Most rest.
    const BUILDING: Mood = Mood { crossing: 2, immediate: 2, market_orders: 1, cancels: 2, aways: 10, ..Mood::MIXED };
    /// Most trade.
    const TRADING: Mood = Mood { crossing: 80, immediate: 60, market_orders: 15, ..Mood::MIXED };
    /// Many go out and few come back.
    const ROUTING: Mood = Mood { crossing: 60, routes: 85, returns: 3, aways: 90, ..Mood::MIXED };

    /// `places` are those of the longer side.
    fn draw(random: &mut Random, places: u64) -> Mood {
        let mood = random.pick(&[Mood::MIXED, Mood::BUILDING, Mood::TRADING, Mood::ROUTING]);
        Mood {
            sweeping: random.pick(&[5, 30, 70]),
            marks: random.pick(&[0, 20, 50, 90]),
            largest: random.pick(&[3, 10, 10, 60, 60, 1_000, LARGEST_SIZE]),
            lasts: random.between(10, 60 + 2 * places),
            ..mood
        }
    }

    /// To begin with, the places are filled.
    fn first(random: &mut Random, places: u64) -> Mood {
        let mood = Mood::draw(random, places);
        Mood { lasts: 4 * places, largest: mood.largest, marks: mood.marks, ..Mood::BUILDING }
    }

    fn is_building(&self) -> bool {
        self.crossing == Mood::BUILDING.crossing
    }
}

// ---------------------------------------------------------------------------------------------------------------------
// A sheet

struct Sheet {
    random: Random,
    driver: Driver,
    venue: Venue,
    mood: Mood,
    calls: Vec<Call>,
    wanted: usize,
    refused: usize,
}

impl Sheet {
    fn new(mut random: Random, driver: Driver, calls: u64) -> Sheet {
        let venue = Venue::draw(&mut random, driver.book.tick());
        let mood = Mood::first(&mut random, driver.book.least_sheet() as u64);
        Sheet { random, driver, venue, mood, calls: Vec::new(), wanted: calls as usize, refused: 0 }
    }

    fn fill(&mut self) {
        while self.calls.len() < self.wanted {
            if self.mood.lasts == 0 {
                self.mood = Mood::draw(&mut self.random, self.driver.book.least_sheet() as u64);
                if self.mood.is_building() {
                    self.emit(Call::Market { side: Side::Buy, price: None });
                    self.emit(Call::Market { side: Side::Sell, price: None });
                } else if self.random.chance(50) {
                    self.resting_market_orders();
                }
            }
            self.mood.lasts -= 1;
            let call = self.draw();
            self.emit(call);
        }
        self.calls.truncate(self.wanted);
    }

    /// Makes the call beside and puts it on the sheet. Once refusals are many, calls that would be refused are left out.
    fn emit(&mut self, call: Call) {
        let many_refused = self.refused * 5 > self.calls.len();
        if many_refused && is_refusal(&self.driver.clone().make(&call)) {
            return;
        }
        if is_refusal(&self.driver.make(&call)) {
            self.refused += 1;
        }
        self.calls.push(call);
    }

    fn draw(&mut self) -> Call {
        let call = match self.random.between(1, 100) {
            1..=12 => self.draw_market(),
            13..=20 => self.draw_size(),
            n if n <= 20 + self.mood.cancels => self.draw_cancel(),
            _ => match self.random.pick_any(&self.driver.tickets) {
                Some(ticket) if self.random.chance(self.mood.returns) => self.draw_return(ticket),
                _ => self.draw_enter(),
            },
        };
        let faults = match self.random.between(1, 100) {
            1..=7 => 1,
            8..=11 => 2,
            _ => 0,
        };
        (0..faults).fold(call, |call, _| self.spoil(call))
    }

    // --- Market updates

    fn draw_market(&mut self) -> Call {
        let side = self.draw_side();
        if !self.random.chance(self.mood.aways) {
            return Call::Market { side, price: None };
        }
        let price = match self.random.between(1, 3) {
            // Equal to the best price, better or worse.
            1 | 2 => {
                let best = self.driver.book.entries(side).first().map(|entry| entry.price);
                let best = best.unwrap_or_else(|| self.at_level(side, 1));
                let better = self.random.pick(&[-3, -2, -1, -1, 0, 0, 1, 2]);
                self.beside(side, best, better)
            }
            _ => self.draw_level(side),
        };
        Call::Market { side, price: Some(price) }
    }

    // --- Size changes, cancels and returns

    fn draw_size(&mut self) -> Call {
        let Some(entry) = self.draw_entry() else {
            return self.draw_enter();
        };
        let size = match self.random.between(1, 8) {
            1 => entry.size,
            2 => entry.size + 1,
            3 => LARGEST_SIZE,
            4 => self.draw_amount(),
            5 => entry.size - 1,
            _ => self.random.number(1, entry.size),
        };
        Call::Size { id: entry.id, firm: entry.firm, size: size.clamp(1, LARGEST_SIZE) }
    }

    fn draw_cancel(&mut self) -> Call {
        match self.draw_entry() {
            Some(entry) => Call::Cancel { id: entry.id, firm: entry.firm },
            None => self.draw_enter(),
        }
    }

    fn draw_entry(&mut self) -> Option<Entry> {
        let side = self.draw_side();
        self.random.pick_any(self.driver.book.entries(side))
    }

    fn draw_return(&mut self, ticket: Ticket) -> Call {
        let routed = self.routed(ticket.id);
        let executed = match self.random.between(1, 16) {
            1..=5 => 0,
            6..=10 => self.random.number(0, routed),
            11..=15 => routed,
            _ => routed + self.random.number(1, 5),
        };
        Call::Return { means: self.draw_means(), id: ticket.id, executed }
    }

    fn routed(&self, id: u64) -> u32 {
        self.driver.book.out().iter().find(|out| out.order.id == id).map_or(0, |out| out.order.size)
    }

    // --- Entries

    fn draw_enter(&mut self) -> Call {
        let kind = self.random.pick(&[Kind::Customer, Kind::Other, Kind::Maker, Kind::Specialist]);
        let side = self.draw_side();
        let is_full = self.driver.book.entries(side).len() >= self.driver.book.places(side);
        let mut order = Order { kind, side, ..self.plain_order() };
        // On a full side only an immediate order is accepted, and a quote is never immediate.
        let must_not_rest = is_full && !self.random.chance(10);
        if must_not_rest && order.kind.is_quote() {
            order.kind = self.random.pick(&[Kind::Customer, Kind::Other]);
        }
        if !order.kind.is_quote() {
            if must_not_rest || self.random.chance(self.mood.immediate) {
                order.term = Term::Ioc;
            }
            order.route = self.random.chance(self.mood.routes);
            if self.random.chance(35) {
                order.directed = Some(self.random.pick(&self.venue.firms));
            }
        }
        let crossing = must_not_rest || self.random.chance(self.mood.crossing);
        let can_be_unpriced = order.term == Term::Day && !order.kind.is_quote();
        if !(can_be_unpriced && self.random.chance(self.mood.market_orders)) {
            order.price = Some(if crossing { self.draw_crossing_price(side) } else { self.draw_level(side) });
        }
        let available = self.available(&order);
        let sweeping = (crossing || order.price.is_none()) && self.random.chance(self.mood.sweeping);
        order.size = if sweeping { self.draw_near(available) } else { self.draw_amount() };
        if order.term == Term::Ioc && !order.route && self.random.chance(40) {
            order.least = self.draw_near(available).min(order.size);
        }
        Call::Enter { means: self.draw_means(), order }
    }

    /// A Day Market Order of some firm with the next id, for others to complete.
    fn plain_order(&mut self) -> Order {
        Order {
            id: self.next_id(),
            firm: self.random.pick(&self.venue.firms),
            kind: Kind::Other,
            side: Side::Buy,
            term: Term::Day,
            price: None,
            size: 1,
            least: 0,
            directed: None,
            mark: self.random.chance(self.mood.marks),
            route: false,
        }
    }

    /// Ids mostly count up, with a leap now and then. The highest of all ids may come shortly before the end.
    fn next_id(&mut self) -> u64 {
        let last = self.driver.book.last_id();
        if self.calls.len() + 4 >= self.wanted && self.random.chance(20) {
            u64::MAX
        } else if self.random.chance(1) {
            last.saturating_add(self.random.between(1, 1 << 40))
        } else {
            last.saturating_add(self.random.pick(&[1, 1, 1, 2, 7]))
        }
    }

    /// A price at which an order meets some of the other side: one that rests there, or one beyond them all.
    fn draw_crossing_price(&mut self, side: Side) -> u32 {
        let other = side.other();
        let entries = self.driver.book.entries(other);
        let resting = self.random.pick_any(entries).map(|entry| entry.price);
        match (resting, self.random.between(1, 10)) {
            (Some(price), 1..=6) => price,
            (_, 7) => self.beside(side, self.venue.middle, 40),
            _ => self.draw_level(other),
        }
    }

    /// Contracts that the order could trade at its limit; a Market Order could trade with all.
    fn available(&self, order: &Order) -> u32 {
        let other = order.side.other();
        let away = self.driver.book.away(other);
        let within = |entry: &&Entry| {
            let within_limit = order.price.is_none_or(|limit| order.side.within_cap(entry.price, limit));
            let away_is_better = away.is_some_and(|away| other.is_better(away, entry.price));
            let barred = entry.mark && order.mark && entry.firm == order.firm;
            within_limit && !away_is_better && !barred
        };
        self.driver.book.entries(other).iter().filter(within).map(|entry| entry.size).sum()
    }

    /// Near what is available, or a part of it.
    fn draw_near(&mut self, available: u32) -> u32 {
        let size = match self.random.between(1, 6) {
            1 => available,
            2 => available + self.random.number(1, 3),
            3 => available.saturating_sub(self.random.number(1, 3)),
            4 => available / 2,
            _ => self.random.number(1, available.max(1)),
        };
        size.clamp(1, LARGEST_SIZE)
    }

    fn draw_amount(&mut self) -> u32 {
        self.random.number(1, self.mood.largest)
    }

    fn draw_side(&mut self) -> Side {
        self.random.pick(&[Side::Buy, Side::Sell])
    }

    /// Mostly just long enough.
    fn draw_means(&mut self) -> Means {
        let spare = self.random.pick(&[0, 0, 0, 0, 3]);
        Means {
            rule: self.random.pick(&[Sharing::ByTime, Sharing::SizeProRata, Sharing::SizeProRata]),
            tape: self.driver.book.least_tape() + spare,
            sheet: self.driver.book.least_sheet() + spare,
        }
    }

    // --- Prices

    fn draw_level(&mut self, side: Side) -> u32 {
        let nearest = if self.mood.is_building() { 1 } else { 0 };
        let level = self.random.number(nearest, self.venue.levels);
        self.at_level(side, level)
    }

    /// The price of a level on a side; level 0 is common to both.
    fn at_level(&self, side: Side, level: u32) -> u32 {
        self.beside(side, self.venue.middle, -i64::from(level))
    }

    /// So many gaps better than a price, as a side sees it, and held within the prices that there are.
    fn beside(&self, side: Side, price: u32, better: i64) -> u32 {
        let tick = i64::from(self.driver.book.tick());
        let gaps = match side {
            Side::Buy => better,
            Side::Sell => -better,
        };
        let moved = i64::from(price) + gaps * i64::from(self.venue.gap);
        let held = moved.clamp(tick, i64::from(HIGHEST_PRICE));
        (held / tick * tick) as u32
    }

    // --- Market Orders that rest at one price

    /// Market Orders are routed at one away price and come back once it is gone, so that they rest together. Quotes
    /// join them there, and an order comes that meets them all.
    fn resting_market_orders(&mut self) {
        let side = self.draw_side();
        let away = self.at_level(side.other(), 1);
        self.emit(Call::Market { side: side.other(), price: Some(away) });
        for _ in 0..self.random.between(2, 6) {
            let kind = self.random.pick(&[Kind::Customer, Kind::Other]);
            let size = self.draw_amount();
            let order = self.plain_order();
            self.emit_order(Order { kind, side, size, route: true, ..order });
        }
        self.emit(Call::Market { side: side.other(), price: None });

        let is_one_of_them = |out: &&Out| out.order.side == side && out.order.price.is_none();
        let returning: Vec<Out> = self.driver.book.out().iter().filter(is_one_of_them).copied().collect();
        for out in &returning {
            if self.random.chance(40) {
                let kind = self.random.pick(&[Kind::Maker, Kind::Specialist]);
                let size = self.draw_amount();
                let order = self.plain_order();
                self.emit_order(Order { kind, side, price: Some(out.cap), size, ..order });
            }
            let executed = self.random.number(0, out.order.size) / 2;
            let means = self.draw_means();
            self.emit(Call::Return { means, id: out.order.id, executed });
        }
        if let Some(best) = self.driver.book.entries(side).first().map(|entry| entry.price) {
            let (side, term, price) = (side.other(), Term::Ioc, Some(best));
            let order = Order { side, term, price, ..self.plain_order() };
            let size = self.draw_near(self.available(&order));
            self.emit_order(Order { size, ..order });
        }
    }

    fn emit_order(&mut self, order: Order) {
        let means = self.draw_means();
        self.emit(Call::Enter { means, order });
    }

    // --- Faults

    fn spoil(&mut self, call: Call) -> Call {
        match call {
            Call::Enter { means, order } => self.spoil_enter(means, order),
            Call::Return { means, id, executed } => match self.random.between(1, 4) {
                1 => Call::Return { means: self.spoil_means(means), id, executed },
                2 => Call::Return { means, id: self.draw_unknown_id(), executed },
                _ => Call::Return { means, id, executed: self.routed(id) + self.random.pick(&[1, 2, 100_000]) },
            },
            Call::Size { id, firm, size } => match self.random.between(1, 3) {
                1 => Call::Size { id, firm, size: self.draw_bad_size() },
                _ => {
                    let (id, firm) = self.spoil_name(id, firm);
                    Call::Size { id, firm, size }
                }
            },
            Call::Cancel { id, firm } => {
                let (id, firm) = self.spoil_name(id, firm);
                Call::Cancel { id, firm }
            }
            Call::Market { side, .. } => Call::Market { side, price: Some(self.draw_bad_price()) },
        }
    }

    fn spoil_enter(&mut self, means: Means, order: Order) -> Call {
        let day_quote = Order { kind: Kind::Maker, term: Term::Day, least: 0, directed: None, route: false, ..order };
        let price = Some(order.price.unwrap_or(self.venue.middle));
        let least = self.random.number(1, order.size.max(1));
        let order = match self.random.between(1, 18) {
            1 | 2 => return Call::Enter { means: self.spoil_means(means), order },
            3 | 4 => Order { id: self.draw_used_id(), ..order },
            5 => Order { firm: 0, ..order },
            6 => Order { directed: Some(0), ..order },
            7 | 8 => Order { size: self.draw_bad_size(), ..order },
            9 | 10 => Order { price: Some(self.draw_bad_price()), ..order },
            // Terms that clash.
            11 => Order { term: Term::Ioc, price: None, ..order },
            12 => Order { term: Term::Day, least, ..order },
            13 => Order { term: Term::Ioc, price, least: order.size.saturating_add(1), ..order },
            14 => Order { term: Term::Ioc, price, least, route: true, ..order },
            15 => Order { term: Term::Ioc, price, ..day_quote },
            16 => Order { price: None, ..day_quote },
            17 => Order { price, directed: Some(order.firm), ..day_quote },
            _ => Order { price, route: true, ..day_quote },
        };
        Call::Enter { means, order }
    }

    fn spoil_means(&mut self, means: Means) -> Means {
        match self.random.between(1, 4) {
            1 => Means { tape: means.sheet, sheet: means.sheet.saturating_sub(1), ..means },
            2 => Means { tape: 0, ..means },
            3 => Means { tape: self.driver.book.least_tape() - 1, ..means },
            _ => Means { sheet: self.driver.book.least_sheet() - 1, ..means },
        }
    }

    /// An id and a firm that do not go together, or an order that is out.
    fn spoil_name(&mut self, id: u64, firm: u16) -> (u64, u16) {
        let out = self.random.pick_any(self.driver.book.out());
        match (out, self.random.between(1, 10)) {
            (_, 1) => (id, 0),
            (_, 2 | 3) => (id, self.random.pick(&[1, 2, 3, 77])),
            (_, 4) => (self.draw_unknown_id(), firm),
            (Some(out), 5) => (out.order.id, self.random.pick(&[1, 2, 3, 77])),
            (Some(out), _) => (out.order.id, out.order.firm),
            (None, _) => (self.draw_unknown_id(), firm),
        }
    }

    fn draw_unknown_id(&mut self) -> u64 {
        let last = self.driver.book.last_id();
        let used = self.draw_used_id();
        self.random.pick(&[0, used, used, last.saturating_add(1)])
    }

    fn draw_used_id(&mut self) -> u64 {
        let last = self.driver.book.last_id();
        let earlier = self.random.between(0, last.min(500));
        self.random.pick(&[0, last, last, last - earlier])
    }

    fn draw_bad_size(&mut self) -> u32 {
        self.random.pick(&[0, LARGEST_SIZE + 1, LARGEST_SIZE + 2, 4_294_967_295])
    }

    fn draw_bad_price(&mut self) -> u32 {
        let tick = self.driver.book.tick();
        let off_tick = if tick > 1 { self.venue.middle + self.random.number(1, tick - 1) } else { 0 };
        self.random.pick(&[0, off_tick, off_tick, HIGHEST_PRICE + tick, 4_294_967_290])
    }
}

fn is_refusal(outcome: &Outcome) -> bool {
    !matches!(outcome, Outcome::Accepted(_))
}
