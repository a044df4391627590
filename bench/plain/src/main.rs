//! The settlement job in plain Rust, for comparison: the same records in, the same report out.
//!
//! `plain FILE` reads a file, `plain` alone reads standard input.

use std::collections::VecDeque;
use std::io::{self, Read, Write};
use std::ops::RangeInclusive;
use std::process::ExitCode;

const ACCOUNTS: usize = 64;
const TRADES: usize = 1024;
const LOTS: usize = 1024;
const NOTICES: usize = 64;
const SESSIONS: RangeInclusive<i64> = 1..=260;
const PRICES: RangeInclusive<i64> = 1..=999_999;
const RATES: RangeInclusive<i64> = 100_000..=9_999_999;
const COUNTS: RangeInclusive<i64> = 1..=3_000;
const NETS: RangeInclusive<i64> = -3_000..=3_000;
const MILLION: i64 = 1_000_000;

// ---- refusals

/// A question that was not met. The place is the record's first byte unless one is given.
struct Refusal {
    layer: i64,
    number: i64,
    place: Option<usize>,
}

type Answer<T> = Result<T, Refusal>;

fn refuse<T>(layer: i64, number: i64) -> Answer<T> {
    Err(Refusal { layer, number, place: None })
}

fn ask(met: bool, number: i64) -> Answer<()> {
    match met {
        true => Ok(()),
        false => refuse(2, number),
    }
}

// ---- money

#[derive(Clone, Copy, PartialEq)]
enum Currency {
    Real,
    Dollar,
}

impl Currency {
    /// What one cent weighs on a page of this rate.
    fn weight(self, rate: i64) -> i64 {
        match self {
            Currency::Real => MILLION,
            Currency::Dollar => rate,
        }
    }
}

/// The nearest whole number, a half away from zero.
fn nearest(numerator: i64, denominator: i64) -> i64 {
    (numerator.abs() + denominator / 2) / denominator * numerator.signum()
}

/// An evening's page: day trade and margin of each account as paid, and what they come to.
struct Page {
    session: i64,
    rows: Vec<[i64; 2]>,
    reais: i64,
    dollars: i64,
    remainder: i64,
    lines: i64,
}

impl Page {
    /// Pays one line, and adds it to the page.
    fn pay(&mut self, owed: i64, from: Currency, to: Currency, rate: i64) -> i64 {
        let mut paid = owed;
        if from != to && owed != 0 {
            let weight = owed * from.weight(rate);
            paid = nearest(weight, to.weight(rate));
            self.remainder += paid * to.weight(rate) - weight;
            self.lines += 1;
        }
        match to {
            Currency::Real => self.reais += paid,
            Currency::Dollar => self.dollars += paid,
        }
        paid
    }
}

// ---- contract kinds

/// How a contract ends, with what its quotations have left.
enum Ending {
    Delivery,
    Weighted { value: i64, quantity: i64 },
    LastFive { indexes: [i64; 5], taken: usize },
}

struct Kind {
    size: i64,
    currency: Currency,
    tick: i64,
    ending: Ending,
}

impl Kind {
    fn listed(ticker: [u8; 3], month: u8) -> Option<Kind> {
        let (size, currency, tick, months, ending): (_, _, _, &[u8], _) = match &ticker {
            b"ICF" => (100, Currency::Dollar, 5, b"HKNUZ", Ending::Delivery),
            b"WCF" => (10, Currency::Dollar, 5, b"HKNUZ", Ending::Weighted { value: 0, quantity: 0 }),
            b"WBG" => (33, Currency::Real, 1, b"FGHJKMNQUVXZ", Ending::LastFive { indexes: [0; 5], taken: 0 }),
            _ => return None,
        };
        months.contains(&month).then_some(Kind { size, currency, tick, ending })
    }

    fn delivers(&self) -> bool {
        matches!(self.ending, Ending::Delivery)
    }

    fn quote(&mut self, price: i64, count: i64) -> Answer<()> {
        match &mut self.ending {
            Ending::Weighted { value, quantity } if *quantity + count <= MILLION => {
                *value += price * count;
                *quantity += count;
            }
            Ending::LastFive { indexes, taken } if count == 1 => {
                indexes[*taken % 5] = price;
                *taken += 1;
            }
            _ => return refuse(3, 14),
        }
        Ok(())
    }

    fn final_price(&self) -> Option<i64> {
        match self.ending {
            Ending::Weighted { value, quantity } if quantity > 0 => Some(nearest(value, quantity)),
            Ending::LastFive { indexes, taken } if taken >= 5 => Some(nearest(indexes.iter().sum(), 5)),
            _ => None,
        }
    }
}

// ---- records

enum Record {
    Build { ticker: [u8; 3], month: u8, last: i64, opens: i64, closes: i64 },
    Account { identity: [u8; 14], currency: Currency },
    Trade { buyer: i64, seller: i64, price: i64, contracts: i64 },
    Quotation { price: i64, quantity: i64 },
    Notice { seller: i64, contracts: i64 },
    Marking { price: i64, rate: i64 },
    Designation,
    Expiry,
}

struct Reader<'a> {
    data: &'a [u8],
    at: usize,
}

impl Reader<'_> {
    fn misfit<T>(&self) -> Answer<T> {
        Err(Refusal { layer: 1, number: 25, place: Some(self.at) })
    }

    fn byte(&mut self, fits: impl Fn(u8) -> bool) -> Answer<u8> {
        match self.data.get(self.at) {
            Some(&b) if fits(b) => {
                self.at += 1;
                Ok(b)
            }
            _ => self.misfit(),
        }
    }

    fn bytes<const N: usize>(&mut self, fits: impl Fn(u8) -> bool) -> Answer<[u8; N]> {
        let mut field = [0; N];
        for place in &mut field {
            *place = self.byte(&fits)?;
        }
        Ok(field)
    }

    fn number<const N: usize>(&mut self) -> Answer<i64> {
        let digits = self.bytes::<N>(|b| b.is_ascii_digit())?;
        Ok(digits.iter().fold(0, |value, &d| 10 * value + i64::from(d - b'0')))
    }

    /// The record at this place, read up to behind its newline or to the first byte that does not fit.
    fn record(&mut self) -> Answer<Record> {
        let Some(mark) = self.data.get(self.at..self.at + 2) else { return refuse(1, 24) };
        let start = self.at;
        self.at += 2;
        let record = match mark {
            b"BK" => {
                let ticker = self.bytes(|b| b.is_ascii_uppercase())?;
                let month = self.byte(|b| b.is_ascii_uppercase())?;
                self.number::<2>()?; // the year
                Record::Build { ticker, month, last: self.number::<3>()?, opens: self.number::<3>()?, closes: self.number::<3>()? }
            }
            b"AC" => {
                let identity = self.bytes(|b| b != b'\n')?;
                let resident = self.byte(|b| b == b'R' || b == b'N')? == b'R';
                Record::Account { identity, currency: if resident { Currency::Real } else { Currency::Dollar } }
            }
            b"TR" => Record::Trade {
                buyer: self.number::<2>()?,
                seller: self.number::<2>()?,
                price: self.number::<6>()?,
                contracts: self.number::<4>()?,
            },
            b"QT" => Record::Quotation { price: self.number::<6>()?, quantity: self.number::<4>()? },
            b"NT" => Record::Notice { seller: self.number::<2>()?, contracts: self.number::<4>()? },
            b"MK" => Record::Marking { price: self.number::<6>()?, rate: self.number::<7>()? },
            b"DG" => Record::Designation,
            b"EX" => Record::Expiry,
            _ => {
                self.at = start;
                return refuse(1, 24);
            }
        };
        self.byte(|b| b == b'\n')?;
        Ok(record)
    }

    /// Goes on behind the next newline.
    fn skip(&mut self) {
        let rest = &self.data[self.at..];
        self.at += rest.iter().position(|&b| b == b'\n').map_or(rest.len(), |i| i + 1);
    }
}

// ---- the book

struct Account {
    identity: [u8; 14],
    currency: Currency,
    carried: i64,
    bought: i64,
    sold: i64,
    noticed: i64,
    total: i64,
}

impl Account {
    fn net(&self) -> i64 {
        self.carried + self.bought - self.sold
    }

    /// By how much tonight's marking makes the account longer; negative if it holds fewer then.
    fn longer(&self) -> i64 {
        self.net().max(0) - self.carried.max(0)
    }
}

struct Trade {
    buyer: usize,
    seller: usize,
    price: i64,
    contracts: i64,
}

/// A lot or a notice.
struct Row {
    owner: usize,
    session: i64,
    count: i64,
}

/// Takes contracts from the oldest row.
fn take_first(rows: &mut VecDeque<Row>, contracts: i64) {
    rows[0].count -= contracts;
    if rows[0].count == 0 {
        rows.pop_front();
    }
}

/// What a marking owes an account.
#[derive(Clone, Copy, Default)]
struct Owed {
    day_trade: i64,
    margin: i64,
}

impl Owed {
    /// Posts one side of a trade: what is still to offset first, the rest against the settlement price.
    fn post(&mut self, sign: i64, trade: &Trade, to_offset: &mut i64, settlement: i64) {
        let offset = trade.contracts.min(*to_offset);
        *to_offset -= offset;
        self.day_trade -= sign * trade.price * offset;
        self.margin += sign * (settlement - trade.price) * (trade.contracts - offset);
    }
}

struct Book {
    kind: Kind,
    last: i64,
    window: RangeInclusive<i64>,
    session: i64,
    price: i64,
    rate: i64,
    expired: bool,
    accounts: Vec<Account>,
    sheet: Vec<Trade>,
    lots: VecDeque<Row>,
    notices: VecDeque<Row>,
}

impl Book {
    fn build(kind: Kind, last: i64, opens: i64, closes: i64) -> Answer<Book> {
        let inside = 1 <= opens && opens <= closes && closes < last;
        ask(SESSIONS.contains(&last) && if kind.delivers() { inside } else { opens == 0 && closes == 0 }, 1)?;
        Ok(Book {
            kind,
            last,
            window: opens..=closes,
            session: 1,
            price: 0,
            rate: 0,
            expired: false,
            accounts: Vec::with_capacity(ACCOUNTS),
            sheet: Vec::with_capacity(TRADES),
            lots: VecDeque::with_capacity(LOTS),
            notices: VecDeque::with_capacity(NOTICES),
        })
    }

    /// The index of an account by its number.
    fn account(&self, number: i64) -> Answer<usize> {
        let index = (number as usize).wrapping_sub(1);
        ask(index < self.accounts.len(), 6)?;
        Ok(index)
    }

    fn is_due(&self) -> bool {
        self.notices.front().is_some_and(|notice| notice.session < self.session)
    }

    fn register(&mut self, identity: [u8; 14], currency: Currency) -> Answer<()> {
        ask(self.session <= self.last, 2)?;
        ask(self.accounts.len() < ACCOUNTS, 3)?;
        ask(identity.iter().all(|b| b.is_ascii_uppercase() || b.is_ascii_digit()), 4)?;
        ask(self.accounts.iter().all(|a| a.identity != identity), 5)?;
        self.accounts.push(Account { identity, currency, carried: 0, bought: 0, sold: 0, noticed: 0, total: 0 });
        Ok(())
    }

    fn trade(&mut self, buyer: i64, seller: i64, price: i64, contracts: i64) -> Answer<()> {
        ask(self.session <= self.last, 2)?;
        let (buyer, seller) = (self.account(buyer)?, self.account(seller)?);
        ask(buyer != seller, 6)?;
        ask(PRICES.contains(&price) && price % self.kind.tick == 0, 7)?;
        ask(COUNTS.contains(&contracts), 8)?;
        ask(self.sheet.len() < TRADES, 9)?;
        let (b, s) = (&self.accounts[buyer], &self.accounts[seller]);
        let (b_net, s_net) = (b.net() + contracts, s.net() - contracts);
        ask(NETS.contains(&b_net) && NETS.contains(&s_net), 10)?;
        ask(b.bought + contracts <= *COUNTS.end() && s.sold + contracts <= *COUNTS.end(), 10)?;
        ask(b.noticed == 0 || -b_net >= b.noticed, 11)?;
        if self.session == self.last && self.kind.delivers() {
            ask(s_net >= 0 && b.sold == 0 && s.bought == 0, 12)?;
        }
        ask(self.has_room_for_lots(buyer, seller, contracts), 13)?;
        self.accounts[buyer].bought += contracts;
        self.accounts[seller].sold += contracts;
        self.sheet.push(Trade { buyer, seller, price, contracts });
        Ok(())
    }

    /// Whether every lot that tonight would open has a row, with this trade on the sheet.
    fn has_room_for_lots(&self, buyer: usize, seller: usize, contracts: i64) -> bool {
        if self.lots.len() + self.accounts.len() <= LOTS {
            return true; // an account opens one lot at most
        }
        let opens = |(k, a): (usize, &Account)| {
            let more = contracts * (i64::from(k == buyer) - i64::from(k == seller));
            a.net() + more > a.carried.max(0)
        };
        self.lots.len() + self.accounts.iter().enumerate().filter(|&x| opens(x)).count() <= LOTS
    }

    fn quote(&mut self, price: i64, quantity: i64) -> Answer<()> {
        ask(PRICES.contains(&price), 7)?;
        ask(COUNTS.contains(&quantity), 8)?;
        self.kind.quote(price, quantity)
    }

    fn notify(&mut self, seller: i64, contracts: i64) -> Answer<()> {
        ask(self.session <= self.last, 2)?;
        ask(self.window.contains(&self.session), 15)?;
        let owner = self.account(seller)?;
        ask(COUNTS.contains(&contracts), 8)?;
        let account = &mut self.accounts[owner];
        ask(-account.net() >= account.noticed + contracts, 16)?;
        ask(self.notices.len() < NOTICES, 17)?;
        account.noticed += contracts;
        self.notices.push_back(Row { owner, session: self.session, count: contracts });
        Ok(())
    }

    /// Buyer, seller, contracts and price.
    fn designate(&mut self) -> Answer<[i64; 4]> {
        ask(self.is_due(), 18)?;
        let (notice, lot) = (&self.notices[0], &self.lots[0]);
        let (buyer, seller, contracts) = (lot.owner, notice.owner, lot.count.min(notice.count));
        take_first(&mut self.notices, contracts);
        take_first(&mut self.lots, contracts);
        self.accounts[buyer].carried -= contracts;
        self.accounts[seller].carried += contracts;
        self.accounts[seller].noticed -= contracts;
        Ok([buyer as i64 + 1, seller as i64 + 1, contracts, self.price])
    }

    fn mark(&mut self, price: i64, rate: i64) -> Answer<Page> {
        ask(self.session <= self.last, 2)?;
        ask(!self.is_due(), 19)?;
        ask(PRICES.contains(&price), 7)?;
        ask(RATES.contains(&rate), 20)?;
        let owed = self.owed(price);
        let page = self.pay(&owed, rate);
        self.roll_lots();
        for account in &mut self.accounts {
            account.carried = account.net();
            (account.bought, account.sold) = (0, 0);
        }
        self.sheet.clear();
        (self.price, self.rate) = (price, rate);
        self.session += 1;
        Ok(page)
    }

    /// What the sheet and the contracts carried owe each account at a settlement price.
    fn owed(&self, settlement: i64) -> [Owed; ACCOUNTS] {
        let mut owed = [Owed::default(); ACCOUNTS];
        let (mut buys, mut sales) = ([0; ACCOUNTS], [0; ACCOUNTS]); // still to offset
        for (k, account) in self.accounts.iter().enumerate() {
            owed[k].margin = account.carried * (settlement - self.price);
            buys[k] = account.bought.min(account.sold);
            sales[k] = buys[k];
        }
        for trade in &self.sheet {
            owed[trade.buyer].post(1, trade, &mut buys[trade.buyer], settlement);
            owed[trade.seller].post(-1, trade, &mut sales[trade.seller], settlement);
        }
        owed
    }

    /// Adds what is owed, of one unit, to the totals and pays it.
    fn pay(&mut self, owed: &[Owed; ACCOUNTS], rate: i64) -> Page {
        let (size, currency) = (self.kind.size, self.kind.currency);
        let rows = Vec::with_capacity(self.accounts.len());
        let mut page = Page { session: self.session, rows, reais: 0, dollars: 0, remainder: 0, lines: 0 };
        for (account, owed) in self.accounts.iter_mut().zip(owed) {
            account.total += size * (owed.day_trade + owed.margin);
            let row = [owed.day_trade, owed.margin].map(|amount| page.pay(size * amount, currency, account.currency, rate));
            page.rows.push(row);
        }
        debug_assert_eq!(self.accounts.iter().map(|account| account.total).sum::<i64>(), 0);
        page
    }

    /// Takes what was sold off from each owner's oldest lots, and opens the lots of this session.
    fn roll_lots(&mut self) {
        let mut longer = [0; ACCOUNTS];
        for (longer, account) in longer.iter_mut().zip(&self.accounts) {
            *longer = account.longer();
        }
        self.lots.retain_mut(|lot| {
            let taken = lot.count.min((-longer[lot.owner]).max(0));
            longer[lot.owner] += taken;
            lot.count -= taken;
            lot.count > 0
        });
        let opened = longer.iter().enumerate().filter(|(_, &count)| count > 0);
        self.lots.extend(opened.map(|(owner, &count)| Row { owner, session: self.session, count }));
    }

    fn expire(&mut self) -> Answer<Page> {
        ask(!self.kind.delivers() && self.session == self.last + 1 && !self.expired, 22)?;
        let Some(price) = self.kind.final_price() else { return refuse(2, 23) };
        let owed = self.owed(price); // the sheet is empty
        let page = self.pay(&owed, self.rate);
        self.accounts.iter_mut().for_each(|account| account.carried = 0);
        self.lots.clear();
        self.expired = true;
        Ok(page)
    }
}

// ---- the report

fn write_number(out: &mut Vec<u8>, value: i64) {
    let mut digits = [0; 20];
    let (mut at, mut rest) = (digits.len(), value.unsigned_abs());
    loop {
        at -= 1;
        digits[at] = b'0' + (rest % 10) as u8;
        rest /= 10;
        if rest == 0 {
            break;
        }
    }
    if value < 0 {
        out.push(b'-');
    }
    out.extend_from_slice(&digits[at..]);
}

fn write_line(out: &mut Vec<u8>, mark: u8, fields: &[i64]) {
    out.push(mark);
    for &field in fields {
        out.push(b' ');
        write_number(out, field);
    }
    out.push(b'\n');
}

fn write_page(out: &mut Vec<u8>, page: &Page) {
    for (number, &[day_trade, margin]) in (1..).zip(&page.rows) {
        write_line(out, b'S', &[page.session, number, day_trade, margin]);
    }
    write_line(out, b'T', &[page.session, page.reais, page.dollars, page.remainder, page.lines]);
}

// ---- the program

fn serve(book: &mut Option<Book>, record: Record, out: &mut Vec<u8>) -> Answer<()> {
    let Some(book) = book else {
        let Record::Build { ticker, month, last, opens, closes } = record else { return refuse(1, 26) };
        let Some(kind) = Kind::listed(ticker, month) else { return refuse(1, 27) };
        *book = Some(Book::build(kind, last, opens, closes)?);
        return Ok(());
    };
    match record {
        Record::Build { .. } => return refuse(1, 26),
        Record::Account { identity, currency } => book.register(identity, currency)?,
        Record::Trade { buyer, seller, price, contracts } => book.trade(buyer, seller, price, contracts)?,
        Record::Quotation { price, quantity } => book.quote(price, quantity)?,
        Record::Notice { seller, contracts } => book.notify(seller, contracts)?,
        Record::Marking { price, rate } => write_page(out, &book.mark(price, rate)?),
        Record::Designation => write_line(out, b'D', &book.designate()?),
        Record::Expiry => write_page(out, &book.expire()?),
    }
    Ok(())
}

fn report(data: &[u8]) -> Vec<u8> {
    let mut out = Vec::new();
    let mut book = None;
    let mut reader = Reader { data, at: 0 };
    let mut number = 0;
    while reader.at < data.len() {
        let start = reader.at;
        number += 1;
        let read = reader.record();
        if read.is_err() {
            reader.skip();
        }
        if let Err(refusal) = read.and_then(|record| serve(&mut book, record, &mut out)) {
            let place = refusal.place.unwrap_or(start);
            write_line(&mut out, b'R', &[number, refusal.layer, refusal.number, place as i64]);
        }
    }
    out
}

fn input() -> io::Result<Vec<u8>> {
    match std::env::args_os().nth(1) {
        Some(path) => std::fs::read(path),
        None => {
            let mut data = Vec::new();
            io::stdin().lock().read_to_end(&mut data)?;
            Ok(data)
        }
    }
}

fn main() -> ExitCode {
    match input().and_then(|data| io::stdout().lock().write_all(&report(&data))) {
        Ok(()) => ExitCode::SUCCESS,
        Err(error) => {
            eprintln!("plain: {error}");
            ExitCode::FAILURE
        }
    }
}
