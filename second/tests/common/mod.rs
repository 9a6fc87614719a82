//! Books, records and prices written out byte by byte, without the library's
//! own layout, so that the tests hold one against the other.
#![allow(dead_code)]

/// A row of section 1: price, multiplier, rate, trade fee, delivery fee, zero.
pub type RawContract = [u32; 6];

#[derive(Clone, Debug)]
pub struct RawAccount {
    pub kind: u32,
    pub accepted: u32,
    pub reserve: i64,
    pub margin: i64,
    pub usable: i64,
    pub market_value: i64,
    pub discount: i64,
    pub deposits: i64,
    pub withdrawals: i64,
}

#[derive(Clone, Debug, Default)]
pub struct RawPosition {
    /// Opening, closed old, new and paired, each long then short.
    pub lots: [u32; 8],
    pub cash: i64,
    pub traded: u32,
    pub zero: u32,
}

pub const OPENING_LONG: usize = 0;
pub const OPENING_SHORT: usize = 1;
pub const CLOSED_LONG: usize = 2;
pub const CLOSED_SHORT: usize = 3;
pub const NEW_LONG: usize = 4;
pub const NEW_SHORT: usize = 5;
pub const PAIRED_LONG: usize = 6;
pub const PAIRED_SHORT: usize = 7;

#[derive(Clone, Debug)]
pub struct RawBook {
    pub contracts: Vec<RawContract>,
    pub accounts: Vec<RawAccount>,
    /// Member by member, within a member contract by contract.
    pub positions: Vec<RawPosition>,
}

impl RawBook {
    pub fn bytes(&self) -> Vec<u8> {
        let (n, k) = (self.accounts.len() as u32, self.contracts.len() as u32);
        let mut bytes = Vec::new();
        bytes.extend((n as u16).to_le_bytes());
        bytes.extend((k as u16).to_le_bytes());
        bytes.extend((32 + 24 * k + 64 * n + 48 * n * k).to_le_bytes());
        let offsets = [32, 32 + 24 * k, 32 + 24 * k + 64 * n];
        for (number, row_size, offset) in [(1, 24, 0), (2, 64, 1), (3, 48, 2)] {
            bytes.extend((number as u16).to_le_bytes());
            bytes.extend((row_size as u16).to_le_bytes());
            bytes.extend(offsets[offset].to_le_bytes());
        }
        for contract in &self.contracts {
            bytes.extend(contract.map(u32::to_le_bytes).concat());
        }
        for account in &self.accounts {
            bytes.extend(account.kind.to_le_bytes());
            bytes.extend(account.accepted.to_le_bytes());
            let wide = [
                account.reserve,
                account.margin,
                account.usable,
                account.market_value,
                account.discount,
                account.deposits,
                account.withdrawals,
            ];
            bytes.extend(wide.map(i64::to_le_bytes).concat());
        }
        for position in &self.positions {
            bytes.extend(position.lots.map(u32::to_le_bytes).concat());
            bytes.extend(position.cash.to_le_bytes());
            bytes.extend(position.traded.to_le_bytes());
            bytes.extend(position.zero.to_le_bytes());
        }
        bytes
    }

    /// The row of a member in a contract.
    pub fn at(&mut self, member: usize, contract: usize) -> &mut RawPosition {
        &mut self.positions[member * self.contracts.len() + contract]
    }
}

pub fn account(kind: u32, reserve: i64) -> RawAccount {
    RawAccount {
        kind,
        accepted: 0,
        reserve,
        margin: 0,
        usable: 0,
        market_value: 0,
        discount: 0,
        deposits: 0,
        withdrawals: 0,
    }
}

/// An opening book of members of kind 2 with ample reserve and no lots.
pub fn plain(members: usize, contract: RawContract) -> RawBook {
    RawBook {
        contracts: vec![contract],
        accounts: vec![account(2, 1_000_000_000_000); members],
        positions: vec![RawPosition::default(); members],
    }
}

/// The contract of most tests: 500,000, multiplier 10, rate 500, no fees.
pub const CONTRACT: RawContract = [500_000, 10, 500, 0, 0, 0];

/// Kind, contract, both members, both marks.
pub fn record(front: [u8; 6], a: u64, b: u64) -> Vec<u8> {
    let mut bytes = front.to_vec();
    bytes.extend([0, 0]);
    bytes.extend(a.to_le_bytes());
    bytes.extend(b.to_le_bytes());
    bytes
}

/// A trade in contract 0.
pub fn trade(members: [u8; 2], marks: [u8; 2], price: u64, lots: u64) -> Vec<u8> {
    record(
        [1, 0, members[0], members[1], marks[0], marks[1]],
        price,
        lots,
    )
}

/// A pairing in contract 0.
pub fn pairing(members: [u8; 2], lots: u64) -> Vec<u8> {
    record([2, 0, members[0], members[1], 0, 0], 0, lots)
}

pub fn deposit(member: u8, amount: u64) -> Vec<u8> {
    record([3, 0, member, 0, 0, 0], amount, 0)
}

pub fn withdrawal(member: u8, amount: u64) -> Vec<u8> {
    record([4, 0, member, 0, 0, 0], amount, 0)
}

pub fn securities(member: u8, market_value: u64, discount: u64) -> Vec<u8> {
    record([5, 0, member, 0, 0, 0], market_value, discount)
}

pub fn prices(pairs: &[[u32; 2]]) -> Vec<u8> {
    pairs
        .iter()
        .flat_map(|pair| pair.map(u32::to_le_bytes).concat())
        .collect()
}

pub fn day_file(book: &[u8], count: u32, records: &[Vec<u8>], prices: &[u8]) -> Vec<u8> {
    [book, &count.to_le_bytes(), &records.concat()[..], prices].concat()
}

/// The book of Case E.
pub fn case_e_book() -> RawBook {
    let mut book = RawBook {
        contracts: vec![[500_000, 10, 500, 300, 100, 0]],
        accounts: vec![account(1, 300_000_000), account(2, 80_000_000)],
        positions: vec![RawPosition::default(); 2],
    };
    book.accounts[0].margin = 2_500_000;
    book.accounts[1].margin = 2_500_000;
    book.at(0, 0).lots[OPENING_LONG] = 10;
    book.at(1, 0).lots[OPENING_SHORT] = 10;
    book
}

pub fn case_e_file() -> Vec<u8> {
    let records = [trade([1, 0], [1, 1], 510_000, 4)];
    day_file(
        &case_e_book().bytes(),
        1,
        &records,
        &prices(&[[505_000, 0]]),
    )
}

pub const CASE_E_SHEET: &str = "\
member pnl fee margin usable reserve withdrawable call standing
0 700000 1200 1515000 0 301683800 101683800 0 0
1 -700000 1200 1515000 0 80283800 30283800 0 0
";

/// Posts and expects a refusal that leaves every byte as it stood.
pub fn refused(book: &RawBook, record: &[u8], number: u8) {
    let before = book.bytes();
    let mut bytes = before.clone();
    assert_eq!(second::post(&mut bytes, record), number, "{record:?}");
    assert!(bytes == before, "a refused posting changed the book");
}

/// Posts and expects acceptance and exactly the changed book.
pub fn granted(book: &RawBook, record: &[u8], change: impl Fn(&mut RawBook)) -> RawBook {
    let mut bytes = book.bytes();
    assert_eq!(second::post(&mut bytes, record), 0, "{record:?}");
    let mut changed = book.clone();
    change(&mut changed);
    assert!(
        bytes == changed.bytes(),
        "the book is not as expected after {record:?}"
    );
    changed
}

/// Settles into exact room; the answer, the next book and the results.
pub fn settled(book: &[u8], prices: &[u8]) -> (u8, Vec<u8>, Vec<i64>) {
    let members = usize::from(u16::from_le_bytes([book[0], book[1]]));
    let mut next = vec![0xaa; book.len()];
    let mut results = vec![0xaa; 72 * members];
    let answer = second::settle(book, prices, &mut next, &mut results);
    let fields = results
        .chunks_exact(8)
        .map(|field| i64::from_le_bytes(field.try_into().unwrap()))
        .collect();
    (answer, next, fields)
}

/// A member's nine results after a settlement that must not be refused.
pub fn results_of(book: &RawBook, member: usize, pairs: &[[u32; 2]]) -> [i64; 9] {
    let (answer, _, fields) = settled(&book.bytes(), &prices(pairs));
    assert_eq!(answer, 0);
    fields[9 * member..9 * member + 9].try_into().unwrap()
}

pub const PNL: usize = 1;
pub const FEE: usize = 2;
pub const MARGIN: usize = 3;
pub const USABLE: usize = 4;
pub const RESERVE: usize = 5;
pub const WITHDRAWABLE: usize = 6;
pub const CALL: usize = 7;
pub const STANDING: usize = 8;

/// What the evening program prints, as text.
pub fn evening(input: &[u8]) -> String {
    String::from_utf8(second::evening(input)).unwrap()
}
