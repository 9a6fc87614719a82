//! Day records: reading one from bytes and writing it back.

use crate::bounds;
use crate::bytes::{put_u64, u64_at};
use crate::layout::{record as at, Shape};
use crate::position::{Mark, Side};
use crate::units::{Fen, Lots, Price, Rate};

/// The part a member plays in a trade or a pairing.
#[derive(Clone, Copy, PartialEq, Eq, Debug)]
pub enum Role {
    Buyer,
    Seller,
}

impl Role {
    /// The side this role opens and pairs.
    pub fn own_side(self) -> Side {
        match self {
            Role::Buyer => Side::Long,
            Role::Seller => Side::Short,
        }
    }

    /// The side whose lots a mark changes: a buyer closes shorts, a seller longs.
    pub fn side_under(self, mark: Mark) -> Side {
        match mark {
            Mark::Opens => self.own_side(),
            Mark::ClosesOld | Mark::ClosesNew => self.own_side().other(),
        }
    }
}

#[derive(Clone, Copy, PartialEq, Eq, Debug)]
pub struct Trade {
    pub contract: usize,
    pub buyer: usize,
    pub seller: usize,
    pub buyer_mark: Mark,
    pub seller_mark: Mark,
    pub price: Price,
    pub lots: Lots,
}

/// One side of a trade.
#[derive(Clone, Copy, PartialEq, Eq, Debug)]
pub struct Party {
    pub role: Role,
    pub member: usize,
    pub mark: Mark,
}

impl Party {
    /// The side whose lots this party's mark changes.
    pub fn side(&self) -> Side {
        self.role.side_under(self.mark)
    }
}

impl Trade {
    pub fn parties(&self) -> [Party; 2] {
        [
            Party {
                role: Role::Buyer,
                member: self.buyer,
                mark: self.buyer_mark,
            },
            Party {
                role: Role::Seller,
                member: self.seller,
                mark: self.seller_mark,
            },
        ]
    }
}

#[derive(Clone, Copy, PartialEq, Eq, Debug)]
pub struct Pairing {
    pub contract: usize,
    pub buyer: usize,
    pub seller: usize,
    pub lots: Lots,
}

#[derive(Clone, Copy, PartialEq, Eq, Debug)]
pub enum Record {
    Trade(Trade),
    Pairing(Pairing),
    Deposit {
        member: usize,
        amount: Fen,
    },
    Withdrawal {
        member: usize,
        amount: Fen,
    },
    Securities {
        member: usize,
        market_value: Fen,
        discount: Rate,
    },
}

impl Record {
    /// Reads a record that stands in a book of this shape; none if its length
    /// is wrong, a field is out of range or absent from the book, an unused
    /// field is not zero, or buyer and seller are equal.
    pub fn decode(bytes: &[u8], shape: Shape) -> Option<Record> {
        let bytes: &[u8; at::SIZE] = bytes.try_into().ok()?;
        let record = Fields { bytes, shape }.record()?;
        // Only the fields in use were read; writing those back leaves zero in
        // all others, so equal bytes are unused fields at zero.
        (record.encode() == *bytes).then_some(record)
    }

    /// The record's bytes. Every number has to fit its field.
    pub fn encode(&self) -> [u8; at::SIZE] {
        let mut bytes = [0; at::SIZE];
        bytes[at::KIND] = self.kind();
        let [first, second] = self.named();
        bytes[at::FIRST_MEMBER] = byte(first.unwrap_or(0));
        bytes[at::SECOND_MEMBER] = byte(second.unwrap_or(0));
        match *self {
            Record::Trade(trade) => {
                bytes[at::CONTRACT] = byte(trade.contract);
                bytes[at::FIRST_MARK] = trade.buyer_mark as u8;
                bytes[at::SECOND_MARK] = trade.seller_mark as u8;
                put_u64(&mut bytes, at::A, i128::from(trade.price.0));
                put_u64(&mut bytes, at::B, i128::from(trade.lots.0));
            }
            Record::Pairing(pairing) => {
                bytes[at::CONTRACT] = byte(pairing.contract);
                put_u64(&mut bytes, at::B, i128::from(pairing.lots.0));
            }
            Record::Deposit { amount, .. } | Record::Withdrawal { amount, .. } => {
                put_u64(&mut bytes, at::A, amount.0);
            }
            Record::Securities {
                market_value,
                discount,
                ..
            } => {
                put_u64(&mut bytes, at::A, market_value.0);
                put_u64(&mut bytes, at::B, i128::from(discount.0));
            }
        }
        bytes
    }

    fn kind(&self) -> u8 {
        match self {
            Record::Trade(_) => 1,
            Record::Pairing(_) => 2,
            Record::Deposit { .. } => 3,
            Record::Withdrawal { .. } => 4,
            Record::Securities { .. } => 5,
        }
    }

    /// The members the record names.
    pub fn named(&self) -> [Option<usize>; 2] {
        match *self {
            Record::Trade(Trade { buyer, seller, .. })
            | Record::Pairing(Pairing { buyer, seller, .. }) => [Some(buyer), Some(seller)],
            Record::Deposit { member, .. }
            | Record::Withdrawal { member, .. }
            | Record::Securities { member, .. } => [Some(member), None],
        }
    }
}

fn byte(index: usize) -> u8 {
    u8::try_from(index).expect("a number that fits one byte")
}

/// The fields of a record that may or may not be able to stand.
struct Fields<'a> {
    bytes: &'a [u8; at::SIZE],
    shape: Shape,
}

impl Fields<'_> {
    /// Reads the fields that the kind uses.
    fn record(&self) -> Option<Record> {
        match self.bytes[at::KIND] {
            1 => self.trade().map(Record::Trade),
            2 => self.pairing().map(Record::Pairing),
            3 => Some(Record::Deposit {
                member: self.member(at::FIRST_MEMBER)?,
                amount: self.amount()?,
            }),
            4 => Some(Record::Withdrawal {
                member: self.member(at::FIRST_MEMBER)?,
                amount: self.amount()?,
            }),
            5 => self.securities(),
            0 | 6..=u8::MAX => None,
        }
    }

    fn trade(&self) -> Option<Trade> {
        let price = i64::try_from(u64_at(self.bytes, at::A)).ok()?;
        let (buyer, seller) = self.buyer_and_seller()?;
        bounds::PRICE.contains(&price).then_some(Trade {
            contract: self.contract()?,
            buyer,
            seller,
            buyer_mark: Mark::from_number(self.bytes[at::FIRST_MARK])?,
            seller_mark: Mark::from_number(self.bytes[at::SECOND_MARK])?,
            price: Price(price),
            lots: self.lots()?,
        })
    }

    fn pairing(&self) -> Option<Pairing> {
        let (buyer, seller) = self.buyer_and_seller()?;
        Some(Pairing {
            contract: self.contract()?,
            buyer,
            seller,
            lots: self.lots()?,
        })
    }

    fn securities(&self) -> Option<Record> {
        let market_value = i128::from(u64_at(self.bytes, at::A));
        let discount = i64::try_from(u64_at(self.bytes, at::B)).ok()?;
        let member = self.member(at::FIRST_MEMBER)?;
        let stands =
            bounds::MARKET_VALUE.contains(&market_value) && bounds::DISCOUNT.contains(&discount);
        stands.then_some(Record::Securities {
            member,
            market_value: Fen(market_value),
            discount: Rate(discount),
        })
    }

    fn contract(&self) -> Option<usize> {
        let contract = usize::from(self.bytes[at::CONTRACT]);
        (contract < self.shape.contracts).then_some(contract)
    }

    fn member(&self, at: usize) -> Option<usize> {
        let member = usize::from(self.bytes[at]);
        (member < self.shape.members).then_some(member)
    }

    fn buyer_and_seller(&self) -> Option<(usize, usize)> {
        let buyer = self.member(at::FIRST_MEMBER)?;
        let seller = self.member(at::SECOND_MEMBER)?;
        (buyer != seller).then_some((buyer, seller))
    }

    fn amount(&self) -> Option<Fen> {
        let amount = i128::from(u64_at(self.bytes, at::A));
        bounds::RECORD_AMOUNT
            .contains(&amount)
            .then_some(Fen(amount))
    }

    fn lots(&self) -> Option<Lots> {
        let lots = i64::try_from(u64_at(self.bytes, at::B)).ok()?;
        bounds::RECORD_LOTS.contains(&lots).then_some(Lots(lots))
    }
}
