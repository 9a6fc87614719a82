//! Case E of the specification, as a day file.

use super::day_file;
use crate::account::{Account, MemberKind};
use crate::book::Book;
use crate::contract::Contract;
use crate::position::{Mark, Position, Side};
use crate::record::{Record, Trade};
use crate::units::{Fen, Lots, Multiplier, Price, Rate};

/// The book of Case E.
pub fn book() -> Book {
    let contract = Contract {
        last_price: Price(500_000),
        multiplier: Multiplier(10),
        margin_rate: Rate(500),
        trade_fee: Fen(300),
        delivery_fee: Fen(100),
    };
    let account = |kind, reserve| Account {
        kind,
        accepted: 0,
        reserve,
        margin: Fen(2_500_000),
        usable: Fen::ZERO,
        market_value: Fen::ZERO,
        discount: Rate(0),
        deposits: Fen::ZERO,
        withdrawals: Fen::ZERO,
    };
    let mut positions = vec![Position::default(); 2];
    positions[0][Side::Long].opening = Lots(10);
    positions[1][Side::Short].opening = Lots(10);
    Book {
        contracts: vec![contract],
        accounts: vec![
            account(MemberKind::Broker, Fen(300_000_000)),
            account(MemberKind::Other, Fen(80_000_000)),
        ],
        positions,
    }
}

/// Its one record: member 1 buys 4 from member 0, both closing old lots.
pub fn record() -> Record {
    Record::Trade(Trade {
        contract: 0,
        buyer: 1,
        seller: 0,
        buyer_mark: Mark::ClosesOld,
        seller_mark: Mark::ClosesOld,
        price: Price(510_000),
        lots: Lots(4),
    })
}

/// Its evening prices.
pub fn prices() -> Vec<u8> {
    [505_000u32, 0].map(u32::to_le_bytes).concat()
}

/// The whole day file.
pub fn file() -> Vec<u8> {
    let records = [record().encode().to_vec()];
    day_file(&book().encode(), &records, &prices())
}
