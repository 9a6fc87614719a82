//! The book: reading it from bytes and writing it back.

use crate::account::Account;
use crate::bounds;
use crate::bytes::{put_u16, put_u32, u16_at};
use crate::contract::Contract;
use crate::layout::{contents, head, position, Section, Shape, FRONT};
use crate::position::Position;

/// A book taken apart. Positions stand member by member, within a member
/// contract by contract.
#[derive(Clone, PartialEq, Eq, Debug)]
pub struct Book {
    pub contracts: Vec<Contract>,
    pub accounts: Vec<Account>,
    pub positions: Vec<Position>,
}

impl Book {
    /// Reads head, table of contents and rows, whatever the figures in them;
    /// none if the bytes are not those of one shape.
    pub fn read(bytes: &[u8]) -> Option<Book> {
        read_rows(bytes, read_shape(bytes)?)
    }

    pub fn shape(&self) -> Shape {
        Shape {
            members: self.accounts.len(),
            contracts: self.contracts.len(),
        }
    }

    /// The book's bytes. Every figure has to fit its field, as those of a
    /// valid book do.
    pub fn encode(&self) -> Vec<u8> {
        let mut bytes = vec![0; self.shape().total()];
        self.encode_into(&mut bytes);
        bytes
    }

    /// Writes the book to the front of bytes of at least its total length.
    pub fn encode_into(&self, bytes: &mut [u8]) {
        let shape = self.shape();
        write_front(shape, bytes);
        for (index, contract) in self.contracts.iter().enumerate() {
            bytes[shape.contract(index)].copy_from_slice(&contract.encode());
        }
        for member in 0..shape.members {
            self.encode_member(member, bytes);
        }
    }

    /// Writes the rows of one member alone.
    pub fn encode_member(&self, member: usize, bytes: &mut [u8]) {
        let shape = self.shape();
        bytes[shape.account(member)].copy_from_slice(&self.accounts[member].encode());
        let rows = bytes[shape.positions(member)].chunks_exact_mut(position::SIZE);
        for (row, position) in rows.zip(self.positions_of(member)) {
            row.copy_from_slice(&position.encode());
        }
    }

    pub fn position(&self, member: usize, contract: usize) -> &Position {
        &self.positions[member * self.contracts.len() + contract]
    }

    pub fn position_mut(&mut self, member: usize, contract: usize) -> &mut Position {
        &mut self.positions[member * self.contracts.len() + contract]
    }

    /// A member's positions, contract by contract.
    pub fn positions_of(&self, member: usize) -> &[Position] {
        let contracts = self.contracts.len();
        &self.positions[member * contracts..(member + 1) * contracts]
    }

    /// All members' positions in a contract.
    pub fn positions_in(&self, contract: usize) -> impl Iterator<Item = &Position> {
        self.positions
            .iter()
            .skip(contract)
            .step_by(self.contracts.len())
    }
}

/// Reads head and table of contents; none unless they and the length fit.
fn read_shape(bytes: &[u8]) -> Option<Shape> {
    if bytes.len() < FRONT {
        return None;
    }
    let shape = Shape {
        members: usize::from(u16_at(bytes, head::MEMBERS)),
        contracts: usize::from(u16_at(bytes, head::CONTRACTS)),
    };
    let fits = bounds::MEMBERS.contains(&shape.members)
        && bounds::CONTRACTS.contains(&shape.contracts)
        && bytes.len() == shape.total()
        && front(shape) == bytes[..FRONT];
    fits.then_some(shape)
}

fn read_rows(bytes: &[u8], shape: Shape) -> Option<Book> {
    let [contracts, accounts, positions] = shape.sections();
    Some(Book {
        contracts: read_section(bytes, contracts, Contract::decode)?,
        accounts: read_section(bytes, accounts, Account::decode)?,
        positions: read_section(bytes, positions, Position::decode)?,
    })
}

/// Reads all rows of a section; none if one of them cannot be read.
fn read_section<Row>(
    bytes: &[u8],
    section: Section,
    decode: impl Fn(&[u8]) -> Option<Row>,
) -> Option<Vec<Row>> {
    let mut rows = Vec::with_capacity(section.rows);
    for row in bytes[section.body()].chunks_exact(section.row_size) {
        rows.push(decode(row)?);
    }
    Some(rows)
}

/// The one head and table of contents that a book of this shape has.
fn front(shape: Shape) -> [u8; FRONT] {
    let mut bytes = [0; FRONT];
    write_front(shape, &mut bytes);
    bytes
}

/// Writes the head and the table of contents of a book of any shape to the front
/// of bytes that have room for them.
pub fn write_front(shape: Shape, bytes: &mut [u8]) {
    put_u16(bytes, head::MEMBERS, shape.members);
    put_u16(bytes, head::CONTRACTS, shape.contracts);
    put_u32(bytes, head::TOTAL, shape.total() as i64);
    let entries = bytes[head::SIZE..FRONT].chunks_exact_mut(contents::SIZE);
    for (entry, section) in entries.zip(shape.sections()) {
        put_u16(entry, contents::NUMBER, usize::from(section.number));
        put_u16(entry, contents::ROW_SIZE, section.row_size);
        put_u32(entry, contents::OFFSET, section.offset as i64);
    }
}
