//! Damage done to a day file that was sound.

use super::fields::fields;
use super::misstate::{misstate, unbalance};
use super::random::Random;
use crate::book::Book;
use crate::bytes::u32_at;
use crate::layout::{contents, head, record, Shape, FRONT};

/// One way to damage a day file.
#[derive(Clone, Copy, PartialEq, Eq, Debug)]
pub enum Damage {
    BitFlips,
    Cut,
    ExtraBytes,
    WrongCount,
    WrongHead,
    /// A total at or beside an end of its range, and an input that long.
    WrongTotal,
    WrongContents,
    Unbalanced,
    Misstated,
    BeyondBound,
    /// Nothing is left of the day.
    Noise,
}

impl Damage {
    pub const ALL: [Damage; 11] = [
        Damage::BitFlips,
        Damage::Cut,
        Damage::ExtraBytes,
        Damage::WrongCount,
        Damage::WrongHead,
        Damage::WrongTotal,
        Damage::WrongContents,
        Damage::Unbalanced,
        Damage::Misstated,
        Damage::BeyondBound,
        Damage::Noise,
    ];

    /// The damage that a book alone can take, and not only a day file.
    pub fn to_a_book() -> Vec<Damage> {
        let of_the_book = |damage: &Damage| *damage != Damage::WrongCount;
        Damage::ALL.into_iter().filter(of_the_book).collect()
    }

    /// Damages a day file whose book has this shape; or the book alone, where
    /// the damage can be done to one.
    pub fn apply(self, random: &mut Random, file: &mut Vec<u8>, shape: Shape) {
        match self {
            Damage::BitFlips => flip_bits(random, file),
            Damage::Cut => file.truncate(random.below(file.len() + 1)),
            Damage::ExtraBytes => insert_bytes(random, file),
            Damage::WrongCount => change_number(random, &mut file[shape.total()..][..4]),
            Damage::WrongHead => {
                let fields = [
                    head::MEMBERS..head::CONTRACTS,
                    head::CONTRACTS..head::TOTAL,
                    head::TOTAL..head::SIZE,
                ];
                let field = random.pick(&fields).clone();
                change_number(random, &mut file[field]);
            }
            Damage::WrongTotal => change_total(random, file),
            Damage::WrongContents => change_contents(random, file),
            Damage::Unbalanced => change_book(random, file, unbalance),
            Damage::Misstated => change_book(random, file, misstate),
            Damage::BeyondBound => pass_bound(random, file),
            Damage::Noise => *file = noise(random),
        }
    }
}

fn flip_bits(random: &mut Random, file: &mut [u8]) {
    for _ in 0..random.below(3) + 1 {
        let at = random.below(file.len());
        file[at] ^= 1 << random.below(8);
    }
}

fn insert_bytes(random: &mut Random, file: &mut Vec<u8>) {
    let at = if random.chance(60) {
        file.len()
    } else {
        random.below(file.len() + 1)
    };
    for _ in 0..random.below(30) + 1 {
        file.insert(at, random.bits() as u8);
    }
}

/// Moves a little-endian number by a little, or sets it to any value.
fn change_number(random: &mut Random, field: &mut [u8]) {
    let mut wide = [0; 8];
    wide[..field.len()].copy_from_slice(field);
    let value = u64::from_le_bytes(wide);
    let changed = match random.below(6) {
        0 => value.wrapping_add(1),
        1 => value.wrapping_sub(1),
        2 => value.wrapping_add(random.below(100) as u64),
        3 => 0,
        4 => u64::MAX,
        _ => random.bits(),
    };
    let length = field.len();
    field.copy_from_slice(&changed.to_le_bytes()[..length]);
}

/// Records follow the book that the total speaks of, so that it shows whether
/// that book was taken for one.
fn change_total(random: &mut Random, file: &mut Vec<u8>) {
    let total = *random.pick(&[0, 31, 32, 33, 51_999, 52_000, 52_001, 52_100]);
    file[head::TOTAL..head::SIZE].copy_from_slice(&(total as u32).to_le_bytes());
    file.resize(total.max(FRONT), 0);
    let records = random.below(3);
    file.extend((records as u32).to_le_bytes());
    file.extend(vec![1; records * record::SIZE]);
}

fn change_contents(random: &mut Random, file: &mut [u8]) {
    let entry = head::SIZE + random.below(contents::ENTRIES) * contents::SIZE;
    let fields = [
        contents::NUMBER..contents::ROW_SIZE,
        contents::ROW_SIZE..contents::OFFSET,
        contents::OFFSET..contents::SIZE,
    ];
    let field = random.pick(&fields).clone();
    change_number(random, &mut file[entry + field.start..entry + field.end]);
}

/// The book at the front of a file, where that is still sound.
fn book_of(file: &[u8]) -> Option<Book> {
    let total = u32_at(file, head::TOTAL) as usize;
    Book::decode(file.get(..total)?).ok()
}

/// Changes the book at the front of a sound file.
fn change_book(random: &mut Random, file: &mut [u8], change: fn(&mut Random, &mut Book)) {
    if let Some(mut book) = book_of(file) {
        change(random, &mut book);
        book.encode_into(file);
    }
}

/// Stores one field of the book one beyond one of its bounds.
fn pass_bound(random: &mut Random, file: &mut [u8]) {
    if let Some(book) = book_of(file) {
        let field = random.pick(&fields(&book)).clone();
        field.store(file, *random.pick(&field.beyond()));
    }
}

/// Bytes of no meaning, at times behind a head that claims a book.
pub fn noise(random: &mut Random) -> Vec<u8> {
    let length = random.below(400);
    let mut bytes: Vec<u8> = (0..length).map(|_| random.bits() as u8).collect();
    if random.chance(50) && length >= FRONT {
        let total = random.below(length + 20) as u32;
        bytes[head::TOTAL..head::SIZE].copy_from_slice(&total.to_le_bytes());
    }
    bytes
}
