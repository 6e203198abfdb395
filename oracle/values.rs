//! Answers records of calls by value, under the numbers of crates/value_run.

use crate::{
    bare_operation, bytes_at, decorated_operation, flag, padded, Answer, MISSING, NOT_ASKED,
    REFUSED,
};
use inari::{DecInterval, Decoration, Interval};

/// What lies between the numbers of an operation.
const GROUP: u8 = 32;

/// What is refused of the first operand, or of the only one.
const FIRST: [u8; 2] = [REFUSED, 1];

/// The two ends of an operand.
fn ends(operand: [u8; 17]) -> (f64, f64) {
    let end = |from| f64::from_be_bytes(<[u8; 8]>::try_from(&operand[from..from + 8]).unwrap());
    (end(0), end(8))
}

/// The same operand with its zeros as the bytes have them: by value, either sign is taken.
fn tidied(mut operand: [u8; 17]) -> [u8; 17] {
    let (a, b) = ends(operand);
    if a == 0.0 {
        operand[..8].copy_from_slice(&(-0.0f64).to_be_bytes());
    }
    if b == 0.0 {
        operand[8..16].copy_from_slice(&0.0f64.to_be_bytes());
    }
    operand
}

fn sixteen(operand: [u8; 17]) -> [u8; 16] {
    <[u8; 16]>::try_from(&operand[..16]).unwrap()
}

fn bare(record: &[u8], place: u8) -> Option<Interval> {
    Interval::try_from_be_bytes(sixteen(tidied(bytes_at(record, place))))
}

fn decorated(record: &[u8], place: u8) -> Option<DecInterval> {
    DecInterval::try_from_be_bytes(tidied(bytes_at(record, place)))
}

/// The decoration of an operand. Nothing else can be passed by value.
fn decoration(record: &[u8], place: u8) -> Result<Decoration, [u8; 2]> {
    match bytes_at::<17>(record, place)[16] {
        0 => Ok(Decoration::Ill),
        4 => Ok(Decoration::Trv),
        8 => Ok(Decoration::Def),
        12 => Ok(Decoration::Dac),
        16 => Ok(Decoration::Com),
        _ => Err([REFUSED, place]),
    }
}

/// An operation whose operands all have a decoration.
fn known_operation(number: u8, record: &[u8]) -> Answer<17> {
    decoration(record, 1)?;
    if matches!(number, 2..=9 | 17..=25) {
        decoration(record, 2)?;
    }
    decorated_operation(number, |place| decorated(record, place))
}

fn bare_function(number: u8, record: &[u8]) -> Answer<17> {
    if number == 64 {
        let made = Interval::try_from(ends(bytes_at(record, 1)));
        return made.map(|x| padded(&x.to_be_bytes())).map_err(|_| FIRST);
    }
    if number == 73 {
        decoration(record, 1)?;
    }
    let x = bare(record, 1).ok_or(FIRST)?;
    Ok(match number {
        65 => padded(&x.inf().to_be_bytes()),
        66 => padded(&x.sup().to_be_bytes()),
        67 => flag(x.is_empty()),
        68 => flag(x.is_entire()),
        69 => flag(x.is_common_interval()),
        70 => flag(x.is_singleton()),
        // The crate's `classify` is private.
        71 => return Err([NOT_ASKED, 0]),
        72 => DecInterval::new(x).to_be_bytes(),
        73 => DecInterval::set_dec(x, decoration(record, 1)?).to_be_bytes(),
        74 => padded(&x.to_be_bytes()),
        75 => padded(&x.to_le_bytes()),
        _ => unreachable!(),
    })
}

fn interval_part(x: DecInterval) -> [u8; 17] {
    match x.interval() {
        Some(part) => padded(&part.to_be_bytes()),
        None => {
            let mut bytes = [0; 17];
            bytes[16] = MISSING;
            bytes
        }
    }
}

fn decorated_function(number: u8, record: &[u8]) -> Answer<17> {
    if number == 96 {
        let made = DecInterval::try_from(ends(bytes_at(record, 1)));
        return made.map(DecInterval::to_be_bytes).map_err(|_| FIRST);
    }
    let x = decorated(record, 1).ok_or(FIRST)?;
    Ok(match number {
        97 => padded(&x.inf().to_be_bytes()),
        98 => padded(&x.sup().to_be_bytes()),
        99 => flag(x.is_empty()),
        100 => flag(x.is_entire()),
        101 => flag(x.is_common_interval()),
        102 => flag(x.is_singleton()),
        103 => flag(x.is_nai()),
        104 => interval_part(x),
        105 => padded(&[x.decoration() as u8]),
        // The parts of a decorated interval are put together only by its bytes.
        106 | 107 => x.to_be_bytes(),
        108 => x.to_le_bytes(),
        _ => unreachable!(),
    })
}

fn from_bytes(number: u8, operand: [u8; 17]) -> Answer<17> {
    let made = match number {
        128 => Interval::try_from_be_bytes(sixteen(operand)).map(|x| padded(&x.to_be_bytes())),
        129 => Interval::try_from_le_bytes(sixteen(operand)).map(|x| padded(&x.to_be_bytes())),
        130 => DecInterval::try_from_be_bytes(operand).map(DecInterval::to_be_bytes),
        131 => DecInterval::try_from_le_bytes(operand).map(DecInterval::to_be_bytes),
        // The constants are supplied here, and not the crate's.
        132..=135 => return Err([NOT_ASKED, 0]),
        _ => unreachable!(),
    };
    made.ok_or(FIRST)
}

pub fn answer(record: &[u8]) -> Answer<17> {
    let number = record[0];
    let operation = number % GROUP;
    match number {
        1..=25 | 161..=185 => known_operation(operation, record),
        // The crate reports no exact ends, so that the last byte stays 0.
        33..=57 | 193..=217 | 225..=229 => {
            bare_operation(operation, |place| bare(record, place)).map(|x| padded(&x))
        }
        64..=75 => bare_function(number, record),
        96..=108 => decorated_function(number, record),
        128..=135 => from_bytes(number, bytes_at(record, 1)),
        _ => Err([REFUSED, 0]),
    }
}
