//! Answers requests, and records of calls by value, by calling the crate inari.
//!
//! `driver bare` reads requests of 33 bytes and writes 18 for each,
//! `driver decorated` reads 35 and writes 19: number, place, answer.
//! `driver bare-be-to-le` and the like read intervals of 16 or 17 bytes in one
//! byte order and write 18 or 19: number, place, the interval in the other order.
//! `driver values` reads records of 35 bytes, as crates/value_run does, and writes
//! 19 for each.
//!
//! The crate has no refusal numbers. Where it refuses an operand's bytes, the
//! number is 255 with the operand's place; for an operation number that is not
//! 1 to 25, or a function number that is none, it is 255 with place 0. Where the
//! crate cannot be asked, the number is 254. The answer is then all zero.

mod values;

use inari::{DecInterval, Interval};
use std::io::{self, BufReader, BufWriter, Read, Write};
use std::process::ExitCode;

const REFUSED: u8 = 255;
const NOT_ASKED: u8 = 254;

/// The overlap state of two decorated intervals if one is NaI: the crate says
/// `None`, document 01 says 16.
const NAI_OVERLAP: u8 = 16;

/// Stands last in the answer where the crate says that NaI has no interval part.
const MISSING: u8 = 255;

/// What was answered: N bytes, or a number and the place of an operand.
type Answer<const N: usize> = Result<[u8; N], [u8; 2]>;

/// Bytes with zeros behind them.
fn padded<const N: usize>(bytes: &[u8]) -> [u8; N] {
    let mut all = [0; N];
    all[..bytes.len()].copy_from_slice(bytes);
    all
}

/// A truth value, with zeros behind it.
fn flag<const N: usize>(answer: bool) -> [u8; N] {
    padded(&[answer.into()])
}

/// The operand at a place of a request whose operands are N bytes long each.
fn bytes_at<const N: usize>(request: &[u8], place: u8) -> [u8; N] {
    let from = 1 + (usize::from(place) - 1) * N;
    <[u8; N]>::try_from(&request[from..from + N]).unwrap()
}

/// Applies the operation with a number to its operands. The second is asked for
/// only by the operations that have two.
macro_rules! operation {
    ($name:ident, $Type:ty, $N:literal, $overlap:expr) => {
        fn $name(number: u8, operand: impl Fn(u8) -> Option<$Type>) -> Answer<$N> {
            let operand = |place| operand(place).ok_or([REFUSED, place]);
            if !(1..=25).contains(&number) {
                return Err([REFUSED, 0]);
            }
            let x = operand(1)?;
            let result = match number {
                1 => -x,
                10 => x.abs(),
                11 => x.ceil(),
                12 => x.floor(),
                13 => x.round(),
                14 => x.round_ties_even(),
                15 => x.sign(),
                16 => x.trunc(),
                _ => {
                    let y = operand(2)?;
                    match number {
                        2 => x + y,
                        3 => x - y,
                        4 => x * y,
                        5 => x / y,
                        6 => x.convex_hull(y),
                        7 => x.intersection(y),
                        8 => x.max(y),
                        9 => x.min(y),
                        17 => return Ok(padded(&[$overlap(x, y)])),
                        18 => return Ok(flag(x == y)),
                        19 => return Ok(flag(x.subset(y))),
                        20 => return Ok(flag(x.interior(y))),
                        21 => return Ok(flag(x.disjoint(y))),
                        22 => return Ok(flag(x.less(y))),
                        23 => return Ok(flag(x.strict_less(y))),
                        24 => return Ok(flag(x.precedes(y))),
                        _ => return Ok(flag(x.strict_precedes(y))),
                    }
                }
            };
            Ok(result.to_be_bytes())
        }
    };
}

operation!(bare_operation, Interval, 16, |x: Interval, y| x.overlap(y) as u8);
operation!(decorated_operation, DecInterval, 17, |x: DecInterval, y| x
    .overlap(y)
    .map_or(NAI_OVERLAP, |state| state as u8));

fn bare(request: &[u8]) -> Answer<16> {
    bare_operation(request[0], |place| Interval::try_from_be_bytes(bytes_at(request, place)))
}

fn decorated(request: &[u8]) -> Answer<17> {
    decorated_operation(request[0], |place| DecInterval::try_from_be_bytes(bytes_at(request, place)))
}

/// Reads an interval in one byte order and writes it in the other.
macro_rules! convert {
    ($name:ident, $Type:ty, $N:literal, $read:ident, $write:ident) => {
        fn $name(bytes: &[u8]) -> Answer<$N> {
            let bytes = <[u8; $N]>::try_from(bytes).unwrap();
            <$Type>::$read(bytes).map(<$Type>::$write).ok_or([REFUSED, 1])
        }
    };
}

convert!(bare_be_to_le, Interval, 16, try_from_be_bytes, to_le_bytes);
convert!(bare_le_to_be, Interval, 16, try_from_le_bytes, to_be_bytes);
convert!(
    decorated_be_to_le,
    DecInterval,
    17,
    try_from_be_bytes,
    to_le_bytes
);
convert!(
    decorated_le_to_be,
    DecInterval,
    17,
    try_from_le_bytes,
    to_be_bytes
);

/// Answers every request of the input; LEN is a request's length.
fn run<const LEN: usize, const N: usize>(answer: fn(&[u8]) -> Answer<N>) -> io::Result<()> {
    let mut input = BufReader::with_capacity(1 << 16, io::stdin().lock());
    let mut output = BufWriter::with_capacity(1 << 16, io::stdout().lock());
    let mut request = [0; LEN];
    loop {
        match input.read(&mut request[..1])? {
            0 => return output.flush(),
            _ => input.read_exact(&mut request[1..])?,
        }
        let (head, bytes) = match answer(&request) {
            Ok(bytes) => ([0, 0], bytes),
            Err(head) => (head, [0; N]),
        };
        output.write_all(&head)?;
        output.write_all(&bytes)?;
    }
}

fn main() -> ExitCode {
    let done = match std::env::args().nth(1).as_deref() {
        Some("bare") => run::<33, 16>(bare),
        Some("decorated") => run::<35, 17>(decorated),
        Some("bare-be-to-le") => run::<16, 16>(bare_be_to_le),
        Some("bare-le-to-be") => run::<16, 16>(bare_le_to_be),
        Some("decorated-be-to-le") => run::<17, 17>(decorated_be_to_le),
        Some("decorated-le-to-be") => run::<17, 17>(decorated_le_to_be),
        Some("values") => run::<35, 17>(values::answer),
        _ => Err(io::Error::other("name one of the seven forms")),
    };
    if let Err(error) = done {
        eprintln!("driver: {error}");
        return ExitCode::FAILURE;
    }
    ExitCode::SUCCESS
}
