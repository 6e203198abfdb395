//! Every call of the archive from Rust: every refusal, the untouched output, and input and output of many lengths.

use muenglavot::*;

type Call = fn(&[u8], &mut [u8]) -> Result<(), Refusal>;

const INF: f64 = f64::INFINITY;
const NAN: f64 = f64::NAN;

// Patterns of ends: 1, the NaN that NaI has, and NaNs with another payload, with the sign set, and the least.
const ONE: u64 = 0x3FF0000000000000;
const QUIET: u64 = 0x7FF8000000000000;
const PAYLOAD: u64 = 0x7FF8000000000001;
const SIGN: u64 = 0xFFF8000000000000;
const LEAST: u64 = 0x7FF0000000000001;

const ILL: u8 = 0;
const TRV: u8 = 4;
const COM: u8 = 16;
const NO_DECORATION: u8 = 5;

const NEG: u8 = 1;
const ADD: u8 = 2;
const SUB: u8 = 3;
const MUL: u8 = 4;
const DIV: u8 = 5;
const OVERLAP: u8 = 17;
const EQUAL: u8 = 18;
const STRICT_PRECEDES: u8 = 25;
const COMPARISONS: usize = (STRICT_PRECEDES - EQUAL + 1) as usize;

fn interval(lower: f64, upper: f64) -> Vec<u8> {
    [lower.to_be_bytes(), upper.to_be_bytes()].concat()
}

fn decorated(lower: f64, upper: f64, decoration: u8) -> Vec<u8> {
    [interval(lower, upper), vec![decoration]].concat()
}

/// A decorated interval, or what is none, by the patterns of its ends: Rust fixes no pattern for its own NaN.
fn spelled(lower: u64, upper: u64, decoration: u8) -> Vec<u8> {
    [&lower.to_be_bytes()[..], &upper.to_be_bytes(), &[decoration]].concat()
}

fn nai() -> Vec<u8> {
    spelled(QUIET, QUIET, ILL)
}

fn request(operation: u8, first: &[u8], second: &[u8]) -> Vec<u8> {
    [&[operation], first, second].concat()
}

/// The same interval in the other byte order.
fn turned(bytes: &[u8]) -> Vec<u8> {
    let mut out = bytes.to_vec();
    out[..8].reverse();
    out[8..16].reverse();
    out
}

/// Bytes in hex, of a long list the first ones only.
fn shown(bytes: &[u8]) -> String {
    bytes.iter().take(40).map(|byte| format!("{byte:02X}")).collect()
}

/// Makes a call on an output that holds a pattern, and holds the result and the whole output to what is wanted: the bytes
/// of the answer, or a refusal's number and place with the output as it was.
fn expect(what: &str, call: Call, input: &[u8], out_len: usize, wanted: Result<&[u8], (u8, u8)>) {
    let before: Vec<u8> = (0..out_len).map(|i| (i * 91 + 7) as u8).collect();
    let mut output = before.clone();
    let got = call(input, &mut output).map_err(|refusal| (refusal.number, refusal.place));
    let asked = || format!("{what}, {} bytes in and {out_len} out, input {}", input.len(), shown(input));
    assert_eq!(got, wanted.map(|_| ()), "the number and the place differ: {}", asked());
    let after = wanted.map_or(before.as_slice(), |bytes| bytes);
    if let Some(at) = (0..out_len).find(|&i| output[i] != after[i]) {
        panic!("byte {at} of the output differs: {}, output {}, wanted {}", asked(), shown(&output), shown(after));
    }
}

/// Lengths 0 to 64 and a few large ones on both sides: 1 before 2, and nothing is written.
fn expect_lengths_refused(what: &str, call: Call, good: &[u8], out_len: usize) {
    for len in (0..65).chain([127, 256, 1000, 65536]) {
        if len != good.len() {
            expect(what, call, &vec![1; len], out_len, Err((1, 0)));
            expect(what, call, &vec![1; len], 3, Err((1, 0)));
        }
        if len != out_len {
            expect(what, call, good, len, Err((2, 0)));
        }
    }
}

/// Ends of which one or both are NaNs, and which are not NaI's.
const OTHER_NANS: [(&str, u64, u64); 11] = [
    ("another payload", PAYLOAD, PAYLOAD),
    ("another payload below", PAYLOAD, QUIET),
    ("another payload above", QUIET, PAYLOAD),
    ("the sign set", SIGN, SIGN),
    ("the sign set below", SIGN, QUIET),
    ("the sign set above", QUIET, SIGN),
    ("the least NaN", LEAST, LEAST),
    ("a NaN below only", QUIET, ONE),
    ("a NaN above only", ONE, QUIET),
    ("another NaN below only", SIGN, ONE),
    ("another NaN above only", ONE, SIGN),
];

/// Operands that are refused in a decorated request, with the number that they get.
fn bad_operands() -> Vec<(&'static str, Vec<u8>, u8)> {
    let mut operands = vec![
        ("a byte that is no decoration's", decorated(1.0, 2.0, NO_DECORATION), 4),
        ("4 before 5", decorated(2.0, 1.0, NO_DECORATION), 4),
        ("ends out of order", decorated(2.0, 1.0, COM), 5),
        ("a zero of the wrong sign", decorated(0.0, 1.0, COM), 5),
        ("Ill on an interval", decorated(1.0, 2.0, ILL), 6),
        ("Com without a bound", decorated(1.0, INF, COM), 6),
        ("EMPTY without Trv", decorated(INF, -INF, COM), 6),
        ("NaI's ends without Ill", spelled(QUIET, QUIET, TRV), 6),
    ];
    for (what, lower, upper) in OTHER_NANS {
        operands.push((what, spelled(lower, upper, ILL), 5));
        operands.push((what, spelled(lower, upper, TRV), 5));
        operands.push((what, spelled(lower, upper, NO_DECORATION), 4));
    }
    operands
}

/// Ends that are refused in a bare request.
fn bad_ends() -> Vec<(&'static str, Vec<u8>)> {
    let mut ends = vec![
        ("ends out of order", interval(2.0, 1.0)),
        ("a zero of the wrong sign", interval(0.0, 1.0)),
        ("both ends +inf", interval(INF, INF)),
        ("NaI's ends", nai()[..BARE].to_vec()),
    ];
    for (what, lower, upper) in OTHER_NANS {
        ends.push((what, spelled(lower, upper, ILL)[..BARE].to_vec()));
    }
    ends
}

#[test]
fn bare_sum() {
    let sum = request(ADD, &interval(1.0, 2.0), &interval(3.0, 4.0));
    expect("bare sum", request_bare, &sum, BARE, Ok(&interval(4.0, 6.0)));
}

#[test]
fn bare_negation_reads_no_second_operand() {
    let negated = request(NEG, &interval(1.0, 2.0), &interval(INF, INF));
    expect("bare negation", request_bare, &negated, BARE, Ok(&interval(-2.0, -1.0)));
}

#[test]
fn bare_overlap_answers_a_state_and_zero_bytes() {
    let overlap = request(OVERLAP, &interval(1.0, 2.0), &interval(2.0, 3.0));
    let mut meets = [0; BARE];
    meets[0] = 4;
    expect("bare overlap", request_bare, &overlap, BARE, Ok(&meets));
}

/// Makes the eight comparisons of two intervals, bare and with Trv, and holds them to the answers, in the order of their
/// numbers.
fn expect_compared(what: &str, first: (f64, f64), second: (f64, f64), yes: [u8; COMPARISONS]) {
    let [x, y] = [first, second].map(|(lower, upper)| decorated(lower, upper, TRV));
    for (operation, yes) in (EQUAL..=STRICT_PRECEDES).zip(yes) {
        let mut answer = [0; DECORATED];
        answer[0] = yes;
        expect(what, request_bare, &request(operation, &x[..BARE], &y[..BARE]), BARE, Ok(&answer[..BARE]));
        expect(what, request_decorated, &request(operation, &x, &y), DECORATED, Ok(&answer));
    }
}

#[test]
fn comparisons_answer_one_or_zero_and_zero_bytes() {
    let empty = (INF, -INF);
    expect_compared("with itself", (1.0, 2.0), (1.0, 2.0), [1, 1, 0, 0, 1, 0, 0, 0]);
    expect_compared("apart", (1.0, 2.0), (3.0, 4.0), [0, 0, 0, 1, 1, 1, 1, 1]);
    expect_compared("touching", (1.0, 2.0), (2.0, 3.0), [0, 0, 0, 0, 1, 1, 1, 0]);
    expect_compared("inside", (1.25, 1.5), (1.0, 2.0), [0, 1, 1, 0, 0, 0, 0, 0]);
    expect_compared("inside with a shared end", (1.0, 1.5), (1.0, 2.0), [0, 1, 0, 0, 1, 0, 0, 0]);
    expect_compared("around", (1.0, 2.0), (1.25, 1.5), [0; COMPARISONS]);
    expect_compared("zero alone", (-0.0, 0.0), (-0.0, 0.0), [1, 1, 0, 0, 1, 0, 1, 0]);
    expect_compared("no bound above", (1.0, INF), (-1.0, INF), [0, 1, 1, 0, 0, 0, 0, 0]);
    expect_compared("no bounds", (-INF, INF), (-INF, INF), [1, 1, 1, 0, 1, 1, 0, 0]);
    expect_compared("EMPTY twice", empty, empty, [1; COMPARISONS]);
    expect_compared("EMPTY first", empty, (1.0, 2.0), [0, 1, 1, 1, 0, 0, 1, 1]);
    expect_compared("EMPTY second", (1.0, 2.0), empty, [0, 0, 0, 1, 0, 0, 1, 1]);
}

#[test]
fn comparisons_of_nai_answer_no() {
    let (nai, other) = (nai(), decorated(1.0, 2.0, COM));
    for operation in EQUAL..=STRICT_PRECEDES {
        for (first, second) in [(&nai, &other), (&other, &nai), (&nai, &nai)] {
            let asked = request(operation, first, second);
            expect("NaI", request_decorated, &asked, DECORATED, Ok(&[0; DECORATED]));
        }
    }
}

#[test]
fn operands_of_comparisons_are_refused_with_their_place() {
    let (good, disordered) = (interval(1.0, 2.0), interval(2.0, 1.0));
    let nai = nai();
    for operation in EQUAL..=STRICT_PRECEDES {
        expect("bare, first", request_bare, &request(operation, &disordered, &good), BARE, Err((5, 1)));
        expect("bare, second", request_bare, &request(operation, &good, &disordered), BARE, Err((5, 2)));
        for (what, bad, number) in bad_operands() {
            expect(what, request_decorated, &request(operation, &bad, &nai), DECORATED, Err((number, 1)));
            expect(what, request_decorated, &request(operation, &nai, &bad), DECORATED, Err((number, 2)));
        }
    }
}

#[test]
fn bare_operands_are_refused_with_their_place() {
    let good = interval(1.0, 2.0);
    for (what, bad) in bad_ends() {
        expect(what, request_bare, &request(ADD, &bad, &good), BARE, Err((5, 1)));
        expect(what, request_bare, &request(ADD, &good, &bad), BARE, Err((5, 2)));
    }
}

#[test]
fn bare_request_lengths_are_refused() {
    let sum = request(ADD, &interval(1.0, 2.0), &interval(3.0, 4.0));
    expect_lengths_refused("bare request", request_bare, &sum, BARE);
}

/// Asks for an answer with its exact ends, from the ends of two operands, and holds it to the ends that are wanted and to which
/// of them are exact.
fn expect_exact(what: &str, operation: u8, first: (f64, f64), second: (f64, f64), ends: (f64, f64), exact: (bool, bool)) {
    let asked = request(operation, &interval(first.0, first.1), &interval(second.0, second.1));
    let wanted = [interval(ends.0, ends.1), vec![exact.0 as u8, exact.1 as u8]].concat();
    expect(what, request_bare_exact, &asked, BARE_EXACT, Ok(&wanted));
}

#[test]
fn exact_sums_and_differences() {
    let most = (f64::MAX, f64::MAX);
    let small = 2f64.powi(-60);
    expect_exact("sum", ADD, (1.0, 2.0), (3.0, 4.0), (4.0, 6.0), (true, true));
    expect_exact("more digits", ADD, (1.0, 2.0), (small, small), (1.0, 2.0 + 2.0 * f64::EPSILON), (false, false));
    expect_exact("beyond all doubles", ADD, most, most, (f64::MAX, INF), (false, false));
    expect_exact("without a bound", ADD, (1.0, INF), (1.0, 2.0), (2.0, INF), (true, true));
    expect_exact("EMPTY first", ADD, (INF, -INF), (1.0, 2.0), (INF, -INF), (true, true));
    expect_exact("EMPTY second", ADD, (1.0, 2.0), (INF, -INF), (INF, -INF), (true, true));
    expect_exact("difference", SUB, (1.0, 1.0), (3.0, 4.0), (-3.0, -2.0), (true, true));
    expect_exact("one end beyond", SUB, (-f64::MAX, -1.0), (1.0, f64::MAX), (-INF, -2.0), (false, true));
}

#[test]
fn exact_products() {
    let tiny = (f64::from_bits(1), f64::from_bits(1));
    let above_one = 1.0 + f64::EPSILON;
    let below_two = 2.0 - 2.0 * f64::EPSILON;
    let above_two = 2.0 + 2.0 * f64::EPSILON;
    expect_exact("zero times ENTIRE", MUL, (-0.0, 0.0), (-INF, INF), (-0.0, 0.0), (true, true));
    expect_exact("below all doubles", MUL, tiny, tiny, (-0.0, tiny.1), (false, false));
    // One product is 2, and the other just below it rounds up to 2.
    expect_exact("upper of two", MUL, (-1.0, above_one), (-2.0, below_two), (-above_two, 2.0), (true, true));
    expect_exact("lower of two", MUL, (-1.0, above_one), (-below_two, 2.0), (-2.0, above_two), (true, true));
}

#[test]
fn exact_quotients() {
    let third = f64::from_bits(0x3FD5555555555555);
    let above_third = f64::from_bits(0x3FD5555555555556);
    expect_exact("more digits", DIV, (1.0, 1.0), (3.0, 3.0), (third, above_third), (false, false));
    expect_exact("upper end", DIV, (1.0, 1.0), (1.0, 3.0), (third, 1.0), (false, true));
    expect_exact("lower end", DIV, (1.0, 1.0), (-3.0, -1.0), (-1.0, -third), (true, false));
    expect_exact("not attained", DIV, (1.0, 1.0), (1.0, INF), (-0.0, 1.0), (true, true));
    expect_exact("without a bound", DIV, (1.0, 2.0), (-0.0, 4.0), (0.25, INF), (true, true));
    expect_exact("divisor of zero alone", DIV, (1.0, 2.0), (-0.0, 0.0), (INF, -INF), (true, true));
}

#[test]
fn exact_negation_reads_no_second_operand() {
    expect_exact("bounded", NEG, (1.0, 2.0), (INF, INF), (-2.0, -1.0), (true, true));
    expect_exact("without a bound", NEG, (-INF, 0.0), (NAN, 1.0), (-0.0, INF), (true, true));
    expect_exact("EMPTY", NEG, (INF, -INF), (2.0, 1.0), (INF, -INF), (true, true));
}

#[test]
fn exact_operands_are_refused_with_their_place() {
    let good = interval(1.0, 2.0);
    for (what, bad) in bad_ends() {
        expect(what, request_bare_exact, &request(NEG, &bad, &good), BARE_EXACT, Err((5, 1)));
        for operation in ADD..=DIV {
            expect(what, request_bare_exact, &request(operation, &bad, &good), BARE_EXACT, Err((5, 1)));
            expect(what, request_bare_exact, &request(operation, &good, &bad), BARE_EXACT, Err((5, 2)));
            expect(what, request_bare_exact, &request(operation, &bad, &bad), BARE_EXACT, Err((5, 1)));
        }
    }
}

#[test]
fn exact_operation_numbers_other_than_1_to_5_are_refused() {
    for operation in (0..=255).filter(|n| !(NEG..=DIV).contains(n)) {
        for first in [interval(1.0, 2.0), interval(2.0, 1.0)] {
            let asked = request(operation, &first, &interval(3.0, 4.0));
            expect("exact operation number", request_bare_exact, &asked, BARE_EXACT, Err((3, 0)));
        }
    }
}

#[test]
fn exact_request_lengths_are_refused() {
    let sum = request(ADD, &interval(1.0, 2.0), &interval(3.0, 4.0));
    expect_lengths_refused("exact request", request_bare_exact, &sum, BARE_EXACT);
}

#[test]
fn operation_numbers_that_are_none_are_refused() {
    for operation in (0..=255).filter(|n| !(NEG..=STRICT_PRECEDES).contains(n)) {
        let bare = request(operation, &interval(2.0, 1.0), &interval(3.0, 4.0));
        expect("bare operation number", request_bare, &bare, BARE, Err((3, 0)));
        let both = request(operation, &decorated(2.0, 1.0, COM), &decorated(3.0, 4.0, COM));
        expect("decorated operation number", request_decorated, &both, DECORATED, Err((3, 0)));
    }
}

#[test]
fn decorated_quotient_is_rounded_outward() {
    let quotient = request(DIV, &decorated(1.0, 1.0, COM), &decorated(3.0, 3.0, COM));
    let third = [0x3FD5555555555555u64.to_be_bytes(), 0x3FD5555555555556u64.to_be_bytes()].concat();
    expect("decorated quotient", request_decorated, &quotient, DECORATED, Ok(&[third, vec![COM]].concat()));
}

#[test]
fn decorated_operands_are_refused_with_their_place() {
    let good = decorated(1.0, 1.0, COM);
    for (what, bad, number) in bad_operands() {
        expect(what, request_decorated, &request(ADD, &bad, &good), DECORATED, Err((number, 1)));
        expect(what, request_decorated, &request(ADD, &good, &bad), DECORATED, Err((number, 2)));
        expect(what, request_decorated, &request(ADD, &bad, &bad), DECORATED, Err((number, 1)));
    }
}

#[test]
fn decorated_request_lengths_are_refused() {
    let quotient = request(DIV, &decorated(1.0, 1.0, COM), &decorated(3.0, 3.0, COM));
    expect_lengths_refused("decorated request", request_decorated, &quotient, DECORATED);
}

#[test]
fn codecs_turn_the_byte_order() {
    let big = decorated(-0.0, 2.5, COM);
    let little = turned(&big);
    expect("bare to little", bare_be_to_le, &big[..BARE], BARE, Ok(&little[..BARE]));
    expect("bare to big", bare_le_to_be, &little[..BARE], BARE, Ok(&big[..BARE]));
    expect("decorated to little", decorated_be_to_le, &big, DECORATED, Ok(&little));
    expect("decorated to big", decorated_le_to_be, &little, DECORATED, Ok(&big));
}

#[test]
fn codecs_turn_nai() {
    let (big, little) = (nai(), turned(&nai()));
    expect("NaI to little", decorated_be_to_le, &big, DECORATED, Ok(&little));
    expect("NaI to big", decorated_le_to_be, &little, DECORATED, Ok(&big));
}

#[test]
fn codecs_refuse_at_place_one() {
    for (what, bad) in bad_ends() {
        expect(what, bare_be_to_le, &bad, BARE, Err((5, 1)));
        expect(what, bare_le_to_be, &turned(&bad), BARE, Err((5, 1)));
    }
    for (what, bad, number) in bad_operands() {
        expect(what, decorated_be_to_le, &bad, DECORATED, Err((number, 1)));
        expect(what, decorated_le_to_be, &turned(&bad), DECORATED, Err((number, 1)));
    }
}

#[test]
fn codec_lengths_are_refused() {
    let big = decorated(-0.0, 2.5, COM);
    let little = turned(&big);
    expect_lengths_refused("bare to little", bare_be_to_le, &big[..BARE], BARE);
    expect_lengths_refused("bare to big", bare_le_to_be, &little[..BARE], BARE);
    expect_lengths_refused("decorated to little", decorated_be_to_le, &big, DECORATED);
    expect_lengths_refused("decorated to big", decorated_le_to_be, &little, DECORATED);
}
