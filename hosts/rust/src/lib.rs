//! Proved interval arithmetic on interchange bytes: the seven calls of `include/muenglavot.h` in safe Rust.
//!
//! An operand's bytes, the operation numbers and the numbers of a refusal are described in that header.
//!
//! One step comes before `cargo test --offline` and `cargo build`: `tests/build` in the repository writes the archive
//! that build.rs links. Where it lies elsewhere, MUENGLAVOT_ARCHIVE_DIR names the folder that has libhost.a.
//!
//! ```
//! // 5 is the quotient: [1, 1] by [3, 3], both with Com, which is 16.
//! let mut request = vec![5];
//! for end in [1.0f64, 3.0] {
//!     request.extend([end.to_be_bytes(), end.to_be_bytes()].concat());
//!     request.push(16);
//! }
//! let mut answer = [0; muenglavot::DECORATED];
//! muenglavot::request_decorated(&request, &mut answer)?;
//! assert_eq!(answer[..8], 0x3FD5555555555555u64.to_be_bytes());
//! assert_eq!(answer[8..16], 0x3FD5555555555556u64.to_be_bytes());
//! assert_eq!(answer[16], 16);
//! # Ok::<(), muenglavot::Refusal>(())
//! ```
//!
//! Whether a record lies inside a drawing's window is a comparison. Its answer is 1 for yes or 0 for no, in the first byte.
//!
//! ```
//! // 19 is subset: [1, 2] in the window [1, 4].
//! let mut request = vec![19];
//! request.extend([1.0f64, 2.0, 1.0, 4.0].map(f64::to_be_bytes).concat());
//! let mut answer = [0; muenglavot::BARE];
//! muenglavot::request_bare(&request, &mut answer)?;
//! assert_eq!(answer[0], 1);
//! # Ok::<(), muenglavot::Refusal>(())
//! ```

use std::fmt;

/// The bytes of a bare interval.
pub const BARE: usize = 16;
/// The bytes of a bare interval, and of one byte for each end that says whether it is exact.
pub const BARE_EXACT: usize = BARE + 2;
/// The bytes of a decorated interval.
pub const DECORATED: usize = 17;
/// The bytes of a bare request: an operation number and two operands.
pub const BARE_REQUEST: usize = 1 + 2 * BARE;
/// The bytes of a decorated request.
pub const DECORATED_REQUEST: usize = 1 + 2 * DECORATED;

/// Why a call wrote nothing: document 01's number, and the place of the operand that is wrong, or 0.
#[derive(Clone, Copy, Debug, PartialEq, Eq)]
pub struct Refusal {
    pub number: u8,
    pub place: u8,
}

impl fmt::Display for Refusal {
    fn fmt(&self, f: &mut fmt::Formatter<'_>) -> fmt::Result {
        write!(f, "refused with number {}, place {}", self.number, self.place)
    }
}

impl std::error::Error for Refusal {}

type Call = unsafe extern "C" fn(*const u8, usize, *mut u8, usize) -> u32;

extern "C" {
    fn muenglavot_request_bare(input: *const u8, in_len: usize, out: *mut u8, out_len: usize) -> u32;
    fn muenglavot_request_bare_exact(input: *const u8, in_len: usize, out: *mut u8, out_len: usize) -> u32;
    fn muenglavot_request_decorated(input: *const u8, in_len: usize, out: *mut u8, out_len: usize) -> u32;
    fn muenglavot_bare_be_to_le(input: *const u8, in_len: usize, out: *mut u8, out_len: usize) -> u32;
    fn muenglavot_bare_le_to_be(input: *const u8, in_len: usize, out: *mut u8, out_len: usize) -> u32;
    fn muenglavot_decorated_be_to_le(input: *const u8, in_len: usize, out: *mut u8, out_len: usize) -> u32;
    fn muenglavot_decorated_le_to_be(input: *const u8, in_len: usize, out: *mut u8, out_len: usize) -> u32;
}

fn call(f: Call, input: &[u8], output: &mut [u8]) -> Result<(), Refusal> {
    // The two slices are valid for their lengths, and Rust's borrows keep them apart during the call.
    let result = unsafe { f(input.as_ptr(), input.len(), output.as_mut_ptr(), output.len()) };
    match (result % 256, result / 256) {
        (0, _) => Ok(()),
        (number, place) => Err(Refusal {
            number: number as u8,
            place: place as u8,
        }),
    }
}

/// One operation on bare intervals, or a comparison of them: 33 bytes in, 16 out. A refusal leaves `output` as it was.
pub fn request_bare(input: &[u8], output: &mut [u8]) -> Result<(), Refusal> {
    call(muenglavot_request_bare, input, output)
}

/// One of the operations 1 to 5 on bare intervals, and which ends of the answer are exact: 33 bytes in, 18 out, of which the
/// last two are 1 or 0 for the lower and for the upper end. An end is exact if it is the true bound of all results, attained
/// or not. A refusal leaves `output` as it was.
pub fn request_bare_exact(input: &[u8], output: &mut [u8]) -> Result<(), Refusal> {
    call(muenglavot_request_bare_exact, input, output)
}

/// One operation on decorated intervals, or a comparison of them: 35 bytes in, 17 out. A refusal leaves `output` as it was.
pub fn request_decorated(input: &[u8], output: &mut [u8]) -> Result<(), Refusal> {
    call(muenglavot_request_decorated, input, output)
}

/// One bare interval from big to little endian, 16 bytes each.
pub fn bare_be_to_le(input: &[u8], output: &mut [u8]) -> Result<(), Refusal> {
    call(muenglavot_bare_be_to_le, input, output)
}

/// One bare interval from little to big endian, 16 bytes each.
pub fn bare_le_to_be(input: &[u8], output: &mut [u8]) -> Result<(), Refusal> {
    call(muenglavot_bare_le_to_be, input, output)
}

/// One decorated interval from big to little endian, 17 bytes each.
pub fn decorated_be_to_le(input: &[u8], output: &mut [u8]) -> Result<(), Refusal> {
    call(muenglavot_decorated_be_to_le, input, output)
}

/// One decorated interval from little to big endian, 17 bytes each.
pub fn decorated_le_to_be(input: &[u8], output: &mut [u8]) -> Result<(), Refusal> {
    call(muenglavot_decorated_le_to_be, input, output)
}
