//! The calls as the archive exports them, with all figures that they return.
//!
//! The functions of the crate's root are easier to use. These are for those who want to see every
//! figure, as tests do. `include/comzsered.h` describes them in full. A figure that an outcome does
//! not name is 0.

use crate::{Input, GATES_MAX, LITERALS_MAX, RULES_MAX, WISHES_MAX};

/// The figures of Answer and Short run.
#[derive(Clone, Copy, Debug, PartialEq, Eq)]
pub struct Found {
    pub number: u32,
    pub place: usize,
    pub column: usize,
    pub plan: u32,
    pub cost: u32,
    pub length: usize,
}

/// The figures of Rating; `sound` is 1 or 0.
#[derive(Clone, Copy, Debug, PartialEq, Eq)]
pub struct Rated {
    pub number: u32,
    pub place: usize,
    pub column: usize,
    pub cost: u32,
    pub sound: u32,
    pub pattern: u32,
    pub length: usize,
}

/// Tables as the archive takes and gives them: the words of `comzsered_tables`.
#[derive(Clone, Debug, PartialEq, Eq)]
#[repr(C)]
pub struct Words {
    pub switches: u32,
    pub faults: u32,
    pub gates: u32,
    pub rules: u32,
    pub wishes: u32,
    /// A gate's letter, first point and second point.
    pub gate: [[u32; 3]; GATES_MAX],
    pub rule: [u32; RULES_MAX],
    /// A wish's literals, k as 2k and -k as 2k + 1, zeros for those that it has not, and its weight.
    pub wish: [[u32; LITERALS_MAX + 1]; WISHES_MAX],
}

/// As the header has it.
const _: () = assert!(size_of::<Words>() == 1_525 * size_of::<u32>());

impl Words {
    /// No switch, fault, gate, rule or wish.
    pub const EMPTY: Words = Words {
        switches: 0,
        faults: 0,
        gates: 0,
        rules: 0,
        wishes: 0,
        gate: [[0; 3]; GATES_MAX],
        rule: [0; RULES_MAX],
        wish: [[0; LITERALS_MAX + 1]; WISHES_MAX],
    };
}

/// The figures of reading.
#[derive(Clone, Copy, Debug, PartialEq, Eq)]
pub struct Read {
    pub number: u32,
    pub place: usize,
    pub column: usize,
}

/// The figures of writing.
#[derive(Clone, Copy, Debug, PartialEq, Eq)]
pub struct Written {
    pub number: u32,
    pub place: usize,
    pub column: usize,
    pub length: usize,
}

// The library writes every figure in every case. Were it not to, these would show it.
const NOT_FOUND: Found = Found {
    number: u32::MAX,
    place: usize::MAX,
    column: usize::MAX,
    plan: u32::MAX,
    cost: u32::MAX,
    length: usize::MAX,
};
const NOT_RATED: Rated = Rated {
    number: u32::MAX,
    place: usize::MAX,
    column: usize::MAX,
    cost: u32::MAX,
    sound: u32::MAX,
    pattern: u32::MAX,
    length: usize::MAX,
};
const NOT_READ: Read = Read {
    number: u32::MAX,
    place: usize::MAX,
    column: usize::MAX,
};
const NOT_WRITTEN: Written = Written {
    number: u32::MAX,
    place: usize::MAX,
    column: usize::MAX,
    length: usize::MAX,
};

/// The calls of the archive: each job has one for a sheet and one for a typed text, with the same
/// arguments. Writing takes tables, so its call stands alone.
mod archive {
    use super::Words;
    use crate::Input;

    macro_rules! calls {
        ($($job:ident: $sheet:ident, $text:ident, ($($argument:ty),*) -> $number:ty;)*) => {
            extern "C" {
                $(
                    fn $sheet(_: *const u8, _: usize, $(_: $argument),*) -> $number;
                    fn $text(_: *const u8, _: usize, $(_: $argument),*) -> $number;
                )*
            }
            $(
                /// The bytes with the call for them.
                pub fn $job<'a>(input: Input<'a>) -> (
                    &'a [u8],
                    unsafe extern "C" fn(*const u8, usize, $($argument),*) -> $number,
                ) {
                    match input {
                        Input::Sheet(sheet) => (sheet, $sheet),
                        Input::Text(text) => (text, $text),
                    }
                }
            )*
        };
    }

    // The figures stand in the order of the header.
    calls! {
        answer: comzsered_answer, comzsered_text_answer,
            (*mut u32, usize, *mut usize, *mut usize, *mut u32, *mut u32, *mut usize) -> u32;
        short_run: comzsered_short_run, comzsered_text_short_run,
            (*const u32, usize, *mut usize, *mut usize, *mut u32, *mut u32, *mut usize) -> u32;
        rating: comzsered_rating, comzsered_text_rating,
            (u32, *mut usize, *mut usize, *mut u32, *mut u32, *mut u32, *mut usize) -> u32;
        listing: comzsered_listing, comzsered_text_listing, (*mut u8, usize) -> usize;
        read: comzsered_read, comzsered_text_read, (*mut Words, *mut usize, *mut usize) -> u32;
    }

    extern "C" {
        pub fn comzsered_write(
            tables: *const Words,
            out: *mut u8,
            out_len: usize,
            place: *mut usize,
            column: *mut usize,
            length: *mut usize,
        ) -> u32;
    }
}

// In all calls: the pointers of a slice are never null, also of an empty one; what is lent as `&mut`
// overlaps nothing else; and the figures are different fields of one value of ours.

/// Answer. Afterwards the first `length` words of `list` are the list, and the others are as they
/// were.
pub fn answer<'a>(input: impl Into<Input<'a>>, list: &mut [u32]) -> Found {
    let (bytes, call) = archive::answer(input.into());
    let mut found = NOT_FOUND;
    // SAFETY: as above.
    found.number = unsafe {
        call(
            bytes.as_ptr(),
            bytes.len(),
            list.as_mut_ptr(),
            list.len(),
            &mut found.place,
            &mut found.column,
            &mut found.plan,
            &mut found.cost,
            &mut found.length,
        )
    };
    found
}

/// Short run over these patterns.
pub fn short_run<'a>(input: impl Into<Input<'a>>, patterns: &[u32]) -> Found {
    let (bytes, call) = archive::short_run(input.into());
    let mut found = NOT_FOUND;
    // SAFETY: as above.
    found.number = unsafe {
        call(
            bytes.as_ptr(),
            bytes.len(),
            patterns.as_ptr(),
            patterns.len(),
            &mut found.place,
            &mut found.column,
            &mut found.plan,
            &mut found.cost,
            &mut found.length,
        )
    };
    found
}

/// Rating of this plan.
pub fn rating<'a>(input: impl Into<Input<'a>>, plan: u32) -> Rated {
    let (bytes, call) = archive::rating(input.into());
    let mut rated = NOT_RATED;
    // SAFETY: as above.
    rated.number = unsafe {
        call(
            bytes.as_ptr(),
            bytes.len(),
            plan,
            &mut rated.place,
            &mut rated.column,
            &mut rated.cost,
            &mut rated.sound,
            &mut rated.pattern,
            &mut rated.length,
        )
    };
    rated
}

/// The listing, written into the first bytes of `out`; returns how many they are. It is 0, and
/// nothing is written, if `out` has fewer than [`LISTING_MAX`](crate::LISTING_MAX) bytes.
pub fn listing<'a>(input: impl Into<Input<'a>>, out: &mut [u8]) -> usize {
    let (bytes, call) = archive::listing(input.into());
    // SAFETY: as above.
    unsafe { call(bytes.as_ptr(), bytes.len(), out.as_mut_ptr(), out.len()) }
}

/// Reading of the sheet or text. After number 0 these are its tables, with zeros beyond the counts;
/// after any other number they are as they were.
pub fn read<'a>(input: impl Into<Input<'a>>, tables: &mut Words) -> Read {
    let (bytes, call) = archive::read(input.into());
    let mut read = NOT_READ;
    // SAFETY: as above; and the archive has tables as `Words` has them.
    read.number = unsafe {
        call(
            bytes.as_ptr(),
            bytes.len(),
            tables,
            &mut read.place,
            &mut read.column,
        )
    };
    read
}

/// Writing of these tables. After number 0 the sheet stands in the first `length` bytes of `out`, and
/// the others are as they were; after any other number all of them are.
pub fn write(tables: &Words, out: &mut [u8]) -> Written {
    let mut written = NOT_WRITTEN;
    // SAFETY: as above.
    written.number = unsafe {
        archive::comzsered_write(
            tables,
            out.as_mut_ptr(),
            out.len(),
            &mut written.place,
            &mut written.column,
            &mut written.length,
        )
    };
    written
}
