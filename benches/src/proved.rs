//! The proved library (include/doumbaht.h), with a safe function for each of its own: those of numbers of 16 bits, those
//! of 32, and, where two libraries are timed, those of the older one, whose names begin with `old_` (benches/ab). Beside it
//! stands the crate `timing`, with a lamp's pair and its report, which the header does not have.

use crate::inputs::{Bytes, Dealing, Deals, Hearing, Points, Reports, Said, Saying, Shares, Tabled, Text};
use crate::plain::field::Number;
use crate::plain::pairs::Deal;

/// An answer, and the number that is opened.
type Opened<N> = (u8, N);

/// The functions that there are for each prime, but for openings.
pub struct Calls<N: Number> {
    pub deal: fn(&Dealing<N>, &mut Deals<N>),
    pub deal_with: fn(&Tabled<N, Dealing<N>>, &mut Deals<N>),
    pub repair: fn(&Points<N>, &mut (u8, [N; 4])),
}

/// The functions of one way of opening: at the points 1 to n, and at those of a table.
pub struct Openings<N: Number> {
    pub open: fn(&Shares<N>, &mut Opened<N>),
    pub open_with: fn(&Tabled<N, Shares<N>>, &mut Opened<N>),
}

/// A lamp's pair for another, and its report on those that it hears.
pub struct Pairs {
    pub say: fn(&Saying, &mut Said),
    pub report: fn(&Hearing, &mut u16),
}

/// The functions that there are once.
pub struct Others {
    pub happy_set: fn(&Reports, &mut u16),
    pub text: fn(&Bytes, &mut Text),
}

/// A lent number with its functions, and those of the older library, if it is there and has them.
pub trait Library: Number {
    const NOW: Calls<Self>;
    const OLD: Option<Calls<Self>>;
    const TRIAL: Openings<Self>;
    const OLD_TRIAL: Option<Openings<Self>>;
    const LOCATOR: Openings<Self>;
    const OLD_LOCATOR: Option<Openings<Self>>;
    const PAIRS: Pairs;
    const OLD_PAIRS: Option<Pairs>;
}

// SAFETY, for every call below: each pointer and count are those of one slice, and what is written is apart from what
// is read.

/// The functions of these names in C, on these numbers.
macro_rules! calls {
    ($number:ty, $deal:ident, $deal_with:ident, $repair:ident) => {{
        type N = $number;
        extern "C" {
            fn $deal(n: u8, t: u8, f: *const N, f_count: usize, deals: *mut N, deals_count: usize) -> u8;
            fn $deal_with(
                n: u8,
                t: u8,
                table: *const N,
                table_count: usize,
                f: *const N,
                f_count: usize,
                deals: *mut N,
                deals_count: usize,
            ) -> u8;
            fn $repair(
                t: u8,
                xs: *const N,
                xs_count: usize,
                ys: *const N,
                ys_count: usize,
                column: *mut N,
                column_count: usize,
            ) -> u8;
        }
        fn deal(input: &Dealing<N>, out: &mut Deals<N>) {
            let Dealing { n, t, f, room } = input;
            let room = &mut out.deals[..*room];
            out.answer = unsafe { $deal(*n, *t, f.as_ptr(), f.len(), room.as_mut_ptr(), room.len()) };
        }
        fn deal_with(input: &Tabled<N, Dealing<N>>, out: &mut Deals<N>) {
            let Tabled { table, question: Dealing { n, t, f, room } } = input;
            let (room, points) = (&mut out.deals[..*room], table.as_ptr());
            out.answer =
                unsafe { $deal_with(*n, *t, points, table.len(), f.as_ptr(), f.len(), room.as_mut_ptr(), room.len()) };
        }
        fn repair(input: &Points<N>, out: &mut (u8, [N; 4])) {
            let Points { t, xs, ys } = input;
            let column = &mut out.1[..usize::from(*t) + 1];
            out.0 =
                unsafe { $repair(*t, xs.as_ptr(), xs.len(), ys.as_ptr(), ys.len(), column.as_mut_ptr(), column.len()) };
        }
        Calls { deal, deal_with, repair }
    }};
}

/// The same for one way of opening.
macro_rules! openings {
    ($number:ty, $open:ident, $open_with:ident) => {{
        type N = $number;
        extern "C" {
            fn $open(n: u8, t: u8, shares: *const N, shares_count: usize, opened: *mut N) -> u8;
            fn $open_with(
                n: u8,
                t: u8,
                table: *const N,
                table_count: usize,
                shares: *const N,
                shares_count: usize,
                opened: *mut N,
            ) -> u8;
        }
        fn open(input: &Shares<N>, out: &mut Opened<N>) {
            let Shares { n, t, shares } = input;
            out.0 = unsafe { $open(*n, *t, shares.as_ptr(), shares.len(), &mut out.1) };
        }
        fn open_with(input: &Tabled<N, Shares<N>>, out: &mut Opened<N>) {
            let Tabled { table, question: Shares { n, t, shares } } = input;
            let points = table.as_ptr();
            out.0 = unsafe { $open_with(*n, *t, points, table.len(), shares.as_ptr(), shares.len(), &mut out.1) };
        }
        Openings { open, open_with }
    }};
}

/// Pair and report: these functions of C take the width as a number, 0 for the narrow one.
macro_rules! pairs {
    ($wide:literal, $pair:ident, $report:ident) => {{
        extern "C" {
            fn $pair(
                wide: u8,
                table: *const u32,
                table_count: usize,
                i: u8,
                row: *const u32,
                row_count: usize,
                column: *const u32,
                column_count: usize,
                j: u8,
                pair: *mut u32,
                pair_count: usize,
            ) -> u8;
            fn $report(
                wide: u8,
                n: u8,
                table: *const u32,
                table_count: usize,
                i: u8,
                row: *const u32,
                row_count: usize,
                column: *const u32,
                column_count: usize,
                firsts: *const u32,
                firsts_count: usize,
                seconds: *const u32,
                seconds_count: usize,
            ) -> u16;
        }
        fn say(input: &Saying, out: &mut Said) {
            let Deal { table, i, row, column } = input.deal.lent();
            let (points, rows, columns) = (table.as_ptr(), row.as_ptr(), column.as_ptr());
            let (j, room) = (input.j, &mut out.pair[..input.room]);
            let (pair, count) = (room.as_mut_ptr(), room.len());
            out.answer =
                unsafe { $pair($wide, points, table.len(), i, rows, row.len(), columns, column.len(), j, pair, count) };
        }
        fn report(input: &Hearing, out: &mut u16) {
            let Deal { table, i, row, column } = input.deal.lent();
            let (points, rows, columns) = (table.as_ptr(), row.as_ptr(), column.as_ptr());
            let (n, firsts, seconds) = (input.n, &input.firsts, &input.seconds);
            let (first, second) = (firsts.as_ptr(), seconds.as_ptr());
            let (sizes, heard) = ((table.len(), row.len(), column.len()), (firsts.len(), seconds.len()));
            *out = unsafe {
                $report($wide, n, points, sizes.0, i, rows, sizes.1, columns, sizes.2, first, heard.0, second, heard.1)
            };
        }
        Pairs { say, report }
    }};
}

macro_rules! others {
    ($happy_set:ident, $text:ident) => {{
        extern "C" {
            fn $happy_set(reports: *const u16, reports_count: usize) -> u16;
            fn $text(bytes: *const u8, bytes_count: usize, out: *mut u8, out_count: usize) -> usize;
        }
        fn happy_set(reports: &Reports, out: &mut u16) {
            *out = unsafe { $happy_set(reports.0.as_ptr(), reports.0.len()) };
        }
        fn text(bytes: &Bytes, out: &mut Text) {
            out.length = unsafe { $text(bytes.0.as_ptr(), bytes.0.len(), out.bytes.as_mut_ptr(), out.bytes.len()) };
        }
        Others { happy_set, text }
    }};
}

pub const NOW: Others = others!(doumbaht_happy_set, doumbaht_text);

#[cfg(old)]
pub const OLD: Option<Others> = Some(others!(old_doumbaht_happy_set, old_doumbaht_text));
#[cfg(not(old))]
pub const OLD: Option<Others> = None;

impl Library for u16 {
    const NOW: Calls<u16> = calls!(u16, doumbaht_deal, doumbaht_deal_with, doumbaht_repair);
    const TRIAL: Openings<u16> = openings!(u16, doumbaht_open, doumbaht_open_with);
    const LOCATOR: Openings<u16> = openings!(u16, doumbaht_open_by_locator, doumbaht_open_by_locator_with);
    const PAIRS: Pairs = pairs!(0, timing_pair, timing_report);

    #[cfg(old)]
    const OLD: Option<Calls<u16>> = Some(calls!(u16, old_doumbaht_deal, old_doumbaht_deal_with, old_doumbaht_repair));
    #[cfg(old)]
    const OLD_TRIAL: Option<Openings<u16>> = Some(openings!(u16, old_doumbaht_open, old_doumbaht_open_with));
    #[cfg(old_locator)]
    const OLD_LOCATOR: Option<Openings<u16>> =
        Some(openings!(u16, old_doumbaht_open_by_locator, old_doumbaht_open_by_locator_with));
    #[cfg(old_timing)]
    const OLD_PAIRS: Option<Pairs> = Some(pairs!(0, old_timing_pair, old_timing_report));

    #[cfg(not(old))]
    const OLD: Option<Calls<u16>> = None;
    #[cfg(not(old))]
    const OLD_TRIAL: Option<Openings<u16>> = None;
    #[cfg(not(old_locator))]
    const OLD_LOCATOR: Option<Openings<u16>> = None;
    #[cfg(not(old_timing))]
    const OLD_PAIRS: Option<Pairs> = None;
}

impl Library for u32 {
    const NOW: Calls<u32> = calls!(u32, doumbaht_deal_wide, doumbaht_deal_wide_with, doumbaht_repair_wide);
    const TRIAL: Openings<u32> = openings!(u32, doumbaht_open_wide, doumbaht_open_wide_with);
    const LOCATOR: Openings<u32> = openings!(u32, doumbaht_open_by_locator_wide, doumbaht_open_by_locator_wide_with);
    const PAIRS: Pairs = pairs!(1, timing_pair, timing_report);

    #[cfg(old)]
    const OLD: Option<Calls<u32>> =
        Some(calls!(u32, old_doumbaht_deal_wide, old_doumbaht_deal_wide_with, old_doumbaht_repair_wide));
    #[cfg(old)]
    const OLD_TRIAL: Option<Openings<u32>> = Some(openings!(u32, old_doumbaht_open_wide, old_doumbaht_open_wide_with));
    #[cfg(old_locator)]
    const OLD_LOCATOR: Option<Openings<u32>> =
        Some(openings!(u32, old_doumbaht_open_by_locator_wide, old_doumbaht_open_by_locator_wide_with));
    #[cfg(old_timing)]
    const OLD_PAIRS: Option<Pairs> = Some(pairs!(1, old_timing_pair, old_timing_report));

    #[cfg(not(old))]
    const OLD: Option<Calls<u32>> = None;
    #[cfg(not(old))]
    const OLD_TRIAL: Option<Openings<u32>> = None;
    #[cfg(not(old_locator))]
    const OLD_LOCATOR: Option<Openings<u32>> = None;
    #[cfg(not(old_timing))]
    const OLD_PAIRS: Option<Pairs> = None;
}
