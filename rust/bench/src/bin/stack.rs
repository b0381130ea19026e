//! Prints how many bytes of stack each call of the proved library takes on the
//! largest scheme, 32 classes, 8 columns, 100 years, asked for the last year
//! where no other is named.
//!
//! Each call runs on a stack of its own, painted beforehand; what is not
//! painted any more afterwards was used. What a call of nothing takes is
//! printed first, and is within every other number.

use std::arch::asm;
use std::ffi::c_void;
use trials::made::{self, Shape};
use trials::rng::Rng;

/// The stack of a call.
const STACK: usize = 1 << 20;

/// Two paints, so that a byte that happens to be written in one of them still
/// shows.
const PAINTS: [u8; 2] = [0xA5, 0x5A];

/// Runs a call on the stack that ends at `top`.
///
/// # Safety
/// `top` is the end of memory that nothing else uses, enough for the call,
/// and a multiple of 16.
unsafe fn run_on(top: *mut u8, call: extern "C" fn(*mut c_void), with: *mut c_void) {
    asm!(
        "xchg rsp, r12",
        "call {call}",
        "mov rsp, r12",
        call = in(reg) call,
        inout("r12") top => _,
        in("rdi") with,
        clobber_abi("C"),
    );
}

/// Runs the closure whose address comes along.
extern "C" fn enter<F: FnMut()>(closure: *mut c_void) {
    // SAFETY: `used` passes the address of such a closure, which it holds alone.
    let closure = unsafe { &mut *closure.cast::<F>() };
    closure();
}

/// How many bytes of stack a call uses.
fn used<F: FnMut()>(mut call: F) -> usize {
    let measure = |paint: u8| {
        let mut stack = vec![u128::from_ne_bytes([paint; 16]); STACK / 16];
        let top = stack.as_mut_ptr_range().end;
        // SAFETY: the memory is this function's own, and its end a multiple of 16.
        unsafe { run_on(top.cast(), enter::<F>, (&raw mut call).cast()) };
        let bytes = stack.iter().flat_map(|sixteen| sixteen.to_ne_bytes());
        STACK - bytes.take_while(|&byte| byte == paint).count()
    };
    let depths = PAINTS.map(measure);
    depths[0].max(depths[1])
}

/// The record of the largest scheme in a version; several are tried.
fn largest(seed: u64, version: u8) -> Vec<u8> {
    let mut scheme = made::scheme_of(&mut Rng::new(seed), Shape::of(32, 8));
    scheme.horizon = 100;
    made::record_in(&scheme, version)
}

/// A call's name, and its depth.
type Depth = (&'static str, usize);

/// The depth of each call for shares, for a class reached and for money.
fn figures(record: &[u8]) -> [Depth; 7] {
    let mut out = [0; 2];
    let (mut low, mut high) = ([0; 32], [0; 32]);
    let mut share = |year| used(|| library::share(record, 32, year, &mut out).expect("a share"));
    [
        ("share of year 0", share(0)),
        ("share of year 50", share(50)),
        ("share", share(100)),
        (
            "reached",
            used(|| library::reached(record, 32, 100, &mut out).expect("a chance")),
        ),
        (
            "mean",
            used(|| library::mean(record, 100, &mut out).expect("a mean")),
        ),
        (
            "total",
            used(|| library::total(record, 100, &mut out).expect("a total")),
        ),
        (
            "share_sheet",
            used(|| library::share_sheet(record, 100, &mut low, &mut high).expect("a sheet")),
        ),
    ]
}

/// The same pooled over a book, and that of joining it with itself.
fn pooled(record: &[u8]) -> [Depth; 5] {
    let book = [1_000; 32];
    let mut joined = [0; 32];
    let mut out = [0; 2];
    let (mut low, mut high) = ([0; 32], [0; 32]);
    [
        (
            "pooled_share",
            used(|| library::pooled_share(record, &book, 32, 100, &mut out).expect("a share")),
        ),
        (
            "pooled_mean",
            used(|| library::pooled_mean(record, &book, 100, &mut out).expect("a mean")),
        ),
        (
            "pooled_total",
            used(|| library::pooled_total(record, &book, 100, &mut out).expect("a total")),
        ),
        (
            "pooled_share_sheet",
            used(|| {
                library::pooled_share_sheet(record, &book, 100, &mut low, &mut high)
                    .expect("a sheet");
            }),
        ),
        (
            "join",
            used(|| library::join(&book, &book, &mut joined).expect("a book")),
        ),
    ]
}

/// The depth of each other call that writes no record.
fn others(record: &[u8]) -> [Depth; 4] {
    let mut text = vec![0; library::SHEET_ROOM];
    let mut length = [0];
    let payoff: Vec<u64> = (1..=32).collect();
    let (mut figure, mut row) = ([0], [0; 32]);
    [
        (
            "sheet",
            used(|| library::sheet(record, &mut text, &mut length).expect("a text")),
        ),
        (
            "high_step",
            used(|| {
                library::high_step(record, &payoff, 32, &mut figure, &mut row).expect("a step");
            }),
        ),
        (
            "mixing",
            used(|| {
                let answer = library::mixing(record, &mut length);
                assert!(matches!(answer, Ok(()) | Err(16)));
            }),
        ),
        ("check", used(|| library::check(record).expect("a record"))),
    ]
}

/// The depth of each call that writes a record, by its version.
fn writers(record: &[u8]) -> [Depth; 4] {
    let mut bytes = [0; library::RECORD_ROOM];
    let mut length = [0];
    [
        (
            "rewrite",
            used(|| library::rewrite(record, 1, &mut bytes, &mut length).expect("a record")),
        ),
        (
            "rewrite as 2",
            used(|| library::rewrite(record, 2, &mut bytes, &mut length).expect("a record")),
        ),
        (
            "ready",
            used(|| library::ready(3, 1000, 1, &mut bytes, &mut length).expect("a record")),
        ),
        (
            "ready as 2",
            used(|| library::ready(3, 1000, 2, &mut bytes, &mut length).expect("a record")),
        ),
    ]
}

/// The depth of each call on a record.
fn depths(record: &[u8]) -> Vec<Depth> {
    let mut all = vec![("nothing", used(|| ()))];
    all.extend(figures(record));
    all.extend(pooled(record));
    all.extend(others(record));
    all.extend(writers(record));
    all
}

fn main() {
    // The most over several schemes, in both versions.
    let mut rows = depths(&largest(1, 1));
    for (seed, version) in (1..=5).flat_map(|seed| [(seed, 1), (seed, 2)]) {
        for (row, depth) in rows.iter_mut().zip(depths(&largest(seed, version))) {
            row.1 = row.1.max(depth.1);
        }
    }
    for (call, depth) in rows {
        println!("{call:<18} {depth:>8} bytes");
    }
}
