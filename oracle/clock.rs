// The clock of the programs that time the entries (bench.rs, header_times.rs, against.rs), and the middle of what it told.
use std::hint::black_box;

/// Milliseconds that this thread has had a core: what other work on the machine takes is not counted.
fn now() -> f64 {
    #[repr(C)]
    #[derive(Default)]
    struct Time {
        s: i64,
        ns: i64,
    }
    unsafe extern "C" {
        fn clock_gettime(which: i32, t: *mut Time) -> i32;
    }
    const THREAD: i32 = 3; // CLOCK_THREAD_CPUTIME_ID of Linux
    let mut t = Time::default();
    assert_eq!(unsafe { clock_gettime(THREAD, &mut t) }, 0);
    t.s as f64 * 1e3 + t.ns as f64 / 1e6
}

/// Milliseconds of one call.
pub fn timed<T>(f: impl FnOnce() -> T) -> (f64, T) {
    let begun = now();
    let out = black_box(f());
    (now() - begun, out)
}

/// The middle one of a list, the least and the greatest.
pub fn spread(mut list: Vec<f64>) -> [f64; 3] {
    list.sort_by(f64::total_cmp);
    let n = list.len();
    [(list[(n - 1) / 2] + list[n / 2]) / 2.0, list[0], list[n - 1]]
}
