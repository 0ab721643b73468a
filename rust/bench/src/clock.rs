//! Processor time: of the running thread, and of programs that are run.

use std::arch::x86_64::_mm256_zeroupper;
use std::time::Duration;

#[repr(C)]
struct Timespec {
    seconds: i64,
    nanoseconds: i64,
}

#[repr(C)]
#[derive(Clone, Copy, Default)]
struct Timeval {
    seconds: i64,
    microseconds: i64,
}

/// What the kernel says of processes; only the times are read.
#[repr(C)]
#[derive(Default)]
struct Usage {
    user: Timeval,
    system: Timeval,
    others: [i64; 14],
}

/// Linux's number for the processor time of the calling thread.
const CLOCK_THREAD_CPUTIME_ID: i32 = 3;

/// Linux's number for the children that have ended and were waited for.
const RUSAGE_CHILDREN: i32 = -1;

unsafe extern "C" {
    fn clock_gettime(clock: i32, time: *mut Timespec) -> i32;
    fn getrusage(who: i32, usage: *mut Usage) -> i32;
}

fn now() -> Duration {
    let mut time = Timespec {
        seconds: 0,
        nanoseconds: 0,
    };
    // SAFETY: the call writes one timespec, which on 64-bit Linux is two 64-bit numbers.
    let status = unsafe { clock_gettime(CLOCK_THREAD_CPUTIME_ID, &mut time) };
    assert_eq!(status, 0, "the clock is there");
    Duration::new(time.seconds as u64, time.nanoseconds as u32)
}

/// The processor time that the work takes. It begins with the upper halves of the vector registers cleared: where the code before it has
/// left them set, as ISA-L's does, work that uses the lower halves alone can take twice as long.
pub fn time(work: impl FnOnce()) -> Duration {
    if is_x86_feature_detected!("avx") {
        // SAFETY: the processor has AVX, and no vector lives across this call.
        unsafe { _mm256_zeroupper() };
    }
    let start = now();
    work();
    now() - start
}

/// The user and system time of all children so far.
fn of_children() -> Duration {
    let mut usage = Usage::default();
    // SAFETY: the call writes one rusage, which on 64-bit Linux is two timevals and 14 more 64-bit numbers.
    let status = unsafe { getrusage(RUSAGE_CHILDREN, &mut usage) };
    assert_eq!(status, 0, "the times are there");
    let [user, system] = [usage.user, usage.system]
        .map(|time| Duration::new(time.seconds as u64, time.microseconds as u32 * 1000));
    user + system
}

/// What the work gives, and the processor time of the programs that it runs to their end.
pub fn time_of_children<T>(work: impl FnOnce() -> T) -> (T, Duration) {
    let start = of_children();
    let result = work();
    (result, of_children() - start)
}
