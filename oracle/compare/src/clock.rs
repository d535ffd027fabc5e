//! Time that other work on the machine does not lengthen.

#[repr(C)]
struct Timespec {
    seconds: i64,
    nanoseconds: i64,
}

extern "C" {
    fn clock_gettime(clock: i32, time: *mut Timespec) -> i32;
}

/// Processor time of this thread so far. Linux numbers this clock 3.
pub fn processor_seconds() -> f64 {
    let mut time = Timespec {
        seconds: 0,
        nanoseconds: 0,
    };
    // Safety: the pointer is that of a Timespec, as the C library lays it out on x86-64 Linux.
    let status = unsafe { clock_gettime(3, &mut time) };
    assert_eq!(status, 0, "no clock for the thread's processor time");
    time.seconds as f64 + time.nanoseconds as f64 * 1e-9
}
