// The wall clock and the processor time of this thread.
use std::time::Instant;

#[repr(C)]
struct Timespec {
    seconds: i64,
    nanoseconds: i64,
}

extern "C" {
    fn clock_gettime(clock: i32, time: *mut Timespec) -> i32;
}

/// Linux's CLOCK_THREAD_CPUTIME_ID.
const THREAD: i32 = 3;

/// The processor time of this thread.
pub fn thread_seconds() -> f64 {
    let mut time = Timespec { seconds: 0, nanoseconds: 0 };
    assert_eq!(unsafe { clock_gettime(THREAD, &mut time) }, 0);
    time.seconds as f64 + time.nanoseconds as f64 * 1e-9
}

pub struct Time {
    pub wall: f64,
    pub thread: f64,
}

/// The least wall time and the least thread time of five runs.
pub fn best_of_five(mut run: impl FnMut()) -> Time {
    let mut best = Time { wall: f64::MAX, thread: f64::MAX };
    for _ in 0..5 {
        let (wall, thread) = (Instant::now(), thread_seconds());
        run();
        best.thread = best.thread.min(thread_seconds() - thread);
        best.wall = best.wall.min(wall.elapsed().as_secs_f64());
    }
    best
}
