//! How long something takes, by the processor's own time, and which processor that is. host/peers times by it too.

use std::time::Duration;

/// In nanoseconds, and parts of them.
pub type Time = f64;

/// The shortest time of one of so many things done by `work`, over many batches of some two milliseconds.
pub fn time(things: usize, mut work: impl FnMut()) -> Time {
    let mut batch = 1;
    let mut best = Time::MAX;
    let begin = processor_time();
    while processor_time() - begin < Duration::from_millis(400) {
        let start = processor_time();
        for _ in 0..batch {
            work();
        }
        let took = processor_time() - start;
        best = best.min(took.as_nanos() as Time / f64::from(batch) / things as Time);
        if took < Duration::from_millis(2) {
            batch *= 2;
        }
    }
    best
}

/// What this thread has had of the processor.
fn processor_time() -> Duration {
    #[repr(C)]
    struct Timespec {
        seconds: i64,
        nanoseconds: i64,
    }
    const CLOCK_THREAD_CPUTIME_ID: i32 = 3;
    extern "C" {
        fn clock_gettime(clock: i32, time: *mut Timespec) -> i32;
    }
    let mut time = Timespec { seconds: 0, nanoseconds: 0 };
    let status = unsafe { clock_gettime(CLOCK_THREAD_CPUTIME_ID, &mut time) };
    assert_eq!(status, 0, "Linux has this clock");
    Duration::new(time.seconds as u64, time.nanoseconds as u32)
}

/// What Linux says of the processor: its name, or the numbers that it has in the place of one.
pub fn processor() -> String {
    let known = std::fs::read_to_string("/proc/cpuinfo").unwrap_or_default();
    let said =
        |key: &str| known.lines().find_map(|line| line.strip_prefix(key)?.trim_start().strip_prefix(": ").map(str::to_string));
    let numbers = || Some(format!("CPU implementer {}, part {}", said("CPU implementer")?, said("CPU part")?));
    let name: Option<String> = said("model name").or_else(numbers);
    format!("{} ({})", std::env::consts::ARCH, name.unwrap_or_else(|| "no name known".to_string()))
}
