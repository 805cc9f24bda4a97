//! How long a call takes: processor time, as in bench/measure.c.

/// Of a call that takes longer than LONG seconds there are fewer samples.
const SAMPLES: usize = 7;
const SAMPLES_OF_LONG: usize = 3;
const LONG: f64 = 1.0;

/// A sample takes at least so many seconds.
const SAMPLE: f64 = 0.02;

/// Of the C library on x86-64 Linux.
const CLOCK_PROCESS_CPUTIME_ID: i32 = 2;

#[repr(C)]
struct Timespec {
    seconds: i64,
    nanoseconds: i64,
}

unsafe extern "C" {
    fn clock_gettime(clock: i32, time: *mut Timespec) -> i32;
}

fn processor_seconds() -> f64 {
    let mut now = Timespec { seconds: 0, nanoseconds: 0 };
    let answer = unsafe { clock_gettime(CLOCK_PROCESS_CPUTIME_ID, &mut now) };
    assert_eq!(answer, 0, "the clock of the processor time");
    now.seconds as f64 + now.nanoseconds as f64 * 1e-9
}

/// One call, and what it answered. Giving back the answer's memory isn't timed.
fn timed<T>(call: &mut impl FnMut() -> T) -> f64 {
    let start = processor_seconds();
    let answer = std::hint::black_box(call());
    let taken = processor_seconds() - start;
    drop(answer);
    taken
}

fn sample<T>(call: &mut impl FnMut() -> T, times: u32) -> f64 {
    (0..times).map(|_| timed(call)).sum::<f64>() / f64::from(times)
}

/// The median of several samples, after one that warms.
pub fn measure<T>(mut call: impl FnMut() -> T) -> f64 {
    let mut times = 1;
    while sample(&mut call, times) * f64::from(times) < SAMPLE {
        times *= 2;
    }
    let mut samples = vec![sample(&mut call, times)];
    let count = if samples[0] < LONG { SAMPLES } else { SAMPLES_OF_LONG };
    samples.extend((1..count).map(|_| sample(&mut call, times)));
    samples.sort_by(f64::total_cmp);
    samples[count / 2]
}
