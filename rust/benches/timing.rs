//! Times versions of one job by the thread's processor time, and prints a row of the table.
use std::hint::black_box;

/// Seconds of processor time of this thread: others' work on the machine does not count.
fn processor_seconds() -> f64 {
    #[repr(C)]
    struct Time {
        seconds: i64,
        nanoseconds: i64,
    }
    extern "C" {
        fn clock_gettime(clock: i32, time: *mut Time) -> i32;
    }
    /// CLOCK_THREAD_CPUTIME_ID of Linux.
    const THREAD: i32 = 3;
    let mut time = Time { seconds: 0, nanoseconds: 0 };
    assert_eq!(unsafe { clock_gettime(THREAD, &mut time) }, 0, "this thread's processor time");
    time.seconds as f64 + time.nanoseconds as f64 * 1e-9
}

/// Does the work and keeps its result from being optimized away.
pub fn work<T>(mut f: impl FnMut() -> T) -> impl FnMut() {
    move || {
        black_box(f());
    }
}

/// Microseconds that each version takes for doing its work once, where a turn does it so many times: the fastest of 41 turns, in which the versions
/// alternate. Slow jobs get fewer turns, at least five.
pub fn time<const N: usize>(times: usize, mut versions: [&mut dyn FnMut(); N]) -> [f64; N] {
    let mut fastest = [f64::INFINITY; N];
    let begin = processor_seconds();
    for turn in 0..41 {
        if turn >= 5 && processor_seconds() - begin > 3.0 {
            break;
        }
        for (version, best) in versions.iter_mut().zip(&mut fastest) {
            let start = processor_seconds();
            for _ in 0..times {
                version();
            }
            *best = best.min((processor_seconds() - start) * 1e6 / times as f64);
        }
    }
    fastest
}

/// Microseconds, with three digits that count.
fn figure(us: f64) -> String {
    match us {
        x if x >= 100.0 => format!("{x:.0}"),
        x if x >= 10.0 => format!("{x:.1}"),
        x if x >= 1.0 => format!("{x:.2}"),
        x => format!("{x:.3}"),
    }
}

pub fn head() {
    println!("| job | proved | best unproved | steps | queue | to the best | to steps | to the queue |");
    println!("|---|---|---|---|---|---|---|---|");
}

/// A row: the proved library, the fastest unproved version, those by steps and by a queue where there are, and how many times as long the library takes.
pub fn row(name: &str, proved: f64, others: &[(&str, f64)]) {
    let best = others.iter().copied().min_by(|a, b| a.1.total_cmp(&b.1)).expect("a version to compare with");
    let [steps, queue] = ["steps", "queue"].map(|wanted| others.iter().find(|(version, _)| *version == wanted).map(|(_, us)| *us));
    let cell = |us: Option<f64>| us.map_or(String::new(), figure);
    let ratio = |us: Option<f64>| us.map_or(String::new(), |us| format!("{:.2}", proved / us));
    let figures = [figure(proved), format!("{} ({})", figure(best.1), best.0), cell(steps), cell(queue)];
    let ratios = [ratio(Some(best.1)), ratio(steps), ratio(queue)];
    println!("| {name} | {} | {} |", figures.join(" | "), ratios.join(" | "));
}
