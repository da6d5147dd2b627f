//! The clock, and what to say about the machine.

use std::process::Command;

#[cfg(target_os = "linux")]
pub const WHAT: &str = "Times are the thread's own time on the processor, which other work on the machine does not count in";
#[cfg(not(target_os = "linux"))]
pub const WHAT: &str = "Times are the wall clock's, so the machine should have nothing else to do";

/// Seconds since some moment.
#[cfg(target_os = "linux")]
pub fn now() -> f64 {
    #[repr(C)]
    struct Time {
        seconds: i64,
        nanoseconds: i64,
    }
    extern "C" {
        fn clock_gettime(clock: i32, time: *mut Time) -> i32;
    }
    const THREAD: i32 = 3;
    let mut time = Time { seconds: 0, nanoseconds: 0 };
    // std links the C library already; the call writes the two numbers and nothing else
    let failed = unsafe { clock_gettime(THREAD, &mut time) };
    assert_eq!(failed, 0, "the thread's clock can be read");
    time.seconds as f64 + time.nanoseconds as f64 * 1e-9
}

#[cfg(not(target_os = "linux"))]
pub fn now() -> f64 {
    use std::sync::LazyLock;
    use std::time::Instant;
    static BEGIN: LazyLock<Instant> = LazyLock::new(Instant::now);
    BEGIN.elapsed().as_secs_f64()
}

/// The seconds that `work` takes.
pub fn time(work: impl FnOnce()) -> f64 {
    let from = now();
    work();
    now() - from
}

/// Processor, cores and tools, as far as they can be found.
pub fn machine() -> String {
    let about = std::fs::read_to_string("/proc/cpuinfo").unwrap_or_default();
    let models: Vec<&str> = about.lines().filter_map(|line| line.strip_prefix("model name")?.split(": ").nth(1)).collect();
    let unnamed = format!("A processor of the kind {}", std::env::consts::ARCH);
    let mut parts = vec![models.first().map_or(unnamed, |model| model.to_string())];
    if let Ok(cores) = std::thread::available_parallelism() {
        parts.push(format!("{cores} cores"));
    }
    for tool in ["rustc", "rt"] {
        let said = Command::new(tool).arg("--version").output().ok().map(|done| String::from_utf8_lossy(&done.stdout).into_owned());
        if let Some(version) = said.as_deref().and_then(|said| said.lines().next()) {
            parts.push(version.to_string());
        }
    }
    parts.join(", ")
}

/// How much else ran meanwhile.
pub fn load() -> String {
    let load = std::fs::read_to_string("/proc/loadavg").unwrap_or_default();
    match load.split(' ').next() {
        Some(mean) if !mean.is_empty() => format!("Processes ready to run in the last minute, this one among them: {mean} on average."),
        _ => String::new(),
    }
}
