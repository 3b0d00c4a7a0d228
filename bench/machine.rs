//! What the numbers were measured with.

use crate::openssl;
use std::fs;

pub struct Machine {
    pub processor: String,
    pub processors: usize,
    /// The load average of the last minute, before the run.
    pub load: f64,
    pub compiler: &'static str,
    pub openssl: String,
}

impl Machine {
    /// What the system says, before anything is measured.
    pub fn seen() -> Machine {
        let read = |path| fs::read_to_string(path).unwrap_or_default();
        let cpuinfo = read("/proc/cpuinfo");
        let name = |line: &str| Some(line.strip_prefix("model name")?.split_once(": ")?.1.into());
        Machine {
            processor: cpuinfo.lines().find_map(name).unwrap_or("unknown".to_string()),
            processors: std::thread::available_parallelism().map_or(1, usize::from),
            load: read("/proc/loadavg")
                .split(' ')
                .find_map(|load| load.parse().ok())
                .unwrap_or(0.0),
            compiler: option_env!("BENCH_COMPILER").unwrap_or("rustc"),
            openssl: openssl::version(),
        }
    }
}
