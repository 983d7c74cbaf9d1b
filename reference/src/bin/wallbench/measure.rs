//! What one run of a program on a wall file costs: time, instructions, memory and system calls. Each is
//! the cost of the whole process; standard input is the file, standard output /dev/null.

use std::fs::File;
use std::io;
use std::path::Path;
use std::process::{Command, Output, Stdio};
use std::time::{Duration, Instant};

/// How often each program is timed; the least time counts, being the least disturbed.
const TIMED: usize = 40;

/// How often the peak memory is taken; the median counts. It varies by some pages of the C library.
const PEAKS: usize = 5;

/// A program to measure.
pub struct Program(String);

/// What a run costs. A number is absent where the tool for it is not on this machine.
pub struct Measured {
    /// The least time.
    pub milliseconds: Option<f64>,
    /// Instructions, as valgrind's callgrind counts them.
    pub instructions: Option<f64>,
    /// The largest resident set in KiB, as GNU time tells it.
    pub peak: Option<f64>,
    /// System calls, as strace counts them.
    pub calls: Option<f64>,
}

impl Program {
    pub fn new(path: &str) -> Program {
        Program(path.into())
    }

    pub fn path(&self) -> &str {
        &self.0
    }

    fn time(&self, file: &Path) -> io::Result<Duration> {
        let mut command = Command::new(&self.0);
        command.stdin(File::open(file)?).stdout(Stdio::null());
        let start = Instant::now();
        command.status()?;
        Ok(start.elapsed())
    }

    fn instructions(&self, file: &Path) -> Option<f64> {
        let tool = "valgrind --tool=callgrind --callgrind-out-file=/dev/null";
        let said = self.under(tool, file)?;
        after(&said, "Collected :")
    }

    fn peak(&self, file: &Path) -> Option<f64> {
        let tool = "/usr/bin/time --format=peak:%M";
        let peak = || after(&self.under(tool, file)?, "peak:");
        let mut peaks = (0..PEAKS).map(|_| peak()).collect::<Option<Vec<f64>>>()?;
        peaks.sort_by(f64::total_cmp);
        Some(peaks[PEAKS / 2])
    }

    fn calls(&self, file: &Path) -> Option<f64> {
        let said = self.under("strace --summary-only --summary-columns=calls,name", file)?;
        let total = said.lines().find(|line| line.trim().ends_with(" total"))?;
        total.split_whitespace().next()?.parse().ok()
    }

    /// Runs the program under a tool: what came on standard error, nothing where there is no such tool.
    fn under(&self, tool: &str, file: &Path) -> Option<String> {
        let mut words = tool.split(' ');
        let mut command = Command::new(words.next()?);
        command.args(words).arg(&self.0);
        command.stdin(File::open(file).ok()?).stdout(Stdio::null());
        let Output { status, stderr, .. } = command.stderr(Stdio::piped()).output().ok()?;
        status.success().then(|| String::from_utf8(stderr).ok())?
    }
}

/// The number that follows a name in a tool's words.
fn after(said: &str, name: &str) -> Option<f64> {
    let (_, rest) = said.split_once(name)?;
    rest.split_whitespace().next()?.parse().ok()
}

/// Measures two programs on a file. They are timed in turn, so that other work on the machine meets both.
pub fn both(programs: &[Program; 2], file: &Path) -> io::Result<[Measured; 2]> {
    let mut least = [Duration::MAX; 2];
    for _ in 0..TIMED {
        for (program, least) in programs.iter().zip(&mut least) {
            *least = program.time(file)?.min(*least);
        }
    }
    let measured = |i: usize| Measured {
        milliseconds: Some(least[i].as_secs_f64() * 1e3),
        instructions: programs[i].instructions(file),
        peak: programs[i].peak(file),
        calls: programs[i].calls(file),
    };
    Ok([measured(0), measured(1)])
}

#[cfg(test)]
mod tests {
    use super::*;

    #[test]
    fn a_number_after_its_name() {
        let said = "==7== Events    : Ir\n==7== Collected : 79396075\n==7== \n";
        assert_eq!(after(said, "Collected :"), Some(79_396_075.0));
        assert_eq!(after("peak:1260\n", "peak:"), Some(1_260.0));
        assert_eq!(after(said, "peak:"), None);
        assert_eq!(after("peak:", "peak:"), None);
    }

    #[test]
    fn a_tool_that_is_not_there_leaves_the_number_absent() {
        let program = Program::new("true");
        let file = Path::new("/dev/null");
        assert_eq!(program.under("./no-such-tool --count", file), None);
        assert_eq!(program.under("env", file), Some(String::new()));
        assert_eq!(Program::new("false").under("env", file), None);
    }
}
