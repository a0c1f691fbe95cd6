//! The command that is compared, run on an input.

use crate::Failure;
use std::io::{self, BufWriter, Write};
use std::process::{self, ChildStdin, ChildStdout, ExitStatus, Stdio};
use std::thread;

pub struct Command<'a> {
    pub program: &'a str,
    pub arguments: &'a [&'a str],
}

impl Command<'_> {
    /// Runs it once. The input is fed from a thread, so that neither pipe can lock up; what is read need not be all.
    pub fn run<T>(
        &self,
        feed: impl FnOnce(&mut BufWriter<ChildStdin>) -> io::Result<()> + Send,
        read: impl FnOnce(ChildStdout) -> Result<T, Failure>,
    ) -> Result<(T, ExitStatus), Failure> {
        let failure = |error| Failure::Message(format!("'{}': {error}", self.program));
        let mut child = process::Command::new(self.program)
            .args(self.arguments)
            .stdin(Stdio::piped())
            .stdout(Stdio::piped())
            .spawn()
            .map_err(failure)?;
        let pipes = child.stdin.take().zip(child.stdout.take());
        let (stdin, stdout) = pipes.expect("both are pipes");
        let result = thread::scope(|scope| {
            scope.spawn(|| {
                let mut stdin = BufWriter::new(stdin);
                // A command need not read to the end; whether it should have, its output shows.
                let _ = feed(&mut stdin).and_then(|()| stdin.flush());
            });
            read(stdout)
        });
        let status = child.wait().map_err(failure)?;
        Ok((result?, status))
    }
}
