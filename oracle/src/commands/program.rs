//! A program of the port, run on an input that is compared with the model.

use super::put_file;
use std::io::{ErrorKind, Write};
use std::process::{ChildStdin, Command, Output, Stdio};
use std::thread;

/// Where the first input that differs is written, with what was wanted and
/// what was given.
const FIRST: [&str; 3] = ["differs.in", "differs.wanted", "differs.given"];

pub struct Compared<'a> {
    program: &'a str,
    arguments: &'a [&'a str],
    compared: u64,
    differing: u64,
}

impl<'a> Compared<'a> {
    pub fn new(program: &'a str, arguments: &'a [&'a str]) -> Self {
        Self {
            program,
            arguments,
            compared: 0,
            differing: 0,
        }
    }

    /// The whole output must be as wanted. What the program ends with is left
    /// open by document 01, but a signal is no end.
    pub fn note(&mut self, name: &str, input: &[u8], wanted: &str) -> Result<(), String> {
        self.compared += 1;
        let Output { status, stdout, .. } = run(self.program, self.arguments, input)?;
        if status.code().is_some() && stdout == wanted.as_bytes() {
            return Ok(());
        }
        self.differing += 1;
        if self.differing > 1 {
            return Ok(());
        }
        println!("{name} differs, {status}: {}", difference(&stdout, wanted));
        for (file, bytes) in FIRST.iter().zip([input, wanted.as_bytes(), &stdout]) {
            put_file(file, bytes)?;
        }
        println!("written: {}", FIRST.join(", "));
        Ok(())
    }

    /// An error if an output differed.
    pub fn report(&self) -> Result<(), String> {
        println!("{} compared, {} differ", self.compared, self.differing);
        match self.differing {
            0 => Ok(()),
            count => Err(format!("{count} outputs differ")),
        }
    }
}

/// The first line that is not as wanted.
pub fn difference(given: &[u8], wanted: &str) -> String {
    let given = String::from_utf8_lossy(given);
    let mut lines = given.lines();
    for (number, wanted) in (1..).zip(wanted.lines()) {
        match lines.next() {
            Some(line) if line == wanted => {}
            line => {
                let line = line.map(shortened);
                return format!("line {number} is {line:?}, wanted {wanted:?}");
            }
        }
    }
    match lines.next() {
        Some(line) => format!("{:?} after the end", shortened(line)),
        None => String::from("line ends"),
    }
}

fn shortened(line: &str) -> String {
    line.chars().take(100).collect()
}

/// The standard output; what stands on standard error is shown.
fn run(program: &str, arguments: &[&str], input: &[u8]) -> Result<Output, String> {
    run_with(program, arguments, input, Stdio::inherit())
}

/// Both outputs.
pub fn run_heard(program: &str, arguments: &[&str], input: &[u8]) -> Result<Output, String> {
    run_with(program, arguments, input, Stdio::piped())
}

/// The input is written beside the reading, so that neither waits for ever.
fn run_with(
    program: &str,
    arguments: &[&str],
    input: &[u8],
    errors: Stdio,
) -> Result<Output, String> {
    let failed = |e| format!("cannot run {program}: {e}");
    let mut command = Command::new(program);
    command.args(arguments);
    command.stdin(Stdio::piped()).stdout(Stdio::piped());
    let mut child = command.stderr(errors).spawn().map_err(failed)?;
    let stdin = child.stdin.take().expect("a pipe was asked for");
    thread::scope(|scope| {
        let writer = scope.spawn(move || write(stdin, input));
        let output = child.wait_with_output().map_err(failed);
        writer
            .join()
            .expect("a writer does not panic")
            .map_err(failed)?;
        output
    })
}

/// A program may end before it has read everything.
fn write(mut stdin: ChildStdin, input: &[u8]) -> std::io::Result<()> {
    match stdin.write_all(input) {
        Err(e) if e.kind() == ErrorKind::BrokenPipe => Ok(()),
        other => other,
    }
}

#[cfg(test)]
mod tests {
    use super::{difference, run, run_heard};

    #[test]
    fn a_program_gets_its_input_and_gives_its_output() {
        let input = vec![7; 300_000];
        let output = run("cat", &[], &input).expect("cat is everywhere");
        assert!(output.stdout == input);
        assert!(run("true", &[], &input).is_ok_and(|output| output.stdout.is_empty()));
        assert!(run("no-such-program", &[], &input).is_err());
    }

    #[test]
    fn both_outputs_are_heard() {
        let output = run_heard("sh", &["-c", "cat; echo cut >&2"], b"1 begin");
        let output = output.expect("sh is everywhere");
        assert_eq!(
            (&output.stdout[..], &output.stderr[..]),
            (&b"1 begin"[..], &b"cut\n"[..])
        );
    }

    #[test]
    fn a_program_gets_its_arguments() {
        let output = run("echo", &["year"], &[]).expect("echo is everywhere");
        assert_eq!(output.stdout, b"year\n");
    }

    #[test]
    fn the_first_differing_line_is_named() {
        let wanted = "accepted\nrefused 14 0\n";
        assert_eq!(
            difference(b"accepted\nrefused 15 0\n", wanted),
            "line 2 is Some(\"refused 15 0\"), wanted \"refused 14 0\""
        );
        assert_eq!(
            difference(b"accepted\n", wanted),
            "line 2 is None, wanted \"refused 14 0\""
        );
        assert_eq!(difference(b"accepted\nrefused 14 0", wanted), "line ends");
        assert_eq!(
            difference(b"accepted\nrefused 14 0\npoints 1\n", wanted),
            "\"points 1\" after the end"
        );
    }
}
