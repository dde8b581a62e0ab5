//! The plan program, run as a process.

use std::io::{self, Write};
use std::path::{Path, PathBuf};
use std::process::{Command, Stdio};

use second::generate::Rng;
use second::{plan_output, Method};

use crate::difference::{Compared, Difference, Given, Text, Words};
use crate::networks::{any_text, judge};

const SERVICE: &str = "plan program";

/// The plan program, beside this folder.
fn program() -> PathBuf {
    Path::new(env!("CARGO_MANIFEST_DIR")).join("../target/bin/plan")
}

/// The plan program with a stack of so many units of 1,024 bytes.
fn program_on_stack(units: usize) -> Command {
    let mut command = Command::new("sh");
    let limited = format!("ulimit -s {units} && exec \"$0\"");
    command.arg("-c").arg(limited).arg(program());
    command
}

/// What a program writes for an input.
fn output_of(mut command: Command, input: &[u8]) -> io::Result<Vec<u8>> {
    let mut child = command
        .stdin(Stdio::piped())
        .stdout(Stdio::piped())
        .spawn()?;
    let mut stdin = child.stdin.take().expect("standard input is a pipe");
    // A program that has seen enough may stop reading.
    match stdin.write_all(input) {
        Err(error) if error.kind() != io::ErrorKind::BrokenPipe => return Err(error),
        _ => drop(stdin),
    }
    let output = child.wait_with_output()?;
    if !output.status.success() {
        return Err(io::Error::other(format!("{}", output.status)));
    }
    Ok(output.stdout)
}

/// What the linked planner gives, which is another build of the same core.
fn linked_output(text: &[u8]) -> Vec<u8> {
    match thinning::plan(text) {
        Ok(plan) => [plan.chain, plan.kept].concat(),
        Err(refusal) => format!("0f{:02x}\n", refusal.number()).into_bytes(),
    }
}

/// The same bytes from the program, from the linked planner twice and from the second
/// program, and a plan that keeps what is promised of it.
pub fn plan(rng: &mut Rng) -> Compared {
    let text = any_text(rng);
    let written = output_is_due(Command::new(program()), &text)?;
    for linked in [linked_output(&text), linked_output(&text)] {
        same(
            "the linked planner gives other bytes",
            &text,
            &written,
            &linked,
        )?;
    }
    match second::plan(&text) {
        Ok(plan) => judge(SERVICE, &text, &plan.kept),
        Err(_) => Ok(()),
    }
}

/// The same bytes from the program with a small stack and from the second program.
pub fn plan_on_stack(text: &[u8], units: usize) -> Compared {
    output_is_due(program_on_stack(units), text).map(|_| ())
}

/// What the program writes, which must be what the second program does.
fn output_is_due(command: Command, text: &[u8]) -> Result<Vec<u8>, Difference> {
    let due = plan_output(text, Method::Mixed);
    let written = output_of(command, text).map_err(|error| {
        let given: &Given = &[("network", &Text(text))];
        let nothing = Words("nothing");
        Difference::new(SERVICE, error.to_string(), given, &Text(&due), &nothing)
    })?;
    same("the outputs differ", text, &due, &written)?;
    Ok(written)
}

fn same(fault: &str, text: &[u8], due: &[u8], answered: &[u8]) -> Compared {
    if due == answered {
        return Ok(());
    }
    let given: &Given = &[("network", &Text(text))];
    let (due, answered) = (Text(due), Text(answered));
    Err(Difference::new(SERVICE, fault, given, &due, &answered))
}
