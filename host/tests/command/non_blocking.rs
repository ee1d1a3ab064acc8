//! Streams that do not block, as another program may leave them.

use super::*;

/// Starts the command with its output and messages on one pipe that does not block and has room for a page, of which a reader
/// takes a little at a time.
const SLOW_READER: &str = "
import fcntl, os, subprocess, sys, time
reader, writer = os.pipe()
fcntl.fcntl(writer, fcntl.F_SETPIPE_SZ, 4096)
os.set_blocking(writer, False)
command = subprocess.Popen(sys.argv[1:], stdout=writer, stderr=writer)
os.close(writer)
time.sleep(0.2)
while part := os.read(reader, 1000):
    sys.stdout.buffer.write(part)
    time.sleep(0.001)
sys.exit(command.wait())
";

/// The same with its input on such a pipe, which has nothing for a while.
const SLOW_WRITER: &str = "
import os, subprocess, sys, time
reader, writer = os.pipe()
os.set_blocking(reader, False)
command = subprocess.Popen(sys.argv[1:], stdin=reader)
os.close(reader)
sheet = sys.stdin.buffer.read()
for part in sheet[:100], sheet[100:]:
    time.sleep(0.2)
    os.write(writer, part)
os.close(writer)
sys.exit(command.wait())
";

fn in_python(script: &str, arguments: &[&str]) -> Run {
    let mut python = Command::new("python3");
    python.args(["-c", script]).arg(command().get_program());
    run(python.args(arguments).current_dir(common::top()), SHEET)
}

#[test]
fn an_output_with_a_slow_reader_gets_everything() {
    let files = vec!["examples/p1.sheet"; 100];
    let run = in_python(SLOW_READER, &files);
    assert_eq!(run, gave(0, &REPORT.repeat(100), ""));
}

#[test]
fn messages_with_a_slow_reader_get_there_too() {
    let files = ["nosuch", "examples/refused.sheet"].repeat(100);
    let said = concat!(
        "diagnose: nosuch: can't be read: No such file or directory\n",
        "       0       6       3       4       0       0       0       0\n",
        "examples/refused.sheet: refused 6, row 3, column 4\n",
    );
    let run = in_python(SLOW_READER, &files);
    assert_eq!(run, gave(2, &said.repeat(100), ""));
}

#[test]
fn an_input_with_a_slow_writer_is_read_to_its_end() {
    assert_eq!(in_python(SLOW_WRITER, &[]), gave(0, REPORT, ""));
}
