//! The program step by step: stopped at one of its calls of the system after the other, while something else happens.

use std::process::Command;

use crate::desk::room::Room;

/// Runs the program again and again, each time traced (ptrace) and stopped at a later call of the system, where a
/// command is run or, if there is none, the program is killed; until a run ends before. Prints what each run said, and
/// what a last command says.
const STEP_BY_STEP: &str = r#"
import ctypes, os, subprocess, sys
folder, first, at_the_stop, last, *words = sys.argv[1:]
TRACE_ME, TO_THE_NEXT_CALL = 0, 24
libc = ctypes.CDLL(None, use_errno=True)
libc.ptrace.argtypes = [ctypes.c_long, ctypes.c_long, ctypes.c_void_p, ctypes.c_void_p]

def shell(command):
    run = subprocess.run(["sh", "-c", command], stdout=subprocess.PIPE, stderr=subprocess.STDOUT, stdin=subprocess.DEVNULL)
    return run.stdout

def traced(at_each_stop):
    reading, writing = os.pipe()
    pid = os.fork()
    if pid == 0:
        os.dup2(writing, 1)
        os.dup2(writing, 2)
        os.close(reading)
        if libc.ptrace(TRACE_ME, 0, None, None) != 0:
            os.write(2, b"ptrace: " + os.strerror(ctypes.get_errno()).encode())
            os._exit(1)
        os.execv(words[0], words)
    os.close(writing)
    stops = 0
    while os.WIFSTOPPED(os.waitpid(pid, 0)[1]):
        stops += 1
        at_each_stop(stops, pid)
        libc.ptrace(TO_THE_NEXT_CALL, pid, None, None)
    with os.fdopen(reading, "rb") as said:
        return stops, said.read()

begun = []
def look(stops, pid):
    files = os.listdir(f"/proc/{pid}/fd") if not begun else []
    if any(os.readlink(f"/proc/{pid}/fd/{file}").startswith(folder + "/") for file in files):
        begun.append(stops)

def act(stops, pid):
    if stops == stop and at_the_stop:
        shell(at_the_stop)
    elif stops == stop:
        os.kill(pid, 9)

def files():
    names = os.listdir(folder) if os.path.isdir(folder) else []
    return {name: open(os.path.join(folder, name), "rb").read() for name in names}

shell(first)
stops, said = traced(look)
if not begun:
    sys.exit(f"the program cannot be traced here, or opened no file of {folder}: {stops} stops, {said}")
# At every call the program stops twice, before it and after it. It may look for a file or two that are not there first.
stop = begun[0] - 6
left = None
while True:
    shell(first)
    os.environ["STOP"] = str(stop)
    stops, said = traced(act)
    if stops < stop:
        break
    # What was killed and left the same files as the last one can be passed over.
    if at_the_stop or left != (left := files()):
        sys.stdout.buffer.write(said + b"\0" + shell(last) + b"\0")
    stop += 2
"#;

/// What is done with a program that is run step by step; the commands are the shell's, with the program as `$DESK` and
/// the number of the stop as `$STOP`.
pub struct Steps<'a> {
    /// Before each run.
    pub first: &'a str,
    /// At the stop; the program is killed there if this is empty.
    pub at_the_stop: &'a str,
    /// After each run.
    pub last: &'a str,
}

impl Steps<'_> {
    /// Of each run what the program said and what the last command said. The stops are those from just before the
    /// first file of this folder is opened.
    pub fn run(&self, room: &Room, folder: &str, words: &[&str]) -> Vec<(String, String)> {
        let program = room.command(words);
        let mut python = Command::new("python3");
        python.args(["-c", STEP_BY_STEP]).arg(room.path(folder)).args([self.first, self.at_the_stop, self.last]);
        python.arg(program.get_program()).args(words).env("DESK", program.get_program()).current_dir(room.path("."));
        let ran = python.output().expect("python3");
        assert!(ran.status.success(), "{}", String::from_utf8_lossy(&ran.stderr));
        let said = String::from_utf8(ran.stdout).expect("UTF-8");
        let mut parts = said.split_terminator('\0').map(str::to_owned);
        std::iter::from_fn(|| parts.next().zip(parts.next())).collect()
    }
}
