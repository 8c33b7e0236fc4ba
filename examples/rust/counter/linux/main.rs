//! Counts the calls of a command: `counter ls -l`.

use nix::sys::ptrace::{self, Options};
use nix::sys::wait::waitpid;
use nix::unistd::Pid;
use std::os::unix::process::CommandExt;
use std::process::Command;

fn main() {
    let mut words = std::env::args().skip(1);
    let mut command = Command::new(words.next().expect("usage: counter COMMAND [ARGUMENT ..]"));
    command.args(words);
    // SAFETY: the closure runs in the forked child, and makes one system call.
    let traced = unsafe { command.pre_exec(|| ptrace::traceme().map_err(Into::into)) };
    let child = traced.spawn().expect("the command can be started");
    let pid = Pid::from_raw(child.id() as i32);
    // It stops by SIGTRAP when it executes the command.
    waitpid(pid, None).expect("the command stops");
    let events =
        Options::PTRACE_O_TRACEFORK | Options::PTRACE_O_TRACEVFORK | Options::PTRACE_O_TRACECLONE;
    let options = events
        | Options::PTRACE_O_TRACEEXEC
        | Options::PTRACE_O_TRACESYSGOOD
        | Options::PTRACE_O_EXITKILL;
    ptrace::setoptions(pid, options).expect("options are set");
    ptrace::syscall(pid, None).expect("the command is restarted");
    println!("{}", counter::count().expect("each call is answered"));
}
