//! measure: runs a program once on a file, and prints what it took: its nanoseconds from before it is started until it has been
//! waited for, the processor's nanoseconds, and the most KiB of memory at once.
//!
//!     measure INPUT OUTPUT PROGRAM [WORD..]
//!
//! It is small itself, since the system counts the memory of what starts a program as the program's own.

use std::fs::File;
use std::io;
use std::mem::MaybeUninit;
use std::process::Command;
use std::time::Instant;

fn nanoseconds(time: libc::timeval) -> i64 {
    time.tv_sec * 1_000_000_000 + time.tv_usec * 1000
}

/// Waits for the child of this number: how it ended, and what it used.
fn wait(number: u32) -> io::Result<(libc::c_int, libc::rusage)> {
    let mut status = 0;
    let mut usage = MaybeUninit::<libc::rusage>::zeroed();
    // SAFETY: both pointers are to room that lives past the call, and all zeros is a `rusage`.
    let (waited, usage) = unsafe {
        let waited = libc::wait4(number as libc::pid_t, &mut status, 0, usage.as_mut_ptr());
        (waited, usage.assume_init())
    };
    if waited < 0 {
        return Err(io::Error::last_os_error());
    }
    Ok((status, usage))
}

fn main() -> io::Result<()> {
    let words: Vec<String> = std::env::args().skip(1).collect();
    let [input, output, program, words @ ..] = words.as_slice() else {
        return Err(io::Error::other(
            "usage: measure INPUT OUTPUT PROGRAM [WORD..]",
        ));
    };
    let mut command = Command::new(program);
    command
        .args(words)
        .stdin(File::open(input)?)
        .stdout(File::create(output)?);
    let start = Instant::now();
    let child = command.spawn()?;
    let (status, usage) = wait(child.id())?;
    let wall = start.elapsed().as_nanos();
    if status != 0 {
        return Err(io::Error::other(format!("{program} failed")));
    }
    let processor = nanoseconds(usage.ru_utime) + nanoseconds(usage.ru_stime);
    println!("{wall} {processor} {}", usage.ru_maxrss);
    Ok(())
}
