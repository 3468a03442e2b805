//! A virtual machine monitor over KVM whose serial port is the proved one. It boots a guest several times, and compares each byte.

#[cfg(all(target_os = "linux", target_arch = "x86_64"))]
mod demonstration;
#[cfg(all(target_os = "linux", target_arch = "x86_64"))]
mod guest;
#[cfg(all(target_os = "linux", target_arch = "x86_64"))]
mod kvm;
#[cfg(all(target_os = "linux", target_arch = "x86_64"))]
mod linux;
#[cfg(all(target_os = "linux", target_arch = "x86_64"))]
mod monitor;
#[cfg(all(target_os = "linux", target_arch = "x86_64"))]
mod port;

use std::process::ExitCode;

/// How many bytes go each way if the command does not say so.
const MEGABYTE: u32 = 1 << 20;

fn main() -> ExitCode {
    let mut arguments = std::env::args().skip(1);
    let count = match (
        arguments.next().map(|argument| argument.parse::<u32>()),
        arguments.next(),
    ) {
        (None, None) => MEGABYTE,
        (Some(Ok(count)), None) if count >= 1000 => count,
        _ => {
            eprintln!("usage: monitor [BYTES], how many bytes go each way, at least 1000");
            return ExitCode::from(2);
        }
    };
    match run(count) {
        Ok(()) => ExitCode::SUCCESS,
        Err(cause) => {
            eprintln!("monitor: {cause}");
            ExitCode::FAILURE
        }
    }
}

#[cfg(all(target_os = "linux", target_arch = "x86_64"))]
fn run(count: u32) -> std::io::Result<()> {
    demonstration::run(count)
}

#[cfg(not(all(target_os = "linux", target_arch = "x86_64")))]
fn run(_: u32) -> std::io::Result<()> {
    Err(std::io::Error::other("this example is for Linux on x86-64"))
}
