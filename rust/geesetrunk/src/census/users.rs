//! Who uses a port, as Linux shows it.

use std::fs;
use std::os::linux::fs::MetadataExt;
use std::os::unix::fs::FileTypeExt;
use std::path::Path;

const TTYS: &str = "/sys/class/tty";
const PROCESSES: &str = "/proc";

// Returns the number of a device that sysfs shows as `4:64`, as a file of it has it.
fn device_numbered(text: &str) -> Option<u64> {
    let (major, minor) = text.trim().split_once(':')?;
    let (major, minor): (u64, u64) = (major.parse().ok()?, minor.parse().ok()?);
    Some(
        (major & 0xffff_f000) << 32
            | (major & 0xfff) << 8
            | (minor & 0xffff_ff00) << 12
            | minor & 0xff,
    )
}

fn port_numbered(text: &str) -> Option<u64> {
    u64::from_str_radix(text.trim().trim_start_matches("0x"), 16).ok()
}

// Returns whether a process has this device open, by whatever name.
fn has_open(process: &Path, device: u64) -> bool {
    let Ok(files) = fs::read_dir(process.join("fd")) else {
        return false;
    };
    files.flatten().any(|file| {
        fs::metadata(file.path())
            .is_ok_and(|found| found.file_type().is_char_device() && found.st_rdev() == device)
    })
}

// Returns the number of a process that has this device open.
fn process_with(device: u64) -> Result<Option<String>, String> {
    let processes = fs::read_dir(PROCESSES).map_err(|cause| format!("{PROCESSES}: {cause}"))?;
    for process in processes.flatten() {
        let name = process.file_name().to_string_lossy().into_owned();
        if name.bytes().all(|digit| digit.is_ascii_digit()) && has_open(&process.path(), device) {
            return Ok(Some(name));
        }
    }
    Ok(None)
}

// Returns why this terminal is in use.
fn why_used(tty: &Path, name: &str) -> Option<String> {
    let line = |of: &str| fs::read_to_string(tty.join(of)).unwrap_or_default();
    if line("console").starts_with('Y') {
        return Some(format!("{name} is a console"));
    }
    match process_with(device_numbered(&line("dev"))?) {
        Ok(None) => None,
        Ok(Some(process)) => Some(format!("{name} is open in process {process}")),
        Err(cause) => Some(format!("who has {name} open cannot be seen: {cause}")),
    }
}

/// Returns why the port is in use, if it is that of a console, or a process has it open: a census would take its characters, and lose them.
pub(super) fn why_in_use(base: u16) -> Option<String> {
    let ttys = match fs::read_dir(TTYS) {
        Ok(ttys) => ttys,
        Err(cause) => return Some(format!("whose it is cannot be seen: {TTYS}: {cause}")),
    };
    ttys.flatten().find_map(|tty| {
        let port = fs::read_to_string(tty.path().join("port")).ok()?;
        let is_this = port_numbered(&port) == Some(base.into());
        let name = tty.file_name().to_string_lossy().into_owned();
        is_this.then(|| why_used(&tty.path(), &name)).flatten()
    })
}

#[cfg(test)]
mod tests {
    use super::*;

    #[test]
    fn numbers_of_sysfs() {
        assert_eq!(port_numbered("0x3F8\n"), Some(0x3f8));
        assert_eq!(port_numbered("none"), None);
        assert_eq!(device_numbered("4:64\n"), Some(0x440));
        assert_eq!(device_numbered("5:256\n"), Some(0x0010_0500));
        assert_eq!(device_numbered("4"), None);
        let null = fs::metadata("/dev/null").unwrap();
        assert_eq!(device_numbered("1:3"), Some(null.st_rdev()));
    }
}
