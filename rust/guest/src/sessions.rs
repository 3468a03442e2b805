//! What is done at the terminal of a Debian whose only console is the device.

use std::env;
use std::fs;
use std::io;
use std::path::{Path, PathBuf};
use std::pin::Pin;

use crate::terminal::{Failed, Terminal};
use crate::wire::{Counts, Request};

/// What is done at the terminal.
pub type Session = Pin<Box<dyn Future<Output = Result<(), Failed>> + Send>>;

const MEGABYTE: usize = 1 << 20;
/// How many bytes a FIFO has room for.
const FIFO: usize = 16;
/// How often the device triggers at most for so many bytes of input, and of output.
const TRIGGERS_IN: usize = 2;
const TRIGGERS_OUT: usize = 1;
/// How often it triggers at most for so many bytes of input if the monitor has a clock, and for how many bytes of output it triggers once:
/// for so many as Linux hands to its driver at a time.
const TRIGGERS_IN_BY_A_CLOCK: usize = 1;
const PAGE_OF_OUTPUT: usize = 2048;
/// How many interrupts for nothing a megabyte out may take then. What is typed may come while Linux is in its handler.
const VAIN_BY_A_CLOCK: u64 = 5;
/// How many bytes go to a slow host.
const SOME: usize = 20_000;
/// How many bytes a slow host takes in each millisecond of the guest.
const SLOW: usize = 5;
/// How many bytes fill the guest's buffers, so that it takes RTS down.
const MANY: usize = 8192;
/// The divisor that a device begins with: 9600 baud.
const DIVISOR_OF_FIRMWARE: u16 = 12;
const PASSWORD: &str = "geese";
const PROMPT: &str = "guest# ";

const RTS: u8 = 0x02;
/// The word length in LCR, and whether there is a parity.
const FRAME: u8 = 0x0b;
const SEVEN_AND_PARITY: u8 = 0x0a;
const EIGHT: u8 = 0x03;

/// Returns the session of this name.
pub fn named(name: &str, terminal: Terminal, folder: PathBuf) -> Option<Session> {
    match name {
        "whole" => Some(Box::pin(whole(terminal))),
        "resumed" => Some(Box::pin(resumed(terminal, folder))),
        "clocked" => Some(Box::pin(clocked(terminal))),
        "found" => Some(Box::pin(found(terminal))),
        "measured" => Some(Box::pin(measured(terminal))),
        _ => None,
    }
}

/// Returns bytes of all values, in an order without a short period.
fn bytes(count: usize) -> Vec<u8> {
    (0..count as u32)
        .map(|index| (index.wrapping_mul(0x9e37_79b1) >> 24) as u8)
        .collect()
}

/// Types a command, and waits until the guest has taken it.
async fn command(terminal: &Terminal, line: &str) {
    terminal.type_in(format!("{line}\n"));
    terminal.expect(&format!("{line}\r\n")).await;
}

/// Makes a command, and returns what it prints.
async fn printed(terminal: &Terminal, line: &str) -> String {
    command(terminal, line).await;
    let printed = terminal.expect(PROMPT).await;
    String::from_utf8_lossy(&printed).replace('\r', "")
}

/// Fails unless it is so.
fn check(is_so: bool, what: impl FnOnce() -> String) -> Result<(), Failed> {
    if is_so { Ok(()) } else { Err(what()) }
}

/// Waits for the boot, and logs in.
async fn log_in(terminal: &Terminal) -> Result<(), Failed> {
    terminal.expect("Linux version").await;
    terminal.expect("guest login: ").await;
    terminal.type_in("root\n");
    terminal.expect("Password: ").await;
    terminal.type_in(format!("{PASSWORD}\n"));
    let before = terminal.expect(PROMPT).await;
    check(!String::from_utf8_lossy(&before).contains(PASSWORD), || {
        "the password is shown".into()
    })?;
    let name = printed(terminal, "uname -sm").await;
    check(name == "Linux x86_64\n", || format!("uname says {name:?}"))
}

/// How bytes move.
#[derive(Clone, Copy)]
enum Way {
    In,
    /// In, while the kernel prints.
    Noisy,
    Out,
    Both,
    /// Both, but some time after the guest is ready.
    Late,
}

impl Way {
    fn word(self) -> &'static str {
        match self {
            Way::In => "in",
            Way::Noisy => "noisy",
            Way::Out => "out",
            Way::Both => "both",
            Way::Late => "late",
        }
    }
}

/// Begins to move so many bytes, by the guest's command `move`, and waits until the guest is ready for them.
async fn begin(terminal: &Terminal, way: Way, count: usize) {
    command(terminal, &format!("move {} {count}", way.word())).await;
    terminal.expect("ready\n").await;
}

/// Waits until the guest has moved all.
async fn end(terminal: &Terminal) {
    terminal.expect("moved\r\n").await;
    terminal.expect(PROMPT).await;
}

/// Moves bytes, and compares those that come back.
async fn moved(terminal: &Terminal, way: Way, bytes: &[u8]) -> Result<(), Failed> {
    begin(terminal, way, bytes.len()).await;
    if !matches!(way, Way::Out) {
        terminal.type_in(bytes);
    }
    if !matches!(way, Way::In) {
        terminal
            .compare(&format!("{} bytes", bytes.len()), bytes)
            .await?;
    }
    end(terminal).await;
    Ok(())
}

/// Moves bytes, compares those that come back, and looks how often the device triggered.
async fn move_and_count(
    terminal: &Terminal,
    way: Way,
    bytes: &[u8],
    most: usize,
) -> Result<(), Failed> {
    let before = terminal.counts().triggers;
    moved(terminal, way, bytes).await?;
    let triggers = terminal.counts().triggers - before;
    // A tenth more for what Linux does beside: it enables interrupts for each write, and is typed to.
    check(triggers <= (most + most / 10) as u64, || {
        format!(
            "{triggers} triggers for {} bytes {}",
            bytes.len(),
            way.word()
        )
    })
}

/// All that is shown of a device.
async fn whole(terminal: Terminal) -> Result<(), Failed> {
    log_in(&terminal).await?;
    println!("boot and login: ok");
    let megabyte = bytes(MEGABYTE);
    let fifos = MEGABYTE / FIFO;
    move_and_count(&terminal, Way::In, &megabyte, fifos * TRIGGERS_IN).await?;
    move_and_count(&terminal, Way::Out, &megabyte, fifos * TRIGGERS_OUT).await?;
    println!("a megabyte in, and out again, with few interrupts: ok");
    set_speed_and_frame(&terminal).await?;
    println!("stty sets speed and frame: ok");
    wait_for_cts(&terminal, &megabyte[..SOME]).await?;
    println!("crtscts, the guest waits for CTS: ok");
    take_rts_down(&terminal, &megabyte[..MANY]).await?;
    println!("crtscts, the guest takes RTS down until it has read: ok");
    print_meanwhile(&terminal, &megabyte[..SOME]).await?;
    println!("input while the kernel prints: ok");
    send_breaks(&terminal).await?;
    println!("a break to sysrq, and one of the guest: ok");
    be_slow(&terminal, &megabyte[..SOME]).await?;
    println!("a slow host: ok");
    let lost = terminal.counts().lost;
    check(lost == 0, || format!("{lost} bytes of output are lost"))?;
    begin(&terminal, Way::Both, MEGABYTE).await;
    terminal.mark();
    terminal.type_in(&megabyte);
    terminal.received(MEGABYTE as u64 / 2).await;
    // What came back by then is compared in the next session.
    terminal.request(Request::Save);
    std::future::pending().await
}

/// What a clock changes: Linux is interrupted less often, and never waits.
async fn clocked(terminal: Terminal) -> Result<(), Failed> {
    log_in(&terminal).await?;
    let megabyte = bytes(MEGABYTE);
    let before = terminal.counts();
    let in_most = MEGABYTE / FIFO * TRIGGERS_IN_BY_A_CLOCK;
    move_and_count(&terminal, Way::In, &megabyte, in_most).await?;
    move_and_count(&terminal, Way::Out, &megabyte, MEGABYTE / PAGE_OF_OUTPUT).await?;
    let vain = terminal.counts().since(&before).vain;
    check(vain <= VAIN_BY_A_CLOCK, || {
        format!("{vain} interrupts for nothing")
    })?;
    println!("a megabyte in, and out again, with a clock, and hardly an interrupt for nothing: ok");
    print_meanwhile(&terminal, &megabyte[..SOME]).await?;
    be_slow(&terminal, &megabyte[..SOME]).await?;
    moved(&terminal, Way::Both, &megabyte[..SOME]).await?;
    println!("input while the kernel prints, a slow host, and each way at once, with a clock: ok");
    let lost = terminal.counts().lost;
    check(lost == 0, || format!("{lost} bytes of output are lost"))
}

/// The kernel takes over the baud rate that it finds at its first console, before it has a driver.
async fn found(terminal: Terminal) -> Result<(), Failed> {
    let divisor = |terminal: &Terminal| terminal.settings().divisor;
    terminal.expect("Linux version").await;
    check(divisor(&terminal) == DIVISOR_OF_FIRMWARE, || {
        format!("the divisor is {}", divisor(&terminal))
    })?;
    terminal.expect("guest login: ").await;
    println!("boot at the baud rate that is found: ok");
    Ok(())
}

/// Goes on in a machine that was saved while it moved a megabyte each way.
async fn resumed(terminal: Terminal, folder: PathBuf) -> Result<(), Failed> {
    let megabyte = bytes(MEGABYTE);
    let (received, shown) = saved(&folder).map_err(|cause| cause.to_string())?;
    check(megabyte.starts_with(&shown), || {
        "what was shown before the machine was saved is wrong".into()
    })?;
    let rest = &megabyte[shown.len()..];
    check(!rest.is_empty(), || {
        "the machine was not saved in the middle".into()
    })?;
    terminal.type_in(&megabyte[received..]);
    terminal.compare("the rest of a megabyte", rest).await?;
    end(&terminal).await;
    let line = if env::var_os("GUEST_LEVELS").is_some() {
        "levels"
    } else {
        "edges"
    };
    println!("saved in the middle of a megabyte each way, and restored with {line}: ok");
    Ok(())
}

/// How many bytes were received, and which were shown, when the machine was saved.
fn saved(folder: &Path) -> io::Result<(usize, Vec<u8>)> {
    let received = fs::read_to_string(folder.join("received"))?;
    let received = received.parse().map_err(io::Error::other)?;
    Ok((received, fs::read(folder.join("shown"))?))
}

/// What `stty` sets is in the registers. The bytes are whole in any case: nothing is on a line here.
async fn set_speed_and_frame(terminal: &Terminal) -> Result<(), Failed> {
    for (speed, divisor) in [("9600", 12), ("50", 2304), ("115200", 1)] {
        command(terminal, &format!("stty {speed}")).await;
        terminal
            .set(&format!("the divisor {divisor}"), |settings| {
                settings.divisor == divisor
            })
            .await;
        terminal.expect(PROMPT).await;
    }
    for (frame, bits) in [("cs7 parenb", SEVEN_AND_PARITY), ("cs8 -parenb", EIGHT)] {
        command(terminal, &format!("stty {frame}")).await;
        terminal
            .set(frame, |settings| settings.line_control & FRAME == bits)
            .await;
        terminal.expect(PROMPT).await;
    }
    let told = printed(terminal, "stty").await;
    check(told.starts_with("speed 115200 baud;"), || {
        format!("stty says {told:?}")
    })
}

/// With crtscts the guest sends nothing while CTS is down.
async fn wait_for_cts(terminal: &Terminal, bytes: &[u8]) -> Result<(), Failed> {
    printed(terminal, "stty crtscts").await;
    begin(terminal, Way::Out, bytes.len()).await;
    terminal.request(Request::Ready(false));
    // Some bytes are on their way.
    terminal.pause(100).await;
    let before = terminal.counts().taken;
    terminal.pause(2000).await;
    let after = terminal.counts().taken;
    check(before == after, || {
        format!("{} bytes are sent while CTS is down", after - before)
    })?;
    terminal.request(Request::Ready(true));
    terminal.compare("what waited for CTS", bytes).await?;
    end(terminal).await;
    Ok(())
}

/// With crtscts the guest takes RTS down when it cannot take more, and up when it has read.
async fn take_rts_down(terminal: &Terminal, bytes: &[u8]) -> Result<(), Failed> {
    begin(terminal, Way::Late, bytes.len()).await;
    terminal.type_in(bytes);
    terminal
        .set("RTS to fall", |settings| settings.modem_control & RTS == 0)
        .await;
    terminal.compare("what is read late", bytes).await?;
    terminal
        .set("RTS to rise", |settings| settings.modem_control & RTS != 0)
        .await;
    end(terminal).await;
    printed(terminal, "stty -crtscts").await;
    Ok(())
}

/// Input comes while the kernel prints. For that it disables all interrupts of the port, again and again.
async fn print_meanwhile(terminal: &Terminal, bytes: &[u8]) -> Result<(), Failed> {
    begin(terminal, Way::Noisy, bytes.len()).await;
    terminal.type_in(bytes);
    let printed = terminal.expect("moved\r\n").await;
    check(printed.windows(5).any(|part| part == b"noise"), || {
        "the kernel printed nothing while input came".into()
    })?;
    terminal.expect(PROMPT).await;
    moved(terminal, Way::Out, bytes).await
}

async fn send_breaks(terminal: &Terminal) -> Result<(), Failed> {
    terminal.request(Request::Break);
    terminal.pause(10).await;
    terminal.type_in("h");
    terminal.expect("sysrq: HELP").await;
    terminal.type_in("\n");
    terminal.expect(PROMPT).await;
    let before = terminal.counts().breaks;
    // The program sets the terminal as it wants it.
    command(
        terminal,
        "set=$(stty -g); terminal break /dev/ttyS0 100; stty $set",
    )
    .await;
    terminal
        .counted("a break of the guest", |counts| counts.breaks == before + 1)
        .await;
    terminal.expect(PROMPT).await;
    Ok(())
}

/// A host that takes little at a time holds the guest back, and loses nothing.
async fn be_slow(terminal: &Terminal, bytes: &[u8]) -> Result<(), Failed> {
    begin(terminal, Way::Out, bytes.len()).await;
    let before = terminal.counts().held;
    terminal.set_pace(Some(SLOW));
    terminal.compare("to a slow host", bytes).await?;
    terminal.set_pace(None);
    check(terminal.counts().held > before, || {
        "nothing was held back".into()
    })?;
    end(terminal).await;
    Ok(())
}

/// Moves a megabyte in, out and each way at once, and prints what each took, as a row of a table.
async fn measured(terminal: Terminal) -> Result<(), Failed> {
    log_in(&terminal).await?;
    let megabyte = bytes(MEGABYTE);
    for (way, what) in [
        (Way::In, "in"),
        (Way::Out, "out"),
        (Way::Both, "each way at once"),
    ] {
        let before = terminal.counts();
        moved(&terminal, way, &megabyte).await?;
        let Counts {
            accesses,
            triggers,
            ends,
            vain,
            host_reads,
            host_writes,
            rooms,
            ..
        } = terminal.counts().since(&before);
        let row = [
            triggers,
            ends,
            vain,
            accesses,
            host_reads,
            host_writes,
            rooms,
        ];
        println!("| {what} | {} |", row.map(grouped).join(" | "));
    }
    Ok(())
}

/// Returns a number with its digits in groups of three.
fn grouped(number: u64) -> String {
    if number < 1000 {
        number.to_string()
    } else {
        format!("{},{:03}", grouped(number / 1000), number % 1000)
    }
}
