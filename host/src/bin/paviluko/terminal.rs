//! A line read at the terminal, key by key.
//!
//! Only while a line is being typed does the terminal hand over every key and show nothing by itself. It is as it was before as
//! soon as the line is there, so that a command runs, and the program ends, on a terminal as it was found; also where a signal ends
//! the program meanwhile.

use std::io::{self, BufRead, Write};
use std::ptr;
use std::sync::atomic::{AtomicPtr, Ordering};

use libc::termios;

use crate::editor::{Editor, Typed};

const KEYBOARD: libc::c_int = libc::STDIN_FILENO;
/// The signals that end the program and leave it time.
const ENDS: [libc::c_int; 4] = [libc::SIGINT, libc::SIGTERM, libc::SIGHUP, libc::SIGQUIT];

/// How the terminal was found, for the signals' sake.
static FOUND: AtomicPtr<termios> = AtomicPtr::new(ptr::null_mut());

/// Reads a line with an editor.
pub fn read(editor: &mut Editor) -> io::Result<Typed> {
    let _keys = Keys::by_key()?;
    let mut out = String::new();
    editor.begin(columns(), &mut out);
    let mut keyboard = io::stdin().lock();
    loop {
        io::stdout().write_all(out.as_bytes())?;
        io::stdout().flush()?;
        out.clear();
        let bytes = match keyboard.fill_buf() {
            Ok([]) => return Ok(Typed::End),
            Ok(bytes) => bytes,
            Err(error) if error.kind() == io::ErrorKind::Interrupted => continue,
            Err(error) => return Err(error),
        };
        let (used, typed) = editor.feed(bytes, &mut out);
        keyboard.consume(used);
        if let Some(typed) = typed {
            io::stdout().write_all(out.as_bytes())?;
            return Ok(typed);
        }
    }
}

/// A terminal that hands over every key, until this is dropped.
struct Keys {
    found: termios,
}

impl Keys {
    fn by_key() -> io::Result<Keys> {
        let found = state()?;
        if FOUND.load(Ordering::Acquire).is_null() {
            // One for the whole run of the program.
            FOUND.store(Box::into_raw(Box::new(found)), Ordering::Release);
            watch_signals();
        }
        let mut keys = found;
        keys.c_iflag &= !(libc::ICRNL | libc::INLCR | libc::IXON | libc::ISTRIP);
        keys.c_lflag &= !(libc::ICANON | libc::ECHO | libc::ISIG | libc::IEXTEN);
        keys.c_cc[libc::VMIN] = 1;
        keys.c_cc[libc::VTIME] = 0;
        set(&keys)?;
        Ok(Keys { found })
    }
}

impl Drop for Keys {
    fn drop(&mut self) {
        let _ = set(&self.found);
    }
}

/// How the terminal is.
fn state() -> io::Result<termios> {
    // SAFETY: a struct of numbers, of which all 0 is one; the call fills it in.
    let (said, state) = unsafe {
        let mut state: termios = std::mem::zeroed();
        (libc::tcgetattr(KEYBOARD, &mut state), state)
    };
    if said == 0 { Ok(state) } else { Err(io::Error::last_os_error()) }
}

/// Sets the terminal, once it has shown what was printed. What was typed meanwhile stays.
fn set(state: &termios) -> io::Result<()> {
    // SAFETY: the struct is read alone.
    let said = unsafe { libc::tcsetattr(KEYBOARD, libc::TCSADRAIN, state) };
    if said == 0 { Ok(()) } else { Err(io::Error::last_os_error()) }
}

/// How many columns the terminal has; 0 where it does not say.
pub fn columns() -> usize {
    // SAFETY: a struct of numbers, of which all 0 is one; the call fills it in.
    let (said, size) = unsafe {
        let mut size: libc::winsize = std::mem::zeroed();
        (libc::ioctl(libc::STDOUT_FILENO, libc::TIOCGWINSZ, &mut size), size)
    };
    if said == 0 { usize::from(size.ws_col) } else { 0 }
}

/// Has the terminal put back before a signal ends the program.
fn watch_signals() {
    for signal in ENDS {
        // SAFETY: a struct of numbers, of which all 0 is one; the handler makes only calls that a handler may make.
        unsafe {
            let mut action: libc::sigaction = std::mem::zeroed();
            // A signal that was ignored stays so.
            libc::sigaction(signal, ptr::null(), &mut action);
            if action.sa_sigaction == libc::SIG_DFL {
                action.sa_sigaction = put_back as extern "C" fn(libc::c_int) as libc::sighandler_t;
                action.sa_flags = libc::SA_RESETHAND;
                libc::sigaction(signal, &action, ptr::null_mut());
            }
        }
    }
}

/// Puts the terminal back, and lets the signal end the program.
extern "C" fn put_back(signal: libc::c_int) {
    let found = FOUND.load(Ordering::Acquire);
    // SAFETY: the struct was stored whole and is never freed; both calls may be made in a handler.
    unsafe {
        libc::tcsetattr(KEYBOARD, libc::TCSANOW, found);
        libc::raise(signal);
    }
}
