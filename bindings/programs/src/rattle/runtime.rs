//! What programs reach outside by: Rattle passes its `main` a runtime, and these calls a reference to it.
use crate::rattle::alloc::Global;

/// The runtime that `main` has.
#[derive(Clone, Copy, Debug, Default)]
pub struct HostRuntime;

impl HostRuntime {
    pub fn new() -> HostRuntime {
        HostRuntime
    }

    pub fn alloc(&self) -> Global {
        Global
    }

    pub fn reader(&self) -> std::io::Stdin {
        std::io::stdin()
    }

    pub fn stdout(&self) -> Output {
        Output
    }

    pub fn stderr(&self) -> std::io::Stderr {
        std::io::stderr()
    }
}

/// The standard output.
pub struct Output;

impl Output {
    /// Whether it is a terminal that shows colors. A console of Windows may show the codes themselves, unless it is set
    /// up by calls that std hasn't.
    pub fn is_terminal(&self) -> bool {
        !cfg!(windows) && std::io::IsTerminal::is_terminal(&std::io::stdout())
    }

    /// A file of its descriptor: what can't be written to one that is closed, or open for reading alone, std's own
    /// takes for written.
    #[cfg(unix)]
    fn file() -> std::io::Result<std::fs::File> {
        const EBADF: i32 = 9;
        if super::begun::is_stdout_closed() {
            return Err(std::io::Error::from_raw_os_error(EBADF));
        }
        std::os::fd::AsFd::as_fd(&std::io::stdout()).try_clone_to_owned().map(std::fs::File::from)
    }

    #[cfg(not(unix))]
    fn file() -> std::io::Result<std::io::Stdout> {
        Ok(std::io::stdout())
    }
}

impl std::io::Write for Output {
    fn write(&mut self, bytes: &[u8]) -> std::io::Result<usize> {
        Output::file()?.write(bytes)
    }

    fn flush(&mut self) -> std::io::Result<()> {
        #[cfg(not(unix))]
        std::io::stdout().flush()?;
        Ok(())
    }
}

impl<T> From<crate::rattle::alloc::AllocFailed<T>> for std::io::Error {
    fn from(_: crate::rattle::alloc::AllocFailed<T>) -> std::io::Error {
        std::io::ErrorKind::OutOfMemory.into()
    }
}

pub mod io {
    pub use std::io::*;

    /// Reads to the end into a vector. Rust's own call writes to all of the vector's memory first.
    pub trait ReadToEndIn: Read {
        fn read_to_end_in(&mut self, vec: &mut crate::rattle::Vec<u8>) -> Result<usize> {
            let (mut chunk, mut total) = ([0; 65536], 0);
            loop {
                match self.read(&mut chunk) {
                    Ok(0) => return Ok(total),
                    Ok(count) => {
                        vec.extend_from_slice(&chunk[..count])?;
                        total += count;
                    }
                    Err(error) if error.kind() == ErrorKind::Interrupted => {}
                    Err(error) => return Err(error),
                }
            }
        }
    }

    impl<R: Read> ReadToEndIn for R {}

    /// The standard output. It isn't buffered, so that each write that fails is seen.
    pub fn writer(rt: &super::HostRuntime) -> super::Output {
        rt.stdout()
    }
}

pub mod env {
    use super::{Global, HostRuntime};
    use crate::rattle::alloc::AllocFailed;
    use crate::rattle::{String, Vec};
    use std::io::{Error, ErrorKind, Result};

    pub struct Args(Vec<String>, usize);

    impl Args {
        pub fn collect_in(self, _alloc: Global) -> core::result::Result<Vec<String>, AllocFailed<String>> {
            let mut all = Vec::new(Global);
            for text in self.0.into_iter().skip(self.1) {
                all.push(text)?;
            }
            Ok(all)
        }

        #[allow(clippy::should_implement_trait)]
        pub fn next(&mut self) -> Option<()> {
            self.1 += 1;
            Some(())
        }
    }

    pub fn args(_rt: &HostRuntime) -> Result<Args> {
        let mut all = Vec::new(Global);
        for arg in std::env::args_os() {
            let text = arg.into_string().map_err(|_| Error::from(ErrorKind::InvalidData))?;
            all.push(String::from_str(Global, &text)?)?;
        }
        Ok(Args(all, 0))
    }

    pub fn var(_rt: &HostRuntime, name: &str) -> core::result::Result<String, std::env::VarError> {
        let value = std::env::var(name)?;
        String::from_str(Global, &value).map_err(|_| std::env::VarError::NotPresent)
    }
}

pub mod process {
    pub use std::process::ExitCode;
}

#[macro_export]
macro_rules! println {
    ($rt:expr; $($text:tt)*) => {
        { let _ = &$rt; $crate::rattle::runtime::print(format_args!("{}\n", format_args!($($text)*))) }
    };
}

/// Prints to the standard output.
pub fn print(text: core::fmt::Arguments<'_>) -> std::io::Result<()> {
    std::io::Write::write_fmt(&mut std::io::stdout().lock(), text)
}

#[macro_export]
macro_rules! format {
    (in $alloc:expr; $($text:tt)*) => {
        $crate::rattle::string::TryToString::to_string(&format_args!($($text)*), $alloc)
    };
}

#[macro_export]
macro_rules! vec {
    [in $alloc:expr; $value:expr; $len:expr] => {
        $crate::rattle::Vec::from_elem($alloc, $value, $len)
    };
    [in $alloc:expr; $($item:expr),*] => {
        $crate::rattle::Vec::from_array($alloc, [$($item),*])
    };
}

pub mod time {
    pub use std::time::Duration;

    /// The system's clock, which Rattle's std reads by the runtime.
    pub struct SystemTime;

    impl SystemTime {
        pub const UNIX_EPOCH: std::time::SystemTime = std::time::SystemTime::UNIX_EPOCH;

        /// Fails never: Rust's std panics where a system has no clock.
        pub fn now(_: &super::HostRuntime) -> std::io::Result<std::time::SystemTime> {
            Ok(std::time::SystemTime::now())
        }
    }
}
