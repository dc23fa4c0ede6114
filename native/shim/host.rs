//! What the host offers a program: standard input and output, arguments, and files.

use super::std::alloc::{AllocError, Global};
pub use rust_std::{io, process};

/// The argument of `main`.
pub struct HostRuntime;

impl HostRuntime {
    pub fn alloc(&self) -> Global {
        Global
    }

    pub fn stdin(&self) -> io::StdinLock<'static> {
        io::stdin().lock()
    }

    pub fn reader(&self) -> io::StdinLock<'static> {
        self.stdin()
    }

    pub fn stdout(&self) -> io::StdoutLock<'static> {
        io::stdout().lock()
    }

    pub fn stderr(&self) -> io::StderrLock<'static> {
        io::stderr().lock()
    }
}

impl From<AllocError> for io::Error {
    fn from(never: AllocError) -> io::Error {
        match never {}
    }
}

pub mod env {
    use super::{io, HostRuntime};
    use alloc::string::String;

    /// A variable of the environment.
    pub fn var(_: &HostRuntime, name: &str) -> Result<String, rust_std::env::VarError> {
        rust_std::env::var(name)
    }

    /// The arguments on the command line. One that isn't UTF-8 is an error.
    pub fn args(_: &HostRuntime) -> io::Result<alloc::vec::IntoIter<String>> {
        let words = rust_std::env::args_os()
            .map(|word| word.into_string().map_err(|_| io::ErrorKind::InvalidData.into()));
        Ok(words.collect::<io::Result<alloc::vec::Vec<String>>>()?.into_iter())
    }
}

pub mod fs {
    use super::{io, HostRuntime};
    use alloc::string::String;
    use alloc::vec::Vec;
    use rust_std::fs::{FileType, Metadata};

    /// What a folder has, with a name that is UTF-8.
    pub struct DirEntry(rust_std::fs::DirEntry, String);

    impl DirEntry {
        pub fn file_name(&self) -> &str {
            &self.1
        }

        pub fn file_type(&self) -> io::Result<FileType> {
            self.0.file_type()
        }
    }

    pub fn read_dir(
        _: &HostRuntime,
        path: &str,
    ) -> io::Result<impl Iterator<Item = io::Result<DirEntry>>> {
        Ok(rust_std::fs::read_dir(path)?.map(move |entry| {
            let entry = entry?;
            match entry.file_name().into_string() {
                Ok(name) => Ok(DirEntry(entry, name)),
                Err(_) => Err(io::ErrorKind::InvalidData.into()),
            }
        }))
    }

    pub fn metadata(_: &HostRuntime, path: &str) -> io::Result<Metadata> {
        rust_std::fs::metadata(path)
    }

    pub fn read(_: &HostRuntime, path: &str) -> io::Result<Vec<u8>> {
        rust_std::fs::read(path)
    }
}

/// `eprintln!(rt; ..)?`
macro_rules! eprintln_of {
    ($rt:expr; $($format:tt)*) => {
        crate::shim::std::io::Write::write_fmt(&mut $rt.stderr(), format_args!("{}\n", format_args!($($format)*)))
    };
}

pub(crate) use eprintln_of as eprintln;
