//! The other end of a store's line, over a file.
use std::fs::File;
use std::io::{self, Read, Write};
use std::net::Shutdown;
use std::os::fd::{AsRawFd, RawFd};
use std::os::unix::fs::FileExt;
use std::os::unix::net::UnixStream;
use std::thread::{self, JoinHandle};

const SECTOR: usize = 512;

/// A file that a thread writes and syncs as it is asked to.
pub struct Device {
    line: UnixStream,
    server: Option<JoinHandle<()>>,
}

fn serve(file: &File, line: &mut UnixStream) -> io::Result<()> {
    let (mut number, mut bytes) = ([0; 8], [0; SECTOR]);
    loop {
        line.read_exact(&mut number)?;
        let done = match u64::from_le_bytes(number) {
            u64::MAX => file.sync_data(),
            n => {
                line.read_exact(&mut bytes)?;
                file.write_all_at(&bytes, n * SECTOR as u64)
            }
        };
        line.write_all(&[u8::from(done.is_err())])?;
    }
}

impl Device {
    pub fn start(file: File) -> io::Result<Device> {
        let (line, mut other) = UnixStream::pair()?;
        let server = thread::Builder::new().spawn(move || {
            // the error is that the store's end was closed
            let _ = serve(&file, &mut other);
            // a child of a fork may have it too
            let _ = file.unlock();
        })?;
        Ok(Device {
            line,
            server: Some(server),
        })
    }

    pub fn line(&self) -> RawFd {
        self.line.as_raw_fd()
    }
}

impl Drop for Device {
    fn drop(&mut self) {
        // a child of a fork may have this end too
        let _ = self.line.shutdown(Shutdown::Write);
        if let Some(server) = self.server.take() {
            let _ = server.join();
        }
    }
}
