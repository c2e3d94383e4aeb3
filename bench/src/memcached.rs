//! A memcached to compare with.

use std::io;
use std::net::{Ipv4Addr, TcpListener, TcpStream};
use std::process::{Child, Command, Stdio};
use std::thread;
use std::time::Duration;

/// A process that is ended when it is dropped.
pub struct Ended(pub Child);

impl Drop for Ended {
    fn drop(&mut self) {
        // One that has ended can't be killed, which is as good.
        let _ = self.0.kill();
        let _ = self.0.wait();
    }
}

/// A memcached with one thread, on a port of the loopback that was free.
pub fn memcached(program: &str) -> io::Result<(Ended, u16)> {
    let port = TcpListener::bind((Ipv4Addr::LOCALHOST, 0))?.local_addr()?.port();
    let mut command = Command::new(program);
    command.args(["-t", "1", "-B", "binary", "-l", "127.0.0.1", "-U", "0", "-u", "nobody", "-p", &port.to_string()]);
    let server = Ended(command.stdin(Stdio::null()).stderr(Stdio::null()).spawn()?);
    for _ in 0..100 {
        if TcpStream::connect((Ipv4Addr::LOCALHOST, port)).is_ok() {
            return Ok((server, port));
        }
        thread::sleep(Duration::from_millis(20));
    }
    Err(io::Error::other("memcached doesn't come up"))
}
