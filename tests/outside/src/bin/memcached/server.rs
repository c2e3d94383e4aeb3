//! A memcached of our own on the loopback, killed when it is dropped.

use std::io::{self, Error, ErrorKind};
use std::net::{Ipv4Addr, TcpListener, TcpStream};
use std::process::{Child, Command, Stdio};
use std::thread::sleep;
use std::time::Duration;

const PORTS_TRIED: usize = 5;
const WAITS: usize = 100;
const WAIT: Duration = Duration::from_millis(20);

pub struct Server {
    child: Child,
    pub port: u16,
}

impl Server {
    pub fn start() -> io::Result<Server> {
        for _ in 0..PORTS_TRIED {
            let mut server = Server::spawn(free_port()?)?;
            if server.is_up()? {
                return Ok(server);
            }
        }
        Err(Error::new(ErrorKind::TimedOut, "memcached doesn't come up"))
    }

    fn spawn(port: u16) -> io::Result<Server> {
        let child = Command::new("memcached")
            .args(["-l", "127.0.0.1", "-U", "0", "-B", "binary", "-u", "nobody", "-t", "1", "-m", "16"])
            .args(["-o", "no_lru_crawler,no_lru_maintainer"])
            .args(["-p", &port.to_string()])
            .stdin(Stdio::null())
            .stderr(Stdio::null())
            .spawn()?;
        Ok(Server { child, port })
    }

    fn is_up(&mut self) -> io::Result<bool> {
        for _ in 0..WAITS {
            if self.child.try_wait()?.is_some() {
                return Ok(false);
            }
            if TcpStream::connect((Ipv4Addr::LOCALHOST, self.port)).is_ok() {
                return Ok(true);
            }
            sleep(WAIT);
        }
        Ok(false)
    }
}

impl Drop for Server {
    fn drop(&mut self) {
        // A process that has ended can't be killed, which is as good.
        let _ = self.child.kill();
        let _ = self.child.wait();
    }
}

fn free_port() -> io::Result<u16> {
    Ok(TcpListener::bind((Ipv4Addr::LOCALHOST, 0))?.local_addr()?.port())
}

/// What `memcached -V` says, as in `memcached 1.6.18`.
pub fn version() -> io::Result<String> {
    let said = Command::new("memcached").arg("-V").output()?.stdout;
    Ok(String::from_utf8_lossy(&said).trim().to_string())
}
