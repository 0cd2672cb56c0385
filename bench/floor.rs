//! floor: the best figures of this machine's loopback for a server of one blocking thread that does nothing.
//!
//!   rustc -O --edition 2021 floor.rs -o floor && ./floor
//!
//! A server thread reads at most CHUNK bytes per read (`serve` reads at most 4,096), and for every complete
//! record of the requested size writes a canned reply. The client keeps 1 or 8 requests outstanding. Sizes are those of the
//! rows of load.rs, so no server of this form can exceed these figures here. It stops by itself (about 15 seconds).

use std::io::{Read, Write};
use std::net::{TcpListener, TcpStream};
use std::time::{Duration, Instant};

extern "C" {
    fn sched_setaffinity(pid: i32, size: usize, mask: *const u64) -> i32;
}

/// Keeps this thread on one processor: the server's is 0 and the client's 1, as `bench/beside` has them.
fn stay_on(processor: u32) {
    let mask = 1u64 << processor;
    // SAFETY: the mask is read for the 8 bytes that it has.
    unsafe { sched_setaffinity(0, 8, &mask) };
}

/// The processor time that this thread has had, in nanoseconds.
fn spent() -> f64 {
    let s = std::fs::read_to_string("/proc/thread-self/schedstat").unwrap_or_default();
    s.split(' ').next().and_then(|x| x.parse().ok()).unwrap_or(0.0)
}

/// Serves until the end, and says the processor time a call in microseconds.
fn serve(mut s: TcpStream, chunk: usize, ask: usize, give: usize) -> f64 {
    let mut calls = 0;
    let (mut buf, reply, mut have) = (vec![0; chunk], vec![7u8; give], 0);
    while let Ok(n) = s.read(&mut buf) {
        if n == 0 {
            break;
        }
        have += n;
        let k = have / ask;
        have %= ask;
        // one write per turn, as a hub that collects replies would do
        if k > 0 && s.write_all(&reply.repeat(k)).is_err() {
            break;
        }
        calls += k;
    }
    spent() / 1e3 / calls.max(1) as f64
}

fn run(chunk: usize, ask: usize, give: usize, out: usize) -> (f64, f64, f64, f64) {
    let l = TcpListener::bind("127.0.0.1:0").unwrap();
    let at = l.local_addr().unwrap();
    let t = std::thread::spawn(move || {
        stay_on(0);
        let (s, _) = l.accept().unwrap();
        s.set_nodelay(true).unwrap();
        serve(s, chunk, ask, give)
    });
    stay_on(1);
    let mut c = TcpStream::connect(at).unwrap();
    c.set_nodelay(true).unwrap();
    let call = vec![9u8; ask];
    let mut buf = vec![0; 1 << 18];
    let mut born = std::collections::VecDeque::new();
    let mut lat = Vec::new();
    c.write_all(&call.repeat(out)).unwrap();
    let t0 = Instant::now();
    (0..out).for_each(|_| born.push_back(t0));
    let (mut have, limit) = (0, Duration::from_millis(600));
    while t0.elapsed() < limit {
        have += c.read(&mut buf).unwrap();
        let k = have / give;
        have %= give;
        let now = Instant::now();
        for _ in 0..k {
            lat.push((now - born.pop_front().unwrap()).as_nanos() as u32);
            born.push_back(now);
        }
        if k > 0 {
            c.write_all(&call.repeat(k)).unwrap();
        }
    }
    let secs = t0.elapsed().as_secs_f64();
    drop(c);
    let cpu = t.join().unwrap();
    lat.sort_unstable();
    (lat.len() as f64 / secs, lat[lat.len() / 2] as f64 / 1e3, lat[lat.len() * 99 / 100] as f64 / 1e3, cpu)
}

fn main() {
    println!("{:<28}{:>6}{:>8}{:>5}{:>12}{:>10}{:>10}{:>10}", "as in row", "ask", "give", "out", "per s", "p50 us", "p99 us", "cpu us");
    // bytes of call and reply with record marks, as counted on the traffic of bench.rs
    for (name, ask, give) in [("null", 44, 28), ("a SEQUENCE", 124, 84), ("b GETATTR", 192, 252), ("d4 READ", 192, 4224), ("d32 READ", 192, 32896), ("e4 WRITE", 4288, 120), ("e32 WRITE", 32960, 120)] {
        for chunk in [4096usize, 131_072] {
            if chunk > 4096 && ask < 4096 {
                continue;
            }
            for out in [1, 8] {
                let (r, p50, p99, cpu) = run(chunk, ask, give, out);
                println!("{:<28}{ask:>6}{give:>8}{out:>5}{r:>12.0}{p50:>10.1}{p99:>10.1}{cpu:>10.2}", format!("{name}, reads of {chunk}"));
            }
        }
    }
}
