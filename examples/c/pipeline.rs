// The pipeline `list | number` of pipeline.c from Rust: a hub that frees itself, a result for each call, and a table of
// numbers in a map. It prints the same. `rustc --edition=2021 -L native=crates/pf_c/out examples/c/pipeline.rs` builds it.
use std::collections::BTreeMap;
use std::ffi::c_void;

// What sagthrey.h declares, as far as it is used here.

#[repr(C)]
struct SagHub {
    at: *mut c_void,
    is_open: bool,
}

#[repr(C)]
struct SagLimits {
    reserve: u32,
    soft: u32,
    hard: u32,
    max: u32,
}

const SAG_PARKED: i64 = -1000;
const SAG_NOMEM: i64 = -1001;
const SAG_NONAMESPACE: i64 = -1002;
const SAG_DEFAULT_SOFT: u32 = 16384;
const SAG_DEFAULT_HARD: u32 = 0;
const SAG_DEFAULT_MAX: u32 = 1048576;

#[rustfmt::skip]
#[link(name = "sagthrey", kind = "static")]
extern "C" {
    fn sag_open(frames: u32, limits: *const SagLimits, count: usize, out: *mut SagHub) -> i64;
    fn sag_free(h: *mut SagHub);
    fn sag_held(h: *mut SagHub, ns: u32) -> i64;
    fn sag_free_frames(h: *mut SagHub) -> u32;
    fn sag_spawn(h: *mut SagHub, ns: u32, uid: u32, gid: u32, groups: *const u32, count: usize, umask: u32) -> i64;
    fn sag_fork(h: *mut SagHub, ns: u32, pid: u32) -> i64;
    fn sag_exit(h: *mut SagHub, ns: u32, pid: u32) -> i64;
    fn sag_can_go_on(h: *mut SagHub, ns: u32, pid: u32) -> bool;
    fn sag_resume(h: *mut SagHub, ns: u32, pid: u32, into: *mut u8, count: usize) -> i64;
    fn sag_pipe(h: *mut SagHub, ns: u32, pid: u32, nonblock: bool, fds: *mut u32) -> i64;
    fn sag_read(h: *mut SagHub, ns: u32, pid: u32, fd: u32, into: *mut u8, count: usize) -> i64;
    fn sag_write(h: *mut SagHub, ns: u32, pid: u32, fd: u32, bytes: *const u8, count: usize) -> i64;
    fn sag_close(h: *mut SagHub, ns: u32, pid: u32, fd: u32) -> i64;
    fn sag_dup(h: *mut SagHub, ns: u32, pid: u32, fd: u32) -> i64;
}

/// What a call is told that has no other result.
#[derive(Clone, Copy, Debug, PartialEq, Eq)]
enum Told {
    Parked,
    NoMemory,
    NoNamespace,
    /// A system call's error, by Linux's number.
    Errno(i64),
}

const EBADF: Told = Told::Errno(9);
const EMFILE: Told = Told::Errno(24);

/// A call's number, or why it has none.
fn told(result: i64) -> Result<u64, Told> {
    u64::try_from(result).map_err(|_| match result {
        SAG_PARKED => Told::Parked,
        SAG_NOMEM => Told::NoMemory,
        SAG_NONAMESPACE => Told::NoNamespace,
        refused => Told::Errno(-refused),
    })
}

/// The same of a call whose number is a pid or a descriptor.
fn told_small(result: i64) -> Result<u32, Told> {
    told(result).map(|number| number as u32)
}

/// The same of a call that hands bytes into a buffer: those of them that are there.
fn told_bytes(result: i64, buffer: &[u8]) -> Result<&[u8], Told> {
    told(result).map(|count| &buffer[..buffer.len().min(count as usize)])
}

/// A hub of one namespace, which goes with its owner. It stays on its thread, as each type with a raw pointer inside; a
/// host that sends it to others may add `unsafe impl Send for Hub {}`, for a hub may go from one thread to another.
struct Hub(SagHub);

const NAMESPACE: u32 = 0;

impl Hub {
    /// A hub of so many frames, all of them reserved for its namespace.
    fn new(frames: u32) -> Result<Hub, Told> {
        let limits = SagLimits {
            reserve: frames,
            soft: SAG_DEFAULT_SOFT,
            hard: SAG_DEFAULT_HARD,
            max: SAG_DEFAULT_MAX,
        };
        let mut handle = SagHub {
            at: std::ptr::null_mut(),
            is_open: false,
        };
        // SAFETY: the limits are one namespace's, and the handle is shut.
        told(unsafe { sag_open(frames, &limits, 1, &mut handle) })?;
        Ok(Hub(handle))
    }

    // SAFETY, here and below: the handle is of `new`, and no other copy of it is used; `&mut self` lets no two calls
    // overlap; a slice's pointer isn't null, and leads to as many values as its length says.

    fn held(&mut self) -> Result<u64, Told> {
        told(unsafe { sag_held(&mut self.0, NAMESPACE) })
    }

    fn free_frames(&mut self) -> u32 {
        unsafe { sag_free_frames(&mut self.0) }
    }

    fn spawn(&mut self, uid: u32, gid: u32, groups: &[u32], umask: u32) -> Result<u32, Told> {
        let (at, count) = (groups.as_ptr(), groups.len());
        told_small(unsafe { sag_spawn(&mut self.0, NAMESPACE, uid, gid, at, count, umask) })
    }

    fn fork(&mut self, pid: u32) -> Result<u32, Told> {
        told_small(unsafe { sag_fork(&mut self.0, NAMESPACE, pid) })
    }

    fn exit(&mut self, pid: u32) -> Result<(), Told> {
        told(unsafe { sag_exit(&mut self.0, NAMESPACE, pid) }).map(drop)
    }

    fn pipe(&mut self, pid: u32) -> Result<[u32; 2], Told> {
        let mut fds = [0; 2];
        told(unsafe { sag_pipe(&mut self.0, NAMESPACE, pid, false, fds.as_mut_ptr()) })?;
        Ok(fds)
    }

    fn read<'a>(&mut self, pid: u32, fd: u32, into: &'a mut [u8]) -> Result<&'a [u8], Told> {
        let (at, count) = (into.as_mut_ptr(), into.len());
        let result = unsafe { sag_read(&mut self.0, NAMESPACE, pid, fd, at, count) };
        told_bytes(result, into)
    }

    /// Whether the call in which a process waits comes further when it is tried again.
    fn can_go_on(&mut self, pid: u32) -> bool {
        unsafe { sag_can_go_on(&mut self.0, NAMESPACE, pid) }
    }

    /// Tries the read again in which the process waits.
    fn resume<'a>(&mut self, pid: u32, into: &'a mut [u8]) -> Result<&'a [u8], Told> {
        let (at, count) = (into.as_mut_ptr(), into.len());
        let result = unsafe { sag_resume(&mut self.0, NAMESPACE, pid, at, count) };
        told_bytes(result, into)
    }

    fn write(&mut self, pid: u32, fd: u32, bytes: &[u8]) -> Result<u64, Told> {
        let (at, count) = (bytes.as_ptr(), bytes.len());
        told(unsafe { sag_write(&mut self.0, NAMESPACE, pid, fd, at, count) })
    }

    fn close(&mut self, pid: u32, fd: u32) -> Result<(), Told> {
        told(unsafe { sag_close(&mut self.0, NAMESPACE, pid, fd) }).map(drop)
    }

    fn dup(&mut self, pid: u32, fd: u32) -> Result<u32, Told> {
        told_small(unsafe { sag_dup(&mut self.0, NAMESPACE, pid, fd) })
    }
}

impl Drop for Hub {
    fn drop(&mut self) {
        unsafe { sag_free(&mut self.0) }
    }
}

/// A program as the host keeps it: its process, its own numbers of descriptors, whether it waits in a read.
struct Program {
    name: &'static str,
    pid: u32,
    numbers: BTreeMap<u32, u32>,
    waits: bool,
    ended: bool,
    line: usize,
}

impl Program {
    fn new(name: &'static str, pid: u32, numbers: BTreeMap<u32, u32>) -> Program {
        Program {
            name,
            pid,
            numbers,
            waits: false,
            ended: false,
            line: 0,
        }
    }

    fn descriptor(&self, number: u32) -> Result<u32, Told> {
        self.numbers.get(&number).copied().ok_or(EBADF)
    }

    /// pipe(2); the ends get these numbers.
    fn pipe(&mut self, hub: &mut Hub, reading: u32, writing: u32) -> Result<(), Told> {
        let [first, second] = hub.pipe(self.pid)?;
        self.numbers.extend([(reading, first), (writing, second)]);
        Ok(())
    }

    /// fork(2): the child has the same descriptors, under the same numbers.
    fn fork(&self, hub: &mut Hub, name: &'static str) -> Result<Program, Told> {
        Ok(Program::new(
            name,
            hub.fork(self.pid)?,
            self.numbers.clone(),
        ))
    }

    /// close(2) of a program's own number.
    fn close(&mut self, hub: &mut Hub, number: u32) -> Result<(), Told> {
        let fd = self.numbers.remove(&number).ok_or(EBADF)?;
        hub.close(self.pid, fd)
    }

    /// dup2(2): what `to` names is closed, and then it names what `from` names. In this order it succeeds in a full
    /// table too, as dup2 does; and nothing is closed where `from` names nothing.
    fn dup2(&mut self, hub: &mut Hub, from: u32, to: u32) -> Result<(), Told> {
        let fd = self.descriptor(from)?;
        if from == to {
            return Ok(());
        }
        if self.numbers.contains_key(&to) {
            self.close(hub, to)?;
        }
        let copy = hub.dup(self.pid, fd)?;
        self.numbers.insert(to, copy);
        Ok(())
    }

    fn end(&mut self, hub: &mut Hub) -> Result<(), Told> {
        hub.exit(self.pid)?;
        self.ended = true;
        Ok(())
    }

    fn exit(&mut self, hub: &mut Hub) -> Result<(), Told> {
        self.end(hub)?;
        println!("{} ends", self.name);
        Ok(())
    }

    /// A turn of the first plug-in, which writes three lines to its number 1.
    fn list(&mut self, hub: &mut Hub) -> Result<(), Told> {
        let Some(text) = ["ash\n", "birch\n", "cedar\n"].get(self.line) else {
            return self.exit(hub);
        };
        self.line += 1;
        let count = hub.write(self.pid, self.descriptor(1)?, text.as_bytes())?;
        assert_eq!(count, text.len() as u64);
        println!("{} writes {count} bytes", self.name);
        Ok(())
    }

    /// A turn of the second, which prints what it reads from its number 0, with a number. Where the read waits, the
    /// next turn is once it can go on.
    fn number(&mut self, hub: &mut Hub) -> Result<(), Told> {
        let mut buffer = [0; 16];
        let answer = match self.waits {
            true => hub.resume(self.pid, &mut buffer),
            false => hub.read(self.pid, self.descriptor(0)?, &mut buffer),
        };
        if answer == Err(Told::Parked) {
            println!("{} waits", self.name);
            self.waits = true;
            return Ok(());
        }
        self.waits = false;
        let bytes = answer?;
        if bytes.is_empty() {
            return self.exit(hub);
        }
        self.line += 1;
        print!(
            "{} reads: {} {}",
            self.name,
            self.line,
            String::from_utf8_lossy(bytes)
        );
        Ok(())
    }
}

fn main() -> Result<(), Told> {
    let mut hub = Hub::new(16)?;
    let pid = hub.spawn(1000, 1000, &[], 0o022)?;
    let mut shell = Program::new("shell", pid, BTreeMap::new());

    // What a shell does for `list | number`.
    shell.pipe(&mut hub, 3, 4)?;
    let mut list = shell.fork(&mut hub, "list")?;
    list.dup2(&mut hub, 4, 1)?;
    list.close(&mut hub, 3)?;
    list.close(&mut hub, 4)?;
    let mut number = shell.fork(&mut hub, "number")?;
    number.dup2(&mut hub, 3, 0)?;
    number.close(&mut hub, 3)?;
    number.close(&mut hub, 4)?;
    assert_eq!(number.dup2(&mut hub, 6, 0), Err(EBADF));

    // A program with all its descriptors taken: it can't dup, and it can dup2.
    let mut full = shell.fork(&mut hub, "full")?;
    let fd = full.descriptor(4)?;
    while hub.dup(full.pid, fd)? < 255 {}
    assert_eq!(hub.dup(full.pid, fd), Err(EMFILE));
    full.dup2(&mut hub, 4, 3)?;
    full.end(&mut hub)?;
    shell.close(&mut hub, 3)?;
    shell.close(&mut hub, 4)?;

    // The event loop. The reader comes first, so it waits until there are bytes.
    while !list.ended || !number.ended {
        if !number.ended && (!number.waits || hub.can_go_on(number.pid)) {
            number.number(&mut hub)?;
        }
        if !list.ended {
            list.list(&mut hub)?;
        }
    }
    hub.exit(shell.pid)?;
    assert_eq!((hub.free_frames(), hub.held()), (16, Ok(0)));
    drop(hub);
    println!("the pipeline has ended");
    Ok(())
}
