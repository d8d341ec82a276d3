//! The archive behind the seam's entries: `seam.c` links it and
//! answers over a pipe, so that the archive may be for another processor.

use std::io::{self, Read, Write};
use std::process::{Child, ChildStdin, ChildStdout};
use std::sync::Mutex;

use super::program::Program;
use crate::doors::desk::Replacement;
use crate::doors::seam::{Memory, Seam};
use crate::paper::geometry::Geometry;

const NAMES: [&str; 4] = ["drive", "volume", "control block", "buffer"];

/// The program and those of its runs that no thread is asking.
pub struct Archive {
    program: Program,
    idle: Mutex<Vec<Run>>,
}

impl Archive {
    pub fn new(program: Program) -> Archive {
        Archive { program, idle: Mutex::new(Vec::new()) }
    }

    fn ask(&self, head: [u8; 4], geometry: Geometry, memory: &mut Memory) -> Result<u32, String> {
        let idle = self.idle.lock().unwrap().pop();
        let mut run = idle.map_or_else(|| Run::new(&self.program), Ok).map_err(|error| error.to_string())?;
        let (answer, changed) =
            run.ask(head, geometry, memory).map_err(|error| format!("the seam: {}", error))?;
        self.idle.lock().unwrap().push(run);
        match changed {
            0 => Ok(answer),
            which => Err(format!("a byte before or behind the {} was changed", NAMES[which as usize - 1])),
        }
    }
}

impl Archive {
    /// `churawel_shelf`: the shelf's bytes go where a drive's do.
    pub fn shelf(&self, geometry: Geometry, volume: &[u8], shelf: &mut Vec<u8>) -> Result<u32, String> {
        let mut memory = Memory { drive: shelf.clone(), volume: volume.to_vec(), ..Memory::default() };
        let answer = self.ask([5, 0, 0, 0], geometry, &mut memory)?;
        *shelf = memory.drive;
        if memory.volume == volume {
            Ok(answer)
        } else {
            Err("the volume was changed".to_string())
        }
    }
}

impl Archive {
    /// `churawel_fresh_copy`: the second volume goes where a buffer does.
    pub fn fresh_copy(&self, geometry: Geometry, first: &[u8], second: &mut Vec<u8>) -> Result<u32, String> {
        let mut memory = Memory { volume: first.to_vec(), buffer: second.clone(), ..Memory::default() };
        let answer = self.ask([6, 0, 0, 0], geometry, &mut memory)?;
        *second = memory.buffer;
        if memory.volume == first {
            Ok(answer)
        } else {
            Err("the first volume was changed".to_string())
        }
    }
}

impl Seam for Archive {
    fn log_in(&self, geometry: Geometry, memory: &mut Memory) -> Result<u32, String> {
        self.ask([0, 0, 0, 0], geometry, memory)
    }

    fn call(&self, function: u8, parameter: u8, memory: &mut Memory) -> Result<u32, String> {
        let none = Geometry::new(0, 0, 0);
        self.ask([1, function, parameter, 0], none, memory)
    }

    fn cut(&self, most: u32, function: u8, parameter: u8, memory: &mut Memory) -> Result<u32, String> {
        let most = Geometry::new(most, 0, 0);
        self.ask([4, function, parameter, 0], most, memory)
    }

    fn fault(&self, geometry: Geometry, memory: &mut Memory) -> Result<u32, String> {
        self.ask([2, 0, 0, 0], geometry, memory)
    }

    fn file(&self, from: u32, memory: &mut Memory) -> Result<u32, String> {
        self.ask([3, 0, 0, 0], Geometry::new(from, 0, 0), memory)
    }

    fn replace(&self, asked: Replacement, memory: &mut Memory) -> Result<u32, String> {
        let [chapter, old, new] = [asked.chapter, asked.old, asked.new].map(u32::from);
        self.ask([7, 0, 0, 0], Geometry::new(chapter, old, new), memory)
    }

    /// The lists stand where volume and control block do, and the answer's high
    /// half comes in the buffer.
    fn manuscript(&self, siglum: u16, own: &[u8], house: &[u8]) -> Result<u64, String> {
        let lent =
            Memory { drive: Vec::new(), volume: own.to_vec(), control: house.to_vec(), buffer: vec![0; 4] };
        let mut memory = lent.clone();
        let siglum = Geometry::new(siglum as u32, 0, 0);
        let low = self.ask([8, 0, 0, 0], siglum, &mut memory)?;
        if (&memory.volume, &memory.control) != (&lent.volume, &lent.control) {
            return Err("a list was changed".to_string());
        }
        let high = memory.buffer.iter().rev().fold(0, |number, &byte| 256 * number + byte as u64);
        Ok((high << 32) + low as u64)
    }
}

/// One run of the program, and its two pipes.
struct Run {
    child: Child,
    requests: ChildStdin,
    replies: ChildStdout,
}

impl Run {
    fn new(program: &Program) -> io::Result<Run> {
        let mut child = program.start()?;
        let requests = child.stdin.take().ok_or(io::ErrorKind::BrokenPipe)?;
        let replies = child.stdout.take().ok_or(io::ErrorKind::BrokenPipe)?;
        Ok(Run { child, requests, replies })
    }

    /// The answer, and which of the four has a neighbouring byte changed. The
    /// program reads a request to its end before it replies.
    fn ask(&mut self, head: [u8; 4], geometry: Geometry, memory: &mut Memory) -> io::Result<(u32, u32)> {
        let mut lent = [&mut memory.drive, &mut memory.volume, &mut memory.control, &mut memory.buffer];
        let mut request = head.to_vec();
        for number in [geometry.block_bytes, geometry.blocks, geometry.directory_blocks, geometry.placing] {
            request.extend(number.to_le_bytes());
        }
        lent.iter().for_each(|bytes| request.extend((bytes.len() as u32).to_le_bytes()));
        lent.iter().for_each(|bytes| request.extend_from_slice(bytes));
        self.requests.write_all(&request)?;
        let numbers = (self.number()?, self.number()?);
        for bytes in lent.iter_mut() {
            self.replies.read_exact(bytes)?;
        }
        Ok(numbers)
    }

    fn number(&mut self) -> io::Result<u32> {
        let mut bytes = [0; 4];
        self.replies.read_exact(&mut bytes)?;
        Ok(u32::from_le_bytes(bytes))
    }
}

impl Drop for Run {
    fn drop(&mut self) {
        let _ = self.child.kill();
        let _ = self.child.wait();
    }
}
