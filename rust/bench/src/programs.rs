//! The two programs, the calls, and the memory that is lent to them.

use crate::inputs::Input;
use plain::calls::Reply;

/// One of the four calls.
#[derive(Clone, Copy)]
pub enum Call {
    Draw,
    Keep,
    Read,
    Replace,
}

pub const CALLS: [Call; 4] = [Call::Draw, Call::Keep, Call::Read, Call::Replace];

impl Call {
    pub fn name(self) -> &'static str {
        match self {
            Call::Draw => "draw",
            Call::Keep => "keep",
            Call::Read => "read",
            Call::Replace => "replace",
        }
    }
}

/// The calls of one program. None of them is refused here; the answer is the
/// number with the reply.
pub struct Program {
    draw: fn(&[i32], u32, &mut [i32]) -> usize,
    keep: fn(&[i32], u32, &mut [u8]) -> usize,
    read: fn(&[u8], &mut [i32]) -> (usize, u32),
    replace: fn(&mut [u8], usize, [i32; 3]) -> usize,
}

pub const LIBRARY: Program = Program {
    draw: |path, grade, out| sehmelir::draw(path, grade, out).unwrap(),
    keep: |path, grade, out| sehmelir::keep(path, grade, out).unwrap(),
    read: |store, out| {
        let kept = sehmelir::read(store, out).unwrap();
        (kept.vertices, kept.grade)
    },
    replace: |store, index, [x, y, radius]| sehmelir::replace(store, index, x, y, radius).unwrap(),
};

pub const PLAIN: Program = Program {
    draw: |path, grade, out| done(plain::calls::draw(path, grade, out)).0,
    keep: |path, grade, out| done(plain::calls::keep(path, grade, out)).0,
    read: |store, out| done(plain::calls::read(store, out)),
    replace: |store, index, [x, y, radius]| {
        done(plain::calls::replace(store, index, x, y, radius)).0
    },
};

fn done(reply: Reply) -> (usize, u32) {
    assert_eq!(reply.reply, 0);
    (reply.number as usize, reply.grade)
}

/// The memory that is lent to one program.
#[derive(Clone, PartialEq)]
pub struct Memory {
    /// For draw: the edges.
    edges: Vec<i32>,
    /// For keep: the outline.
    kept: Vec<u8>,
    /// For read and replace: the outline, with room to grow where the vertex
    /// in the middle is moved.
    store: Vec<u8>,
    /// For read: the path.
    path: Vec<i32>,
}

impl Memory {
    /// As much as the calls need, with nothing in it but the outline that read
    /// and replace find there.
    pub fn new(input: &Input, grade: u32) -> Memory {
        let needed = |path: &[i32]| plain::calls::keep(path, grade, &mut []).number as usize;
        let bytes = needed(&input.path);
        let mut store = vec![0; bytes.max(needed(&input.moved_path(input.middle())))];
        done(plain::calls::keep(&input.path, grade, &mut store));
        Memory {
            edges: vec![0; (bytes - sehmelir::outline_bytes(input.vertices(), 0)) / 4],
            kept: vec![0; bytes],
            store,
            path: vec![0; input.path.len()],
        }
    }

    pub fn edges(&self) -> usize {
        self.edges.len() / 4
    }
}

impl Program {
    /// Replaces the vertex in the middle.
    pub fn replace(&self, input: &Input, vertex: [i32; 3], memory: &mut Memory) -> usize {
        (self.replace)(&mut memory.store, input.middle(), vertex)
    }

    /// One run of a call; of replace, one there and one back.
    pub fn run(&self, call: Call, input: &Input, grade: u32, memory: &mut Memory) -> (usize, u32) {
        match call {
            Call::Draw => ((self.draw)(&input.path, grade, &mut memory.edges), 0),
            Call::Keep => ((self.keep)(&input.path, grade, &mut memory.kept), 0),
            Call::Read => (self.read)(&memory.store, &mut memory.path),
            Call::Replace => {
                let middle = input.middle();
                self.replace(input, input.moved_vertex(middle), memory);
                (self.replace(input, input.vertex(middle), memory), 0)
            }
        }
    }
}
