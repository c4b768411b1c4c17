//! Calls on a tree that is damaged between them, over `plain`; with the argument
//! `fast`, over `fast`. It reads what the walk program reads, with 4 bytes place
//! and 1 byte amount after each call's tape: before that call the tree's byte at
//! the place, modulo the tree's length, grows by the amount, modulo 256. It
//! prints for each call the walk program's line, then the peaks program's.

use reference::walk::{self, Program};

fn main() -> std::io::Result<()> {
    walk::main(Program::DamagedCalls)
}
