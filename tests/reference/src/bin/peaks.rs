//! The peaks program over `plain`; with the argument `fast`, over `fast`. It
//! reads what the walk program reads, and prints a line a call,
//! `last L largest M limit 64`: the call's peak, and the largest so far.

use reference::walk::{self, Program};

fn main() -> std::io::Result<()> {
    walk::main(Program::Peaks)
}
