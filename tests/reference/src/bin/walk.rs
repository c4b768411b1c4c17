//! The walk program over `plain`; with the argument `fast`, over `fast`.

use reference::walk::{self, Program};

fn main() -> std::io::Result<()> {
    walk::main(Program::Walk)
}
