//! The copying program: `ticket_copy OLD NEW` copies a file of tickets with zeros
//! in unused fields, and prints how many tickets it changed; or a line on the
//! standard error. The status is always 0.

use reference::copy::copy_file;
use std::env;
use std::ffi::OsString;

fn main() {
    let words: Vec<OsString> = env::args_os().skip(1).collect();
    let done = match words.as_slice() {
        [old, new] => copy_file(old.as_ref(), new.as_ref()),
        _ => Err("usage: ticket_copy OLD NEW".to_string()),
    };
    match done {
        Ok(changed) => println!("{changed}"),
        Err(line) => eprintln!("ticket_copy: {line}"),
    }
}
