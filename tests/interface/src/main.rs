//! Compares the C header, the Rust declarations and the built libraries with the Rattle source of
//! the C interface.
//!
//! usage: interface LIBRARY.., from the repository's root: archives and shared libraries

use std::{env, path::Path, process};

fn main() {
    let libraries: Vec<String> = env::args().skip(1).collect();
    match interface::compare(Path::new("."), &libraries) {
        Ok(functions) => println!(
            "interface: {functions} functions, {} libraries, no faults",
            libraries.len()
        ),
        Err(faults) => {
            faults.iter().for_each(|fault| println!("{fault}"));
            println!("interface: {} faults", faults.len());
            process::exit(1);
        }
    }
}
