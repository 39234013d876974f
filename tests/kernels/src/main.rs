//! Looks in the object code of the library for the vectorised loops of each routine.
//!
//! usage: kernels ARCHIVE

use std::{env, process};

fn main() {
    let archives: Vec<String> = env::args().skip(1).collect();
    let [archive] = archives.as_slice() else {
        eprintln!("usage: kernels ARCHIVE");
        process::exit(2);
    };
    let checked = kernels::disassemble(archive)
        .map_err(|error| vec![error])
        .and_then(|text| kernels::check(&text, kernels::ROUTINES));
    match checked {
        Ok(loops) => println!(
            "{loops} loops of {} routines are vectorised",
            kernels::ROUTINES.len()
        ),
        Err(faults) => {
            faults.iter().for_each(|fault| println!("{fault}"));
            process::exit(1);
        }
    }
}
