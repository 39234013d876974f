//! Writes the files of `tests/vectors` and their tables:
//! `cargo run --release -p reference --bin make_vectors tests/vectors`.

use reference::vectors::{bundles, table, vectors, Vector};
use std::{env, fs, io, path::Path};

fn main() -> io::Result<()> {
    let folder = env::args().nth(1).expect("usage: make_vectors FOLDER");
    let folder = Path::new(&folder);
    fs::create_dir_all(folder)?;
    let (maps, bundles) = (vectors(), bundles::vectors());
    write_files(folder, &maps)?;
    write_files(folder, &bundles)?;
    fs::write(folder.join("expected.tsv"), table(&maps))?;
    fs::write(folder.join("expected-pcib.tsv"), bundles::table(&bundles))
}

fn write_files<C>(folder: &Path, vectors: &[Vector<C>]) -> io::Result<()> {
    for vector in vectors {
        fs::write(folder.join(&vector.name), &vector.file)?;
    }
    Ok(())
}
