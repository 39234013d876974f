//! The contestants with numpy and OpenCV: `flat.py`, a process that makes calls on request.

use crate::scene::Scene;
use crate::timing::Contestant;
use std::cell::RefCell;
use std::io::{BufRead, BufReader, Write};
use std::path::{Path, PathBuf};
use std::process::{Child, ChildStdin, ChildStdout, Command, Stdio};
use std::time::Duration;
use std::{env, fs};

/// Debian's Python, which has Debian's numpy; `PCIV_PYTHON` names another one.
const DEFAULT_PYTHON: &str = "/usr/bin/python3";

/// The process, and what it has.
pub struct Python {
    talk: RefCell<Talk>,
    folder: PathBuf,
    /// The version, where it is there.
    pub numpy: Option<String>,
    pub opencv: Option<String>,
}

struct Talk {
    process: Child,
    requests: ChildStdin,
    answers: BufReader<ChildStdout>,
}

impl Talk {
    /// The answer to a request; none if the process has ended.
    fn ask(&mut self, request: &str) -> Option<String> {
        writeln!(self.requests, "{request}").ok()?;
        let mut answer = String::new();
        self.answers.read_line(&mut answer).ok()?;
        answer.strip_suffix('\n').map(String::from)
    }
}

impl Python {
    /// Starts the process, which keeps its arrays in a folder below `build` of the repository.
    pub fn start(root: &Path) -> Option<Python> {
        let python = env::var("PCIV_PYTHON").unwrap_or(DEFAULT_PYTHON.into());
        let mut process = Command::new(python)
            .arg(root.join("tests/bench/flat.py"))
            .stdin(Stdio::piped())
            .stdout(Stdio::piped())
            .spawn()
            .ok()?;
        let mut talk = Talk {
            requests: process.stdin.take()?,
            answers: BufReader::new(process.stdout.take()?),
            process,
        };
        let mut version = |library| {
            let version = talk.ask(&format!("version\t{library}"))?;
            (version != "none").then_some(version)
        };
        let (numpy, opencv) = (version("numpy"), version("opencv"));
        numpy.as_ref()?;
        let folder = root.join("build/bench");
        fs::create_dir_all(&folder).expect("a folder below build");
        Some(Python {
            talk: RefCell::new(talk),
            folder,
            numpy,
            opencv,
        })
    }

    /// Has the process take over the lists and masks of a scene; the number that it has there.
    pub fn take(&self, scene: &Scene) -> String {
        let save = |name: &str, numbers: &[u64]| {
            let bytes: Vec<u8> = numbers.iter().flat_map(|x| x.to_le_bytes()).collect();
            fs::write(self.folder.join(name), bytes).expect("a file below build");
        };
        let wide = |list: &[u32]| -> Vec<u64> { list.iter().map(|&x| x.into()).collect() };
        let primary: Vec<u64> = scene.a.primary().iter().map(|&x| x.into()).collect();
        save("a", &wide(&scene.a.list));
        save("b", &wide(&scene.b.list));
        save("small", &wide(&scene.small.list));
        save("primary", &primary);
        save("slots", &scene.a.slots);
        save("distances", &wide(&scene.a.distances));
        save("asked", &scene.asked);
        save("places", &[scene.inline_slot(), scene.overflow_slot()]);
        save("mask", &scene.mask);
        save("other_mask", &scene.other_mask);
        for (kind, mask) in scene.masks() {
            save(kind, mask);
        }
        let (height, width) = (scene.size.height, scene.size.width);
        let folder = self.folder.display();
        self.ask(&format!("scene\t{folder}\t{height}\t{width}"))
    }

    /// Has calls made on a scene that was taken over.
    pub fn choose(&self, number: &str) {
        self.ask(&format!("use\t{number}"));
    }

    /// The digest of a call's result, where the library has the call.
    pub fn digest(&self, library: &str, call: &str) -> Option<u64> {
        self.ask(&format!("digest\t{library}\t{call}")).parse().ok()
    }

    /// The contestant for a call, where the library has it.
    pub fn contestant<'a>(&'a self, library: &'a str, call: &'a str) -> Option<Contestant<'a>> {
        if self.ask(&format!("has\t{library}\t{call}")) == "none" {
            return None;
        }
        Some(Box::new(move |repeats| {
            let answer = self.ask(&format!("time\t{library}\t{call}\t{repeats}"));
            Duration::from_nanos(answer.parse().expect("nanoseconds"))
        }))
    }

    fn ask(&self, request: &str) -> String {
        let answer = self.talk.borrow_mut().ask(request);
        answer.unwrap_or_else(|| panic!("flat.py ended at: {request}"))
    }
}

impl Drop for Python {
    fn drop(&mut self) {
        let talk = self.talk.get_mut();
        let _ = talk.requests.write_all(b"end\n");
        let _ = talk.process.wait();
    }
}
