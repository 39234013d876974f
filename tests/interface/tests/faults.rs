//! Each kind of mismatch is told. Wrong headers are made from the real one, a change at a time, and
//! compared with it; the other languages have a small interface each.

use interface::{
    compare, compare_functions, compare_names, compare_structs, compare_texts, compare_version,
    read_c_texts, read_header, read_kinds, read_numbers, read_rattle, read_rust, read_rust_texts,
    read_symbols, read_version, read_versions, Functions, Header,
};
use std::{ops::Range, path::Path};

const HEADER: &str = include_str!("../../../include/pciv.h");

fn header(text: &str) -> Header {
    read_header(text).unwrap()
}

/// The faults of a header beside the real one.
fn faults_of(text: &str) -> Vec<String> {
    let (real, changed) = (header(HEADER), header(text));
    compare_functions(("real", &real.functions), ("changed", &changed.functions))
}

/// Where the functions of the header are declared, up to the semicolon.
fn declarations() -> Vec<(String, Range<usize>)> {
    let starts = HEADER.match_indices("\nuint64_t pciv_");
    let all: Vec<(String, Range<usize>)> = starts
        .map(|(at, _)| {
            let end = at + HEADER[at..].find(';').unwrap();
            let name = HEADER[at..].split(['(', ' ']).nth(1).unwrap();
            (name.to_string(), at..end)
        })
        .collect();
    assert_eq!(all.len(), header(HEADER).functions.len());
    all
}

/// The header with other text at a place.
fn with(range: Range<usize>, text: &str) -> String {
    [&HEADER[..range.start], text, &HEADER[range.end..]].concat()
}

/// The one fault of a changed header, which names the function.
fn assert_one(text: &str, name: &str, words: &str) {
    let faults = faults_of(text);
    assert_eq!(faults.len(), 1, "{name}: {faults:?}");
    assert!(faults[0].starts_with(&format!("{name}: ")), "{faults:?}");
    assert!(faults[0].contains(words), "{faults:?}");
}

#[test]
fn the_header_agrees_with_itself() {
    assert_eq!(faults_of(HEADER), [""; 0]);
    assert!(header(HEADER).functions.contains_key("pciv_check"));
    assert!(!header(HEADER).functions.contains_key("pciv_primary"));
}

/// The functions stand in several files of each language.
#[test]
fn the_sources_agree() {
    let root = Path::new(env!("CARGO_MANIFEST_DIR")).join("../..");
    assert_eq!(compare(&root, &[]), Ok(header(HEADER).functions.len()));
}

#[test]
fn a_missing_declaration_is_told() {
    for (name, range) in declarations() {
        let without = with(range.start..range.end + 1, "");
        assert_one(&without, &name, "in real, not in changed");
    }
}

#[test]
fn a_declaration_too_many_is_told() {
    for (name, range) in declarations() {
        let more = HEADER[range.clone()].replace(&name, &format!("{name}_more")) + ";";
        let text = with(range.start..range.start, &more);
        assert_one(&text, &format!("{name}_more"), "in changed, not in real");
    }
}

#[test]
fn a_const_dropped_is_told() {
    let mut tried = 0;
    for (name, range) in declarations() {
        for (at, word) in HEADER[range.clone()].match_indices("const ") {
            let at = range.start + at;
            assert_one(&with(at..at + word.len(), ""), &name, "argument");
            tried += 1;
        }
    }
    assert!(tried > 40);
}

#[test]
fn a_swapped_argument_is_told() {
    for (name, range) in declarations() {
        let text = &HEADER[range.clone()];
        let list = text.find('(').unwrap() + 1..text.rfind(')').unwrap();
        let arguments: Vec<&str> = text[list.clone()].split(',').collect();
        let list = range.start + list.start..range.start + list.end;
        for at in 1..arguments.len() {
            let mut swapped = arguments.clone();
            swapped.swap(at - 1, at);
            let faults = faults_of(&with(list.clone(), &swapped.join(",")));
            assert_eq!(faults.len(), 2, "{faults:?}");
            assert!(faults[0].starts_with(&format!("{name}: argument {at}: ")));
        }
    }
}

#[test]
fn an_argument_left_out_is_told() {
    for (name, range) in declarations() {
        let text = &HEADER[range.clone()];
        let last = text.rfind(',').unwrap()..text.rfind(')').unwrap();
        let last = range.start + last.start..range.start + last.end;
        assert_one(&with(last, ""), &name, "number of arguments");
    }
}

#[test]
fn another_type_is_told() {
    const TYPES: [(&str, &str); 13] = [
        ("uint8_t", "uint32_t"),
        ("uint32_t", "uint64_t"),
        (" uint64_t", " int64_t"),
        ("size_t", "uint32_t"),
        ("int32_t by", "uint32_t by"),
        ("double", "uint64_t"),
        ("pciv_summary *", "pciv_refusal *"),
        ("pciv_entry *", "uint64_t *"),
        ("pciv_part", "pciv_entry"),
        ("frames[8]", "frames[7]"),
        ("row[8]", "row[9]"),
        ("table[256]", "table[255]"),
        ("table[256]", "*table"),
    ];
    for (old, new) in TYPES {
        let mut tried = 0;
        for (name, range) in declarations() {
            for (at, word) in HEADER[range.clone()].match_indices(old) {
                let at = range.start + at;
                let changed = with(at..at + word.len(), new);
                assert_one(&changed, &name, "argument");
                tried += 1;
            }
        }
        assert!(tried > 0, "{old}");
    }
}

#[test]
fn another_answer_is_told() {
    for (name, range) in declarations() {
        let answer = range.start + 1..range.start + 1 + "uint64_t".len();
        assert_one(&with(answer, "uint32_t"), &name, "answer");
    }
}

#[test]
fn what_is_not_understood_is_no_header() {
    let odd = [
        "float pciv_a(void);",
        "uint64_t pciv_a(uint64_t (*f)(void));",
        "uint64_t pciv_a(uint64_t);",
        "extern int pciv_a;",
    ];
    for text in odd {
        assert!(read_header(text).is_err(), "{text}");
    }
    let twice = "uint64_t pciv_a(size_t n); uint64_t pciv_a(size_t n);";
    assert!(read_header(twice).is_err());
}

#[test]
fn a_missing_symbol_is_told() {
    let functions = header(HEADER).functions;
    let listing = |names: &[&String]| {
        let lines: Vec<String> = names.iter().map(|name| format!("{name} T 0 1f")).collect();
        format!("lib.a[lib.o]:\n{}\n", lines.join("\n"))
    };
    let names: Vec<&String> = functions.keys().collect();
    let faults = |names: &[&String]| {
        let symbols = read_symbols(&listing(names));
        compare_names(("header", &functions), ("library", &symbols))
    };
    assert_eq!(faults(&names), [""; 0]);
    for at in 0..names.len() {
        let mut fewer = names.clone();
        let name = fewer.remove(at);
        assert_eq!(
            faults(&fewer),
            [format!("{name}: in header, not in library")]
        );
    }
    let stray = "pciv_stray".to_string();
    let more = [names, vec![&stray]].concat();
    assert_eq!(faults(&more), ["pciv_stray: in library, not in header"]);
}

#[test]
fn another_number_or_field_is_told() {
    let rattle = "pub const BAD_MASK: usize = 13;\npub const BAD_MAGIC: usize = 2;";
    let numbers = read_numbers(rattle);
    let text = "enum pciv_refusal_number { PCIV_OK = 0, PCIV_BAD_MAGIC = 2, PCIV_BAD_MASK = 13 };";
    assert!(header(text)
        .compare_numbers(("rattle", &numbers))
        .is_empty());
    let changed = text.replace("13", "12");
    let faults = header(&changed).compare_numbers(("rattle", &numbers));
    assert_eq!(
        faults,
        ["PCIV_BAD_MASK: 12 in the header, Some(13) in rattle"]
    );

    let defined = header("#define PCIV_BAD_MAGIC 3\n").compare_numbers(("rattle", &numbers));
    assert_eq!(
        defined,
        ["PCIV_BAD_MAGIC: 3 in the header, Some(2) in rattle"]
    );
    for defined in ["PCIV_ANSWER_LEN", "PCIV_CORRECTION_LEN", "PCIV_MAX_FRAMES"] {
        assert!(header(HEADER).numbers.contains_key(defined), "{defined}");
    }

    let real = header(HEADER).structs;
    let faults = |name: &str, text: &str| {
        let changed = header(text).structs;
        compare_structs(("real", name), &real, ("changed", name), &changed)
    };
    for (name, old, new) in [
        ("pciv_summary", "uint64_t m;", "uint64_t mm;"),
        ("pciv_summary", "uint64_t sum;", "uint32_t sum;"),
        ("pciv_summary", "uint64_t sum;", ""),
        ("pciv_correction", "uint64_t kind;", "uint32_t kind;"),
        ("pciv_correction", "uint64_t before;", "uint64_t old;"),
        ("pciv_correction", "uint64_t after;", ""),
        ("pciv_part", "const uint8_t *bytes;", "uint64_t bytes;"),
        (
            "pciv_part",
            "const uint8_t *bytes;",
            "const uint8_t *first;",
        ),
        ("pciv_part", "size_t len;", "uint32_t len;"),
        ("pciv_part", "size_t len;", ""),
    ] {
        assert_eq!(faults(name, HEADER), [""; 0]);
        let changed = HEADER.replace(old, new);
        assert_eq!(faults(name, &changed).len(), 1, "{old} {new}");
    }
    for other in ["uint8_t *bytes", "const uint32_t *bytes"] {
        let changed = HEADER.replace("const uint8_t *bytes;", &format!("{other};"));
        assert!(read_header(&changed).is_err(), "{other}");
    }
}

/// A kind of refusal is an enum in Rattle, and its number in C.
#[test]
fn another_kind_of_refusal_is_told() {
    let source = "pub enum RefusalKind { BadMagic = 2, BadMask = 13, }\n\
        pub struct Refusal { pub kind: RefusalKind, pub map: usize }";
    let text = "enum pciv_refusal_number { PCIV_OK = 0, PCIV_BAD_MAGIC = 2, PCIV_BAD_MASK = 13 };";
    let faults = |source: &str| header(text).compare_numbers(("rattle", &read_kinds(source)));
    assert!(faults(source).is_empty());
    assert!(read_numbers(source).is_empty());
    assert_eq!(
        faults(&source.replace("13", "12")),
        ["PCIV_BAD_MASK: 13 in the header, Some(12) in rattle"]
    );
    assert_eq!(
        faults(&source.replace("BadMask", "Badmask")),
        ["PCIV_BAD_MASK: 13 in the header, None in rattle"]
    );

    let c = "typedef struct { uint64_t number; uint64_t map; } pciv_refusal;";
    let structs = |source: &str| read_rattle("", source).unwrap().1;
    let faults = |source: &str| {
        let (c, rattle) = (header(c).structs, structs(source));
        compare_structs(("c", "pciv_refusal"), &c, ("rattle", "Refusal"), &rattle)
    };
    assert!(faults(source).is_empty());
    assert_eq!(faults(&source.replace("map", "place")).len(), 1);
    for (old, new) in [
        (" = 13", ""),
        ("kind:", "number:"),
        ("kind:", "cause:"),
        ("enum RefusalKind", "enum OtherKind"),
        ("pub enum", "enum"),
        ("pub struct", "#[repr(C)] pub struct"),
    ] {
        assert_eq!(faults(&source.replace(old, new)).len(), 1, "{new}");
    }
}

/// The kinds of corrections are numbers without words, and have shorter names elsewhere.
#[test]
fn another_kind_is_told() {
    let rust = "impl Correction { pub const SET: u64 = 3; pub const INDEX: u64 = 4; }";
    let numbers = read_numbers(rust);
    let text = "enum pciv_correction_kind { PCIV_CORRECTION_SET = 3, PCIV_CORRECTION_INDEX = 4 };";
    assert!(header(text).compare_numbers(("rust", &numbers)).is_empty());
    assert!(header(text).refusals.is_empty());
    for (old, new) in [
        ("= 3", "= 4"),
        ("_SET", "_BYTE"),
        ("_CORRECTION_SET", "_SET_TO"),
    ] {
        let faults = header(&text.replace(old, new)).compare_numbers(("rust", &numbers));
        assert_eq!(faults.len(), 1, "{new}: {faults:?}");
    }
    assert!(read_header(&text.replace("_kind", "_sort")).is_err());

    let real = header(HEADER);
    let kinds = ["FIELD", "DROPPED", "SET", "INDEX"];
    for (number, kind) in (1..).zip(kinds) {
        let named = &real.numbers[&format!("PCIV_CORRECTION_{kind}")];
        assert_eq!((named.number, &named.elsewhere[..]), (number, kind));
        assert!(!real.refusals.contains(&kind.to_string()));
    }
}

#[test]
fn numbers_of_rust_are_read_too() {
    let text = "impl Refusal { pub const BAD_MAGIC: u64 = 2; pub const BAD_MASK: u64 = 12; }";
    let wanted =
        "enum pciv_refusal_number { PCIV_OK = 0, PCIV_BAD_MAGIC = 2, PCIV_BAD_MASK = 13 };";
    let faults = header(wanted).compare_numbers(("rust", &read_numbers(text)));
    assert_eq!(
        faults,
        ["PCIV_BAD_MASK: 13 in the header, Some(12) in rust"]
    );
}

#[test]
fn other_words_are_told() {
    const RUST: &str = include_str!("../../../rust/pciv/src/refusal.rs");
    let refusals = header(HEADER).refusals;
    assert_eq!(refusals.len(), 16);
    let faults = |c: &str, rust: &str| {
        let names = refusals.iter().map(String::as_str).chain(["_"]);
        let (in_c, in_rust) = (read_c_texts(c), read_rust_texts(rust));
        compare_texts(names, ("c", &in_c), ("rust", &in_rust))
    };
    assert_eq!(faults(HEADER, RUST), [""; 0]);
    for name in &refusals {
        let text = read_c_texts(HEADER).remove(name).unwrap();
        assert!(
            !text.contains(['\n', '\\']) || text.contains("\\\"PCIV\\\""),
            "{text}"
        );
        let case = HEADER.replace(&format!("case PCIV_{name}:"), "case 99:");
        assert_eq!(faults(&case, RUST).len(), 1, "{name}");
        let arm = match name.as_str() {
            "OK" => RUST.replace("0 => \"not", "99 => \"not"),
            name => RUST.replace(&format!("Refusal::{name} =>"), "99 =>"),
        };
        assert_eq!(faults(HEADER, &arm).len(), 1, "{name}");
    }
    for (old, new) in [
        ("a bit set past n\"", "a bit past n\""),
        ("255, or no 255 in", "255, or not 255 in"),
        ("\"unknown refusal\"", "\"\""),
        ("fit into the buffer\"", "fit into that buffer\""),
    ] {
        assert_eq!(faults(&HEADER.replace(old, new), RUST).len(), 1, "{new}");
        assert_eq!(faults(HEADER, &RUST.replace(old, new)).len(), 1, "{new}");
        let both = faults(&HEADER.replace(old, new), &RUST.replace(old, new));
        assert_eq!(both.len(), usize::from(new == "\"\""), "{new}");
    }
}

#[test]
fn another_version_is_told() {
    let cargo = "[workspace.package]\nversion = \"1.20.3\"\nedition = \"2021\"\n";
    let version = read_version(cargo).unwrap();
    let text = "#define PCIV_VERSION_MAJOR 1\n#define PCIV_VERSION_MINOR 20\n\
                #define PCIV_VERSION_PATCH 3\n#define PCIV_VERSION \"1.20.3\"\n\
                #define PCIV_VERSION_NUMBER 1020003\n";
    let faults = |text: &str| compare_version(&read_versions(text), ("cargo", version));
    assert_eq!(faults(text), [""; 0]);
    for (old, new) in [
        ("MAJOR 1", "MAJOR 2"),
        ("MINOR 20", "MINOR 2"),
        ("PATCH 3", "PATCH 0"),
        ("\"1.20.3\"", "\"1.20.4\""),
        ("1020003", "1020004"),
        ("#define PCIV_VERSION_PATCH 3\n", ""),
    ] {
        assert_eq!(faults(&text.replace(old, new)).len(), 1, "{new}");
    }
    assert_eq!(
        compare_version(&read_versions(text), ("cargo", "")).len(),
        1
    );
    assert!(header(text).numbers.is_empty());
}

const RATTLE_FORMAT: &str = "
    pub struct Summary { pub n: usize, pub k: usize }
    #[repr(C)]
    pub struct Entry { pub slot: u64, pub distance: u32 }";

const RATTLE: &str = "
    #[no_mangle]
    pub extern \"C\" fn pciv_a(
        file: &[u8],
        entries: &[Entry],
        n: usize,
        by: i32,
        summary: &mut [usize; 5],
    ) -> usize
        ensures told { λ r. ⌜ r ≡ 0 ⌝ }
    { inner(file) }
    fn inner(file: &[u8]) -> usize { 0 }
    #[no_mangle]
    pub extern \"C\" fn pciv_b(out: &mut [u32], figure: &mut f64) -> usize { 0 }
    #[no_mangle]
    pub extern \"C\" fn pciv_c(out: &mut [u32], figure: &mut f64) -> usize { 0 }
    #[no_mangle]
    pub extern \"C\" fn pciv_d(frames: &[&[u8]; 8], count: usize, row: &mut [u32; 8]) -> usize { 0 }
    #[no_mangle]
    pub extern \"C\" fn pciv_e(filled: &mut [u32; 256], table: &[u32; 256]) -> usize { 0 }";

const C: &str = "
    typedef struct { uint64_t slot; uint32_t distance; /* in cm */ } pciv_entry;
    typedef struct { uint64_t a; uint64_t b; uint64_t c; uint64_t d; uint64_t e; } pciv_summary;
    uint64_t pciv_a(const uint8_t *file, size_t file_len, const pciv_entry *entries,
                    size_t entries_len, size_t n, int32_t by, pciv_summary *summary);
    uint64_t pciv_b(uint32_t *out, size_t out_len, double *figure);
    uint64_t pciv_c(uint32_t *out, size_t out_len, double *figure);
    typedef struct { const uint8_t *bytes; size_t len; } pciv_part;
    uint64_t pciv_d(const pciv_part frames[8], size_t count, uint32_t row[8]);
    uint64_t pciv_e(uint32_t filled[256], const uint32_t table[256]);";

const RUST: &str = "
    #[repr(C)]
    #[derive(Clone)]
    pub struct Summary { pub a: u64, pub b: u64, pub rest: Rest }
    #[repr(C)]
    pub struct Rest { pub c: u64, pub d: u64, pub e: u64 }
    #[repr(C)]
    pub struct Entry { /** The slot. */ pub slot: u64, pub distance: u32 }
    extern \"C\" {
        pub fn pciv_a(file: *const u8, file_len: usize, entries: *const Entry, entries_len: usize,
                      n: u64, by: i32, summary: *mut Summary) -> u64;
        pub fn pciv_d(frames: *const [Part; 8], count: usize, row: *mut [u32; 8]) -> u64;
        pub fn pciv_e(filled: *mut [u32; 256], table: *const [u32; 256]) -> u64;
    }
    #[repr(C)]
    pub struct Part { pub bytes: *const u8, pub len: usize }
    macro_rules! calls {
        ($($name:ident)*) => {
            extern \"C\" {
                $(pub fn $name(out: *mut u32, out_len: usize, figure: *mut f64) -> u64;)*
            }
        };
    }
    calls!(pciv_b pciv_c);
    pub fn b(out: &mut [u32], figure: &mut f64) -> u64 { unsafe { c::pciv_b(out, figure) } }
    pub fn d(frames: &[&[u8]]) -> Option<[u32; 8]> { unsafe { c::pciv_d(frames) } }";

fn rattle(text: &str, format: &str) -> Functions {
    read_rattle(text, format).unwrap().0
}

fn rust(text: &str) -> Functions {
    read_rust(text).unwrap().0
}

#[test]
fn the_three_languages_agree() {
    let c = header(C).functions;
    assert_eq!(c.len(), 5);
    let rattle = rattle(RATTLE, RATTLE_FORMAT);
    assert_eq!(compare_functions(("c", &c), ("rattle", &rattle)), [""; 0]);
    assert_eq!(compare_functions(("c", &c), ("rust", &rust(RUST))), [""; 0]);
}

#[test]
fn changes_in_rattle_are_told() {
    let c = header(C).functions;
    let changes = [
        ("file: &[u8]", "file: &mut [u8]"),
        ("file: &[u8]", "file: &[u32]"),
        ("n: usize", "n: u32"),
        ("by: i32", "by: i64"),
        ("&mut [usize; 5]", "&mut [usize; 3]"),
        ("&mut [usize; 5]", "&mut usize"),
        ("entries: &[Entry]", "entries: &[u64]"),
        ("frames: &[&[u8]; 8]", "frames: &mut [&[u8]; 8]"),
        ("frames: &[&[u8]; 8]", "frames: &[&[u8]; 7]"),
        ("frames: &[&[u8]; 8]", "frames: &[u8; 8]"),
        ("frames: &[&[u8]; 8]", "frames: &[u64; 16]"),
        ("row: &mut [u32; 8]", "row: &[u32; 8]"),
        ("row: &mut [u32; 8]", "row: &mut [u32; 9]"),
        ("filled: &mut [u32; 256]", "filled: &[u32; 256]"),
        ("table: &[u32; 256]", "table: &mut [u32; 256]"),
        ("table: &[u32; 256]", "table: &[u32; 255]"),
        ("table: &[u32; 256]", "table: &[u64; 128]"),
        ("table: &[u32; 256]", "table: &[u32]"),
    ];
    for (old, new) in changes {
        let changed = rattle(&RATTLE.replacen(old, new, 1), RATTLE_FORMAT);
        let faults = compare_functions(("c", &c), ("rattle", &changed));
        assert_eq!(faults.len(), 1, "{new}: {faults:?}");
    }
    let exported = RATTLE.replacen("pub extern \"C\" fn pciv_b", "pub fn pciv_b", 1);
    let faults = compare_functions(("c", &c), ("rattle", &rattle(&exported, RATTLE_FORMAT)));
    assert_eq!(faults, ["pciv_b: in c, not in rattle"]);
    let loose = RATTLE_FORMAT.replace("#[repr(C)]", "");
    assert!(read_rattle(RATTLE, &loose).is_err());
    for other in ["&[&mut [u8]; 8]", "&[&[u32]; 8]", "&[&u8; 8]", "&[&[u8]]"] {
        let changed = RATTLE.replace("&[&[u8]; 8]", other);
        assert!(read_rattle(&changed, RATTLE_FORMAT).is_err(), "{other}");
    }
}

#[test]
fn changes_in_rust_are_told() {
    let c = header(C).functions;
    let faults = |old, new| {
        let changed = rust(&RUST.replace(old, new));
        compare_functions(("c", &c), ("rust", &changed))
    };
    assert_eq!(faults("file: *const u8", "file: *mut u8").len(), 1);
    assert_eq!(
        faults("summary: *mut Summary", "summary: *mut Rest").len(),
        1
    );
    assert_eq!(faults("pub distance: u32", "pub distance: u64").len(), 1);
    assert_eq!(faults("figure: *mut f64", "figure: *mut u64").len(), 2);
    assert_eq!(faults("*const [Part; 8]", "*mut [Part; 8]").len(), 1);
    assert_eq!(faults("*const [Part; 8]", "*const [Part; 7]").len(), 1);
    assert_eq!(faults("*const [Part; 8]", "*const Part").len(), 1);
    assert_eq!(faults("pub len: usize", "pub len: u32").len(), 1);
    assert_eq!(faults("*mut [u32; 8]", "*mut u32").len(), 1);
    assert_eq!(faults("*mut [u32; 256]", "*const [u32; 256]").len(), 1);
    assert_eq!(faults("*const [u32; 256]", "*mut [u32; 256]").len(), 1);
    assert_eq!(faults("*const [u32; 256]", "*const [u32; 255]").len(), 1);
    assert_eq!(faults("*const [u32; 256]", "*const u32").len(), 1);
    assert_eq!(
        faults("pciv_b pciv_c", "pciv_b"),
        ["pciv_c: in c, not in rust"]
    );
    assert!(read_rust(&RUST.replacen("#[repr(C)]", "", 1)).is_err());
    for other in ["*mut u8", "*const u32"] {
        let changed = RUST.replace("bytes: *const u8", &format!("bytes: {other}"));
        assert!(read_rust(&changed).is_err(), "{other}");
    }
}
