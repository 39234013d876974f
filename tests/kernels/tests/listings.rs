//! Loops are found where they are, and only there. The listings are small ones, written by hand as
//! `objdump -dr` prints them.

use kernels::{check, Kernel, Routine, ROUTINES};

const COUNT: Kernel = Kernel::new("count", "pcmpeqb psubb|paddb load16 !byte");
const COPY: Kernel = Kernel::new("copy", "load16 store16");
const ROWS: Kernel = Kernel::new("rows", "store8 !byte");

/// A loop that counts 16 bytes at once.
const PACKED: &str = "
  10:\tmovdqu (%rdi,%rax,1),%xmm1
  15:\tpcmpeqb %xmm0,%xmm1
  19:\tpsubb  %xmm1,%xmm2
  1d:\tadd    $0x10,%rax
  21:\tcmp    %rax,%rsi
  24:\tjne    10 <SELF+0x10>
  26:\tret";

/// The same byte by byte.
const SCALAR: &str = "
  10:\tmovzbl (%rdi,%rax,1),%ecx
  14:\tcmp    %dl,%cl
  16:\tsete   %cl
  19:\tadd    %cl,%r8b
  1c:\tinc    %rax
  1f:\tcmp    %rax,%rsi
  22:\tjne    10 <SELF+0x10>
  24:\tret";

/// The packed instructions with no jump back to them.
const STRAIGHT: &str = "
  10:\tmovdqu (%rdi,%rax,1),%xmm1
  15:\tpcmpeqb %xmm0,%xmm1
  19:\tpsubb  %xmm1,%xmm2
  1d:\tinc    %rax
  20:\tcmp    %rax,%rsi
  23:\tjne    1d <SELF+0x1d>
  25:\tret";

const RETURN: &str = "
  10:\tret";

/// A function with a section of its own.
fn function(name: &str, code: &str) -> String {
    let code = format!("\n   0:\txor    %eax,%eax{code}").replace("SELF", name);
    format!("\nDisassembly of section .text.{name}:\n\n0000000000000000 <{name}>:{code}\n")
}

/// A call or a jump to a function of another section.
fn leading_to(mnemonic: &str, to: &str) -> String {
    format!("\n   2:\t{mnemonic}   7 <SELF+0x7>\n\t\t\t3: R_X86_64_PLT32\t{to}-0x4\n   7:\tret")
}

fn faults(text: &str, routines: &[Routine]) -> Vec<String> {
    check(text, routines).err().unwrap_or_default()
}

/// The one fault of a listing, whose routine `pciv_a` has to count.
fn fault(text: &str) -> String {
    let faults = faults(text, &[("pciv_a", &[COUNT])]);
    assert_eq!(faults.len(), 1, "{faults:?}");
    faults[0].clone()
}

fn counts(text: &str) -> bool {
    check(text, &[("pciv_a", &[COUNT])]) == Ok(1)
}

#[test]
fn a_packed_loop_is_found() {
    assert!(counts(&function("pciv_a", PACKED)));
    assert!(counts(
        &function("pciv_a", PACKED).replace("psubb", "paddb")
    ));
}

#[test]
fn a_scalar_loop_is_refused() {
    let told = fault(&function("pciv_a", SCALAR));
    let words = "pciv_a: count: 0 of 1 loops with pcmpeqb psubb|paddb load16 !byte, ";
    assert!(told.starts_with(words), "{told}");
    assert!(
        told.ends_with("fails at pcmpeqb psubb|paddb load16 !byte"),
        "{told}"
    );
}

#[test]
fn each_word_is_needed() {
    for (packed, other, word) in [
        ("pcmpeqb", "pcmpgtb", "pcmpeqb"),
        ("psubb", "psubw", "psubb|paddb"),
        ("movdqu", "movd", "load16"),
        ("(%rdi,%rax,1),", "0x20(%rsp),", "load16"),
        ("(%rdi,%rax,1),", "0x0(%rip),", "load16"),
        ("cmp    %rax,%rsi", "movzbl (%rdi),%ecx", "!byte"),
    ] {
        let told = fault(&function("pciv_a", &PACKED.replace(packed, other)));
        assert!(told.ends_with(&format!("fails at {word}")), "{told}");
    }
    let extended = PACKED.replace("cmp    %rax,%rsi", "movzbl %cl,%ecx");
    assert!(counts(&function("pciv_a", &extended)));
}

#[test]
fn packed_instructions_outside_of_a_loop_are_refused() {
    fault(&function("pciv_a", STRAIGHT));
    let no_loop = STRAIGHT.replace("jne    1d", "jne    25");
    let told = fault(&function("pciv_a", &no_loop));
    assert!(told.ends_with("there are no others"), "{told}");
}

#[test]
fn a_loop_in_a_callee_is_found() {
    for mnemonic in ["call", "jmp"] {
        for to in [".text.x::inner", "x::inner"] {
            let outer = function("pciv_a", &leading_to(mnemonic, to));
            let inner = function("x::inner", PACKED);
            assert!(counts(&(outer + &inner)), "{mnemonic} {to}");
        }
    }
}

#[test]
fn a_loop_in_the_callee_of_a_callee_is_found() {
    let outer = function("pciv_a", &leading_to("call", ".text.x::middle"));
    let middle = function("x::middle", &leading_to("jmp", ".text.x::inner"));
    assert!(counts(&(outer + &middle + &function("x::inner", PACKED))));
}

#[test]
fn a_callee_in_the_same_section_is_found() {
    let text = "
Disassembly of section .text:

0000000000000000 <inner>:
   0:\tmovups (%rdi,%rax,1),%xmm1
   4:\tpcmpeqb %xmm0,%xmm1
   8:\tpaddb  %xmm1,%xmm2
   c:\tadd    $0x10,%rax
  10:\tjne    0 <inner>
  12:\tret

0000000000000020 <scalar>:
  20:\tret

0000000000000030 <pciv_a>:
  30:\tcall   0 <inner>
  35:\tret
";
    assert!(counts(text));
    fault(&text.replace("call   0 <inner>", "call   20 <scalar>"));
    let relocated = "call   35 <pciv_a+0x5>\n\t\t\t31: R_X86_64_PC32\t.text-0x4";
    assert!(counts(&text.replace("call   0 <inner>", relocated)));
    let relocated = relocated.replace("-0x4", "+0x1c");
    fault(&text.replace("call   0 <inner>", &relocated));
}

#[test]
fn a_loop_in_an_unrelated_function_does_not_count() {
    let routine = function("pciv_a", SCALAR);
    fault(&(routine.clone() + &function("x::other", PACKED)));
    fault(&(function("x::other", PACKED) + &routine));
}

/// The compiler puts a part of a loop behind its last jump, or starts a loop in its middle.
#[test]
fn a_loop_is_found_wherever_its_parts_stand() {
    let parts = "
  10:\tjmp    20 <SELF+0x20>
  12:\tpsubb  %xmm1,%xmm2
  16:\tadd    $0x10,%rax
  1a:\tcmp    %rax,%rsi
  1d:\tje     40 <SELF+0x40>
  20:\tmovdqu (%rdi,%rax,1),%xmm1
  25:\ttest   %cl,%cl
  27:\tjne    50 <SELF+0x50>
  30:\tjmp    12 <SELF+0x12>
  40:\tret
  50:\tpcmpeqb %xmm0,%xmm1
  54:\tjmp    12 <SELF+0x12>";
    assert!(counts(&function("pciv_a", parts)));
    fault(&function(
        "pciv_a",
        &parts.replace("54:\tjmp    12", "54:\tjmp    40"),
    ));
}

/// A scalar loop is no better for packed instructions around it, nor a packed one worse for scalar
/// instructions around it.
#[test]
fn the_loops_inside_of_a_loop_count_for_themselves() {
    let around = |outer: &str, inner: &str| {
        function(
            "pciv_a",
            &format!(
                "
   2:\t{outer}
   6:\txor    %ecx,%ecx
   8:\t{inner}
   c:\tpcmpeqb %xmm0,%xmm1
  10:\tpsubb  %xmm1,%xmm2
  14:\tinc    %rcx
  17:\tjne    8 <SELF+0x8>
  19:\tdec    %rdx
  1c:\tjne    2 <SELF+0x2>
  1e:\tret"
            ),
        )
    };
    let (packed, scalar) = ("movdqu (%rdi,%rcx,1),%xmm1", "movzbl (%rdi),%r8d");
    assert!(counts(&around(scalar, packed)));
    fault(&around(packed, scalar));
}

#[test]
fn loops_that_the_check_shares_are_not_own() {
    const OWN: Kernel = Kernel::new("count", "own pcmpeqb");
    let routines: &[Routine] = &[("pciv_check", &[COUNT]), ("pciv_a", &[OWN])];
    let check = function("pciv_check", &leading_to("jmp", ".text.x::inner"));
    let caller = function("pciv_a", &leading_to("call", ".text.pciv_check"));
    let shared = check + &function("x::inner", PACKED);
    let told = faults(&(shared.clone() + &caller), routines);
    assert_eq!(
        told,
        ["pciv_a: count: 0 of 1 loops with own pcmpeqb, the next one fails at own"]
    );
    assert!(faults(&(shared + &function("pciv_a", PACKED)), routines).is_empty());
}

#[test]
fn blocks_and_what_is_left_are_two_loops() {
    const BLOCKS: Kernel = Kernel::blocks("count", "pcmpeqb");
    let routines: &[Routine] = &[("pciv_a", &[BLOCKS])];
    let jump = "jmp    2b <SELF+0x2b>\n\t\t\t27: R_X86_64_PLT32\tx::rest-0x4";
    let blocks = PACKED.replace("ret", jump);
    let two = function("pciv_a", &blocks) + &function("x::rest", PACKED);
    assert_eq!(check(&two, routines), Ok(2));
    let told = faults(&function("pciv_a", PACKED), routines);
    assert_eq!(
        told,
        ["pciv_a: count: 1 of 2 loops with pcmpeqb, there are no others"]
    );
}

#[test]
fn a_block_that_is_unrolled_byte_by_byte_is_refused() {
    let load = |at| format!("\n  {:x}:\tmovzbl {at}(%rdi),%ecx", 0x10 + 4 * at);
    let loads: String = (0..17).map(load).collect();
    let unrolled = loads + "\n  80:\tjne    10 <SELF+0x10>\n  82:\tret";
    let routines: &[Routine] = &[("pciv_a", &[])];
    let told = faults(&function("pciv_a", &unrolled), routines);
    assert_eq!(told, ["pciv_a: a loop loads 17 bytes one by one"]);
    assert!(faults(&function("pciv_a", SCALAR), routines).is_empty());
}

#[test]
fn a_call_that_copies_is_a_copy() {
    let routines: &[Routine] = &[("pciv_a", &[COPY])];
    for (name, copies) in [("memcpy", true), ("memmove", true), ("memset", false)] {
        let caller = function("pciv_a", &leading_to("call", name));
        assert_eq!(check(&caller, routines).is_ok(), copies, "{name}");
    }
    let stores = PACKED.replace("psubb  %xmm1,%xmm2", "movups %xmm1,0x10(%rdx)");
    assert!(check(&function("pciv_a", &stores), routines).is_ok());
    assert!(check(&function("pciv_a", PACKED), routines).is_err());
}

#[test]
fn eight_bytes_are_stored_from_any_register() {
    let routines: &[Routine] = &[("pciv_a", &[ROWS])];
    let stores = |text| {
        check(
            &function("pciv_a", &PACKED.replace("psubb  %xmm1,%xmm2", text)),
            routines,
        )
    };
    for stored in [
        "mov    %rcx,(%rdx)",
        "mov    %r10,(%rdx)",
        "movq   %xmm1,(%rdx)",
    ] {
        assert!(stores(stored).is_ok(), "{stored}");
    }
    for stored in [
        "mov    %ecx,(%rdx)",
        "mov    %r10d,(%rdx)",
        "mov    %rcx,(%rsp)",
    ] {
        assert!(stores(stored).is_err(), "{stored}");
    }
}

/// Eight bytes are loaded at once where they are widened too, four are not enough.
#[test]
fn eight_bytes_are_loaded_where_they_are_widened() {
    const SUM: Kernel = Kernel::new("sum", "paddw load8 !byte");
    let loop_of = |load: &str| {
        format!(
            "
  10:\t{load} (%rdi,%rax,1),%xmm1
  15:\tpaddw  %xmm1,%xmm2
  19:\tadd    $0x8,%rax
  1d:\tcmp    %rax,%rsi
  20:\tjne    10 <SELF+0x10>
  22:\tret"
        )
    };
    let text = |load| function("pciv_check", RETURN) + &function("pciv_a", &loop_of(load));
    let routines: [Routine; 2] = [("pciv_check", &[]), ("pciv_a", &[SUM])];
    assert_eq!(faults(&text("pmovzxbw"), &routines), [""; 0]);
    assert_eq!(faults(&text("pmovzxbd"), &routines).len(), 1);
}

/// The bits of 64 are counted at once, those of 32 are half a word.
#[test]
fn a_count_of_bits_takes_whole_words() {
    const BITS: Kernel = Kernel::new("bits", "popcnt");
    let loop_of = |from: &str, to: &str| {
        format!(
            "
  10:\tpopcnt ({from},%rax,8),{to}
  16:\tadd    %rcx,%r8
  19:\tinc    %rax
  1c:\tcmp    %rax,%rsi
  1f:\tjne    10 <SELF+0x10>
  21:\tret"
        )
    };
    let text = |to| function("pciv_check", RETURN) + &function("pciv_a", &loop_of("%rdi", to));
    let routines: [Routine; 2] = [("pciv_check", &[]), ("pciv_a", &[BITS])];
    assert_eq!(faults(&text("%rcx"), &routines), [""; 0]);
    assert_eq!(faults(&text("%ecx"), &routines).len(), 1);
}

#[test]
fn every_routine_has_a_rule_and_every_rule_a_routine() {
    let text = function("pciv_a", PACKED) + &function("pciv_b", RETURN);
    let told = faults(&text, &[("pciv_a", &[COUNT])]);
    assert_eq!(told, ["pciv_b: no rule says which loops it has to have"]);
    let told = faults(
        &text,
        &[("pciv_a", &[COUNT]), ("pciv_b", &[]), ("pciv_c", &[])],
    );
    assert_eq!(told, ["pciv_c: not in the archive"]);
    let told = faults("", ROUTINES);
    assert_eq!(told.len(), ROUTINES.len());
}
