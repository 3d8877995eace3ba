//! Names of the file, and names that a sheet can have.

/// The most bytes of a name.
const MOST: usize = 8;
/// The most digits that a long name keeps at its end.
const MOST_DIGITS: usize = 4;

/// Returns whether a sheet can have an input of this name.
fn is_valid(name: &str) -> bool {
    let is_part = |byte: u8| byte.is_ascii_lowercase() || byte.is_ascii_digit();
    name.len() <= MOST
        && name.bytes().all(is_part)
        && name.starts_with(|first: char| first.is_ascii_lowercase())
        && name != "ink"
}

/// Returns a name for each input that a sheet can have: the same one if it can have it, and otherwise a short one without capitals and signs. No two are the
/// same. A number at the end of a long name stays.
///
/// ```
/// assert_eq!(formats::valid_names(&["a", "Data[3]", "ink", "decoder_out_12"]), ["a", "data3", "xink", "decode12"]);
/// assert_eq!(formats::valid_names(&["X", "x", "x_"]), ["x2", "x", "x3"]);
/// ```
pub fn valid_names<N: AsRef<str>>(names: &[N]) -> Vec<String> {
    let kept = |name: &&str| is_valid(name);
    let mut taken: Vec<String> = names
        .iter()
        .map(AsRef::as_ref)
        .filter(kept)
        .map(String::from)
        .collect();
    let mut valid = Vec::new();
    for name in names.iter().map(AsRef::as_ref) {
        if is_valid(name) && !valid.contains(&name.to_string()) {
            valid.push(name.to_string());
            continue;
        }
        let name = free(&shortened(name), &taken);
        taken.push(name.clone());
        valid.push(name);
    }
    valid
}

/// Returns a valid name that has the letters and digits of another one, as many as fit.
fn shortened(name: &str) -> String {
    let is_part = |letter: &char| letter.is_ascii_alphanumeric();
    let mut name: String = name.chars().filter(is_part).collect();
    name.make_ascii_lowercase();
    if !name.starts_with(|first: char| first.is_ascii_lowercase()) || name == "ink" {
        name.insert(0, 'x');
    }
    let digits = name.bytes().rev().take_while(u8::is_ascii_digit).count();
    let digits = name.split_off(name.len() - digits.min(MOST_DIGITS));
    name.truncate(MOST - digits.len());
    name + &digits
}

/// Returns the name, or one that begins alike and is not taken.
fn free(name: &str, taken: &[String]) -> String {
    let is_free = |name: &String| !taken.contains(name);
    let others = (2..).map(|number: usize| {
        let number = number.to_string();
        let front = &name[..name.len().min(MOST - number.len())];
        format!("{front}{number}")
    });
    let mut names = std::iter::once(name.to_string()).chain(others);
    names.find(is_free).expect("one of so many names is free")
}

/// Returns whether a name can be that of a model, a module and a function: letters, digits and `_`, no digit first, and no word of C or Verilog.
pub fn is_identifier(name: &str) -> bool {
    let is_part = |byte: u8| byte.is_ascii_alphanumeric() || byte == b'_';
    name.len() <= 64
        && name.bytes().all(is_part)
        && name.starts_with(|first: char| first.is_ascii_alphabetic())
        && !is_verilog_word(name)
        && !is_c_word(name)
}

/// Returns a name for Verilog: a word of the language gets `_` behind it, which no sheet has in a name.
pub fn verilog_name(name: &str) -> String {
    behind(name, is_verilog_word(name))
}

/// Returns a name for C, in the same way.
pub fn c_name(name: &str) -> String {
    behind(name, is_c_word(name))
}

fn behind(name: &str, is_word: bool) -> String {
    format!("{name}{}", if is_word { "_" } else { "" })
}

fn is_verilog_word(name: &str) -> bool {
    VERILOG.split_whitespace().any(|word| word == name)
}

fn is_c_word(name: &str) -> bool {
    C.split_whitespace().any(|word| word == name)
}

/// The words of Verilog (IEEE 1364-2005) and SystemVerilog (IEEE 1800-2017).
const VERILOG: &str = "\
accept_on alias always always_comb always_ff always_latch and assert assign assume automatic before begin bind bins binsof bit break buf bufif0 bufif1 byte
case casex casez cell chandle checker class clocking cmos config const constraint context continue cover covergroup coverpoint cross deassign default
defparam design disable dist do edge else end endcase endchecker endclass endclocking endconfig endfunction endgenerate endgroup endinterface endmodule
endpackage endprimitive endprogram endproperty endsequence endspecify endtable endtask enum event eventually expect export extends extern final first_match
for force foreach forever fork forkjoin function generate genvar global highz0 highz1 if iff ifnone ignore_bins illegal_bins implements implies import incdir
include initial inout input inside instance int integer interconnect interface intersect join join_any join_none large let liblist library local localparam
logic longint macromodule matches medium modport module nand negedge nettype new nexttime nmos nor noshowcancelled not notif0 notif1 null or output package
packed parameter pmos posedge primitive priority program property protected pull0 pull1 pulldown pullup pulsestyle_ondetect pulsestyle_onevent pure rand
randc randcase randsequence rcmos real realtime ref reg reject_on release repeat restrict return rnmos rpmos rtran rtranif0 rtranif1 s_always s_eventually
s_nexttime s_until s_until_with scalared sequence shortint shortreal showcancelled signed small soft solve specify specparam static string strong strong0
strong1 struct super supply0 supply1 sync_accept_on sync_reject_on table tagged task this throughout time timeprecision timeunit tran tranif0 tranif1 tri
tri0 tri1 triand trior trireg type typedef union unique unique0 unsigned until until_with untyped use uwire var vectored virtual void wait wait_order wand
weak weak0 weak1 while wildcard wire with within wone wor xnor xor
";

/// The words of C (to C23) and C++ (to C++23), and names that are macros of common compilers.
const C: &str = "\
alignas alignof and and_eq asm auto bitand bitor bool break case catch char char16_t char32_t char8_t class co_await co_return co_yield compl concept const
const_cast consteval constexpr constinit continue decltype default delete do double dynamic_cast else enum explicit export extern false final float for
fortran friend goto if import inline int long module mutable namespace new noexcept not not_eq nullptr operator or or_eq override private protected public
register reinterpret_cast requires restrict return short signed sizeof static static_assert static_cast struct switch template this thread_local throw true
try typedef typeid typename typeof typeof_unqual union unsigned using virtual void volatile wchar_t while xor xor_eq
assert errno far huge i386 linux main near offsetof pascal stderr stdin stdout unix vms
";

#[cfg(test)]
mod tests {
    use super::{is_valid, valid_names};

    #[test]
    fn names_are_valid_and_differ() {
        let names = [
            "",
            "1",
            "ink",
            "ink",
            "Ink",
            "xink",
            "A",
            "a",
            "a",
            "é",
            "$abc$1234567$n13",
            "data[10]",
            "data[1]",
            "data1",
            "averyverylongname",
            "averyverylongnoun",
            "123456789",
            "x123456789",
        ];
        let valid = valid_names(&names);
        for (k, name) in valid.iter().enumerate() {
            assert!(is_valid(name), "{name}");
            assert!(!valid[..k].contains(name), "{name}");
        }
        // a valid name stays, where it is there for the first time
        for kept in ["xink", "a", "data1"] {
            let first = names.iter().position(|name| *name == kept).expect("a name");
            assert_eq!(valid[first], kept);
        }
    }
}
