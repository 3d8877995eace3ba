//! Icarus Verilog runs the test benches.

use crate::tools::{nets, put, run, spoiled, Tally};
use reference::generate::Generator;
use sitgurp::Net;

/// Returns what the test bench of a source says.
fn said(source: &str, standard: &str) -> String {
    put("net.v", source);
    let (good, said) = run("iverilog", &["-Wall", standard, "-o", "net.vvp", "net.v"]);
    // it warns of the missing time scale of all modules
    if !good || said.lines().any(|line| !line.contains("timescale")) {
        return format!("iverilog: {said}");
    }
    run("vvp", &["net.vvp"]).1
}

pub fn benches() -> Tally {
    let mut tally = Tally::default();
    let mut generator = Generator::new(4);
    let good = nets(&mut generator, &[2, 3, 4, 5, 6, 7, 8, 9], 3);
    for standard in ["-g2005", "-g2012"] {
        let mut all = 0;
        for net in &good {
            let said = said(&formats::verilog(net, "tree"), standard);
            let is_good = said.starts_with(&format!("ok: all {} rows\n", net.table().inks().len()));
            if !is_good {
                println!("{said}");
            }
            all += usize::from(is_good);
        }
        tally.line(
            &format!("nets of every size whose test bench finds every row ({standard})"),
            all,
            good.len(),
        );
    }
    let mut found = 0;
    let mut wrong = 0;
    for net in &good {
        let Some(other) = spoiled(net, &mut generator) else {
            continue;
        };
        // the module of one net, and the test bench of another
        let (own, bench) = (
            formats::verilog(&other, "tree"),
            formats::verilog(net, "tree"),
        );
        let own = own.split("`ifndef").next().expect("a module").to_string();
        let bench = bench.split_once("`ifndef").expect("a test bench").1;
        wrong += 1;
        found +=
            usize::from(said(&format!("{own}`ifndef{bench}"), "-g2005").contains("\nfailed: "));
    }
    tally.line(
        "modules with a wrong digit that the test bench finds",
        found,
        wrong,
    );
    let names = words();
    let nets: Vec<Net> = names
        .chunks(12)
        .filter(|names| names.len() > 1)
        .map(chain)
        .collect();
    let good = nets
        .iter()
        .filter(|net| said(&formats::verilog(net, "tree"), "-g2012").starts_with("ok"))
        .count();
    tally.line(
        "nets whose inputs have words of Verilog as names",
        good,
        nets.len(),
    );
    tally
}

/// Words of the language that a sheet takes as names.
fn words() -> Vec<&'static str> {
    "always and assert assign assume before begin bind bins bit break buf bufif0 byte case casex casez cell class cmos config const context continue cover
    cross default defparam design disable dist do edge else end endcase enum event expect export extends extern final for force foreach forever fork
    function genvar global highz0 if iff ifnone implies import incdir include initial inout input inside instance int integer join large let liblist
    library local logic longint matches medium modport module nand negedge nettype new nexttime nmos nor not notif0 null or output package packed pmos
    posedge priority program property pull0 pulldown pullup pure rand randc randcase rcmos real realtime ref reg release repeat restrict return rnmos
    rtran sequence shortint signed small soft solve specify static string strong strong0 struct super supply0 table tagged task this time tran tranif0
    tri tri0 tri1 triand trior trireg type typedef union unique unique0 unsigned until untyped use uwire var vectored virtual void wait wand weak weak0
    while wildcard wire with within wor xnor xor"
        .split_whitespace()
        .filter(|word| word.len() <= 8)
        .collect()
}

/// Returns a chain over these inputs.
fn chain(names: &[&str]) -> Net {
    let mut sheet = format!(
        "levels inputs\n2 {}\n{}\nleft right table\n{} {} 0110\n",
        names.len(),
        names.join(" "),
        names[0],
        names[1]
    );
    for (k, name) in names.iter().enumerate().skip(2) {
        sheet += &format!("{} {name} {}\n", k - 1, ["0111", "0110", "0001"][k % 3]);
    }
    sheet.parse().expect("a net")
}
