//! Writes hosts/c/hazhendu_refusals.h, so that C has the texts of the crate: `cargo run --example refusals_header >c/hazhendu_refusals.h` in hosts/.

use hazhendu::Refusal;

fn main() {
    print!("{}", header());
}

pub fn header() -> String {
    let texts = [
        ("text", "What is wrong", "accepted", (|refusal| refusal.wrong()) as fn(&Refusal) -> &str),
        ("value", "What the double is that comes with it; empty where it tells nothing", "", |refusal| refusal.value_is().unwrap_or("")),
        ("change", "What to change", "", |refusal| refusal.change()),
    ];
    let functions: String = texts.iter().map(|(name, doc, accepted, text)| function(name, doc, accepted, *text)).collect();
    format!(
        "/* The refusals in words, written by hosts/rust/examples/refusals_header.rs: hazhendu.h includes it. */\n#ifndef HAZHENDU_REFUSALS_H\n\
         #define HAZHENDU_REFUSALS_H\n\n#include <stdint.h>\n{functions}\n#endif\n"
    )
}

fn function(name: &str, doc: &str, accepted: &str, text: fn(&Refusal) -> &str) -> String {
    let case = |number: u32| {
        let refusal = Refusal { number, value: f64::NAN };
        refusal.is_known().then(|| format!("    case {number}:\n        return \"{}\";\n", text(&refusal)))
    };
    let cases: String = (1..64).filter_map(case).collect();
    let unknown = text(&Refusal { number: 0, value: f64::NAN });
    format!(
        "\n/* {doc}. */\nstatic inline const char *hazhendu_refusal_{name}(uint32_t number)\n{{\n    switch (number) {{\n    case 0:\n        \
         return \"{accepted}\";\n{cases}    default:\n        return \"{unknown}\";\n    }}\n}}\n"
    )
}
