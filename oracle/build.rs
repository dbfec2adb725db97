//! Finds the Rust's file, which is never copied into the repository, and
//! writes a second reading of it to OUT_DIR: the same text with the few
//! places below replaced. Each place must be found exactly as often as it is
//! known to stand there, so that another version of the file stops the build.

use std::path::{Path, PathBuf};
use std::{env, fs, process};

/// From this folder; the environment variable names another one.
const FOLDER: &str = "../../shared/docs/src";
const VARIABLE: &str = "DANGSOVIEY_RUST";
const FILE: &str = "functions/datetime.rs";

/// The new texts call src/limits.rs, where each name has its switch.
struct Replacement {
    name: &'static str,
    times: usize,
    old: &'static str,
    new: &'static str,
}

const REPLACEMENTS: &[Replacement] = &[
    // The time part of a modifier, after a date and alone.
    Replacement {
        name: "round",
        times: 2,
        old: "(tx.s * 1000.0) as i64",
        new: "(tx.s * 1000.0 + crate::limits::half()) as i64",
    },
    // strftime, right after its sum.
    Replacement {
        name: "range",
        times: 1,
        old: "    p.compute_jd();\n    if p.is_error {\n",
        new: "    p.compute_jd();\n    if p.is_error || crate::limits::outside(p.i_jd) {\n",
    },
    // timediff, right after its two sums.
    Replacement {
        name: "range",
        times: 1,
        old: "if d1.is_error || d2.is_error {",
        new: "if d1.is_error || d2.is_error \
              || crate::limits::outside(d1.i_jd) || crate::limits::outside(d2.i_jd) {",
    },
    // timediff, after its range.
    Replacement {
        name: "renew",
        times: 1,
        old: "    d1.compute_ymd_hms();\n    d2.compute_ymd_hms();\n",
        new: "    if crate::limits::renews() {\n        d1.clear_ymd_hms_tz();\n        \
              d2.clear_ymd_hms_tz();\n    }\n    d1.compute_ymd_hms();\n    d2.compute_ymd_hms();\n",
    },
    // A time value.
    Replacement {
        name: "decimal",
        times: 1,
        old: "numeric_value.parse::<f64>()",
        new: "crate::limits::decimal(numeric_value)",
    },
    // The same for strftime, which tries the text untrimmed first.
    Replacement {
        name: "decimal",
        times: 1,
        old: "s_str.parse::<f64>()",
        new: "crate::limits::decimal(s_str)",
    },
    Replacement {
        name: "decimal",
        times: 1,
        old: "z[8..].trim().parse::<f64>()",
        new: "crate::limits::decimal(z[8..].trim())",
    },
    // The number before a unit.
    Replacement {
        name: "decimal",
        times: 1,
        old: "val_str.parse::<f64>()",
        new: "crate::limits::decimal(val_str)",
    },
    Replacement {
        name: "early",
        times: 1,
        old: "Some('J') => {\n",
        new: "Some('J') => {\n                if crate::limits::early(p.i_jd) {\n                    \
              return Value::Null;\n                }\n",
    },
];

/// Every place that reads an f64 must have been replaced.
const NONE_LEFT: &str = "parse::<f64>";

fn main() {
    let here = env::var_os("CARGO_MANIFEST_DIR").unwrap();
    let folder = env::var_os(VARIABLE).unwrap_or(FOLDER.into());
    let file = Path::new(&here).join(folder).join(FILE);
    let text = fs::read_to_string(&file)
        .unwrap_or_else(|e| stop(format!("{} does not read: {e}", file.display())));

    let out = PathBuf::from(env::var_os("OUT_DIR").unwrap());
    fs::write(out.join("ruled.rs"), ruled(text)).unwrap();

    println!("cargo:rustc-env=RUST_DATETIME={}", file.display());
    println!("cargo:rerun-if-changed={}", file.display());
    println!("cargo:rerun-if-env-changed={VARIABLE}");
    println!("cargo:rerun-if-changed=build.rs");
}

fn ruled(mut text: String) -> String {
    for r in REPLACEMENTS {
        let found = text.matches(r.old).count();
        if found != r.times {
            stop(format!(
                "the departure `{}` expects this text {} times and finds it {found} times:\n{}",
                r.name, r.times, r.old
            ));
        }
        text = text.replace(r.old, r.new);
    }
    if text.contains(NONE_LEFT) {
        stop(format!("`{NONE_LEFT}` stands at a place that `decimal` does not know"));
    }
    text
}

fn stop(why: String) -> ! {
    eprintln!("oracle: {why}");
    process::exit(1)
}
