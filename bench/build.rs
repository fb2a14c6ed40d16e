// Makes three modules of the original's text. `original` is the text as it stands: its `use` lines are gone, the symbolic half
// of arc_math.rs is cut off, and private functions are public, so that they can be called. `oracle` has, besides, the calls
// of sine, cosine, arctangent and arccosine sent to the proved routines, and `min`, `max` and `clamp` to 01's rules, since
// the standard library's answer for two zeros differs by machine. `rooted` has the calls of the root alone sent to the proved one, to time it.
use std::{env, fs, path::Path};

const ROUTED: [&str; 8] = [".sin_cos()", ".sin()", ".cos()", ".atan2(", ".acos()", ".min(", ".max(", ".clamp("];

fn text(file: &str) -> String {
    let path = Path::new(env!("CARGO_MANIFEST_DIR")).join("original").join(file);
    println!("cargo:rerun-if-changed={}", path.display());
    let all = fs::read_to_string(&path).unwrap();
    let numeric = all.split("/// x of the ellipse point -- symbolic twin").next().unwrap();
    numeric
        .lines()
        .filter(|line| !line.starts_with("use ") && !line.starts_with("//!"))
        .map(|line| line.replace("arael_sketch_solver::", ""))
        .map(|line| if line.starts_with("fn ") { format!("pub {line}\n") } else { format!("{line}\n") })
        .collect()
}

fn main() {
    let files = ["standins.rs", "arc_math.rs", "geometry.rs", "earc_fit.rs"];
    let original: String = files.iter().map(|f| text(f)).collect();
    let oracle = ROUTED.iter().fold(original.clone(), |text, call| text.replace(call, &format!(".routed_{}", &call[1..])));
    let rooted = original.replace(".sqrt()", ".routed_sqrt()");
    let out = env::var("OUT_DIR").unwrap();
    fs::write(Path::new(&out).join("rooted.rs"), format!("use crate::Rooted;\n{rooted}")).unwrap();
    fs::write(Path::new(&out).join("original.rs"), original).unwrap();
    fs::write(Path::new(&out).join("oracle.rs"), format!("use crate::Routed;\n{oracle}")).unwrap();
}
