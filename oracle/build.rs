//! Takes calamine's `style.rs` and `attrs.rs` from the folder that CALAMINE_SRC names, for this build
//! only. The lines that document the modules are left out, since an included file may have none.
use std::{env, fs, path::Path};

fn main() {
    println!("cargo:rerun-if-env-changed=CALAMINE_SRC");
    let folder = env::var("CALAMINE_SRC").expect("CALAMINE_SRC names the folder with style.rs and attrs.rs");
    for name in ["style.rs", "attrs.rs"] {
        let source = Path::new(&folder).join(name);
        println!("cargo:rerun-if-changed={}", source.display());
        let text = fs::read_to_string(source).unwrap_or_else(|error| panic!("{name} can be read: {error}"));
        let kept: Vec<&str> = text.lines().filter(|line| !line.starts_with("//!")).collect();
        let out = Path::new(&env::var("OUT_DIR").unwrap()).join(name);
        fs::write(out, kept.join("\n")).unwrap();
    }
}
