//! Links the archives of both engines after a pad that places their code. `run` sets the variables.

use std::env;
use std::path::Path;

fn main() {
    let bench = env::var("CARGO_MANIFEST_DIR").expect("cargo names the package's folder");
    // The pad is named as needed, or the linker would leave it out.
    println!("cargo:rustc-link-arg=-Wl,-u,placement");
    for variable in ["PLACEMENT_OBJECT", "PEERIEWICK_ARCHIVE", "PLAIN_ARCHIVE"] {
        println!("cargo:rerun-if-env-changed={}", variable);
        let file = env::var(variable).unwrap_or_else(|_| panic!("{} is not set: build with bench/run", variable));
        let path = Path::new(&bench).join(file);
        println!("cargo:rerun-if-changed={}", path.display());
        println!("cargo:rustc-link-arg={}", path.display());
    }
}
