//! Compiles and links the benchmark's baselines in C. The static library comes with the bindings.
use std::process::Command;

/// The function's name and the options of each baseline. No option lets a product and a sum round once together.
const BASELINES: [(&str, &[&str]); 3] = [("baseline_o2", &["-O2"]), ("baseline_o3", &["-O3"]), ("baseline_rows", &["-O3", "-DROWS"])];

fn run(command: &mut Command) {
    let status = command.status().unwrap_or_else(|e| panic!("{command:?}: {e}"));
    assert!(status.success(), "{command:?}: {status}");
}

fn baselines(folder: &str) {
    let mut archive = Command::new("ar");
    archive.arg("rcs").arg(format!("{folder}/libbaselines.a"));
    for (name, options) in BASELINES {
        let object = format!("{folder}/{name}.o");
        run(Command::new("cc")
            .args(["-std=c11", "-Wall", "-Wextra", "-Werror", "-ffp-contract=off", "-c", "src/baseline.c"])
            .args(options)
            .args([&format!("-DRUN={name}"), "-o", &object]));
        archive.arg(object);
    }
    run(&mut archive);
    println!("cargo:rustc-link-search=native={folder}");
    println!("cargo:rustc-link-lib=static=baselines");
    println!("cargo:rerun-if-changed=src/baseline.c");
}

fn main() {
    baselines(&std::env::var("OUT_DIR").expect("cargo sets OUT_DIR"));
}
