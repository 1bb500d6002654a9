//! Compiles what the port is timed beside and is not Rust: the peers in C where cc is at hand, and
//! the calls of OpenCV's aligner where MTB_OPENCV says that OpenCV is.

use std::env;
use std::process::{Command, Output};

fn main() {
    for name in ["c_peer", "opencv"] {
        println!("cargo::rustc-check-cfg=cfg({name})");
    }
    println!("cargo::rerun-if-env-changed=MTB_OPENCV");
    println!("cargo::rerun-if-changed=src/peer.c");
    println!("cargo::rerun-if-changed=src/opencv.cpp");
    if Command::new("cc").arg("--version").output().is_ok() {
        let warnings = ["-Wall", "-Wextra", "-Werror"];
        compiled("c_peer", "src/peer.c", Command::new("cc").args(warnings));
    }
    if env::var_os("MTB_OPENCV").is_none_or(|version| version.is_empty()) {
        return;
    }

    let mut compiler = Command::new("g++");
    compiler.arg("-std=c++17").args(flags("--cflags"));
    compiled("opencv", "src/opencv.cpp", &mut compiler);
    for flag in flags("--libs-only-L") {
        println!("cargo::rustc-link-arg-bins={flag}");
    }
    for library in ["opencv_photo", "opencv_core", "stdc++"] {
        println!("cargo::rustc-link-arg-bins=-l{library}");
    }
}

/// Compiles a source, links it and sets its name, which says that it is there.
fn compiled(name: &str, source: &str, compiler: &mut Command) {
    let folder = env::var("OUT_DIR").expect("cargo sets it");
    let object = format!("{folder}/{name}.o");
    done(compiler.args(["-O2", "-c", source, "-o", &object]));
    println!("cargo::rustc-link-arg-bins={object}");
    println!("cargo::rustc-cfg={name}");
}

fn flags(kind: &str) -> Vec<String> {
    let said = done(Command::new("pkg-config").args([kind, "opencv4"])).stdout;
    let said = String::from_utf8(said).expect("flags are text");
    said.split_whitespace().map(str::to_owned).collect()
}

fn done(command: &mut Command) -> Output {
    let output = command.output().expect("the program is there");
    let said = String::from_utf8_lossy(&output.stderr);
    assert!(output.status.success(), "{command:?}: {said}");
    output
}
