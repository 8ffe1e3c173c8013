//! Makes the static library `hidreport` of the assembly in `generated/`, by a C compiler and `ar`,
//! and links it; for a processor or a system without one, and where HIDREPORT_PORTABLE is set, of
//! `generated/portable/hidreport.c`. `generated/` lies in the repository, a folder up, or in this one. Where neither
//! is, as below an installed PREFIX/share/hidreport/rust, the library of PREFIX/lib is linked.
//! HIDREPORT_LIB_DIR names a folder that has libhidreport.a; CC and AR name the tools.
use std::env;
use std::path::{Path, PathBuf};
use std::process::{exit, Command};

fn main() {
    for name in ["HIDREPORT_LIB_DIR", "HIDREPORT_PORTABLE", "CC", "AR"] {
        println!("cargo:rerun-if-env-changed={name}");
    }
    let package = PathBuf::from(variable("CARGO_MANIFEST_DIR"));
    let folder = match env::var("HIDREPORT_LIB_DIR") {
        Ok(folder) => PathBuf::from(folder),
        Err(_) => found(&package),
    };
    let archive = folder.join("libhidreport.a");
    println!("cargo:rerun-if-changed={}", archive.display());
    if !archive.is_file() {
        fail(&format!("{} isn't there", archive.display()));
    }
    println!("cargo:rustc-link-search=native={}", folder.display());
    println!("cargo:rustc-link-lib=static=hidreport");
}

/// The folder with the library: that where it is made, or the one that was installed.
fn found(package: &Path) -> PathBuf {
    match [package.join("generated"), package.join("../generated")].iter().find(|it| it.is_dir()) {
        Some(generated) => made(generated),
        None => installed(&package.join("../../..")),
    }
}

/// The folder of a PREFIX with the library: lib, or one where a distribution has it.
fn installed(prefix: &Path) -> PathBuf {
    let of_processor = format!("lib/{}-linux-gnu", variable("CARGO_CFG_TARGET_ARCH"));
    let folders = ["lib", "lib64", &of_processor].map(|it| prefix.join(it));
    let found = folders.iter().find(|it| it.join("libhidreport.a").is_file());
    found.unwrap_or(&folders[0]).clone()
}

/// Makes the library, and answers in which folder.
fn made(generated: &Path) -> PathBuf {
    let processor = variable("CARGO_CFG_TARGET_ARCH");
    let text = generated.join(format!("{processor}-linux/hidreport.s"));
    let is_native = variable("CARGO_CFG_TARGET_OS") == "linux"
        && text.is_file()
        && env::var_os("HIDREPORT_PORTABLE").is_none();
    let sources = match is_native {
        true => vec![(text, "hidreport.o"), (generated.join("heap.c"), "heap.o")],
        false => vec![(generated.join("portable/hidreport.c"), "portable.o")],
    };
    let folder = PathBuf::from(variable("OUT_DIR"));
    let mut members = vec![PathBuf::from("rcs"), folder.join("libhidreport.a")];
    for (source, name) in sources {
        println!("cargo:rerun-if-changed={}", source.display());
        let member = folder.join(name);
        let mut arguments = ["-O2", "-c", "-o"].map(PathBuf::from).to_vec();
        arguments.extend([member.clone(), source]);
        if variable("CARGO_CFG_TARGET_OS") == "linux" {
            arguments.push(PathBuf::from("-fPIC"));
        }
        run(&tool("CC", "gcc"), arguments.iter());
        members.push(member);
    }
    run(&tool("AR", "ar"), members.iter());
    folder
}

/// The tool that a variable names, or the one for the target: this machine's own, or a cross compiler's.
fn tool(name: &str, called: &str) -> String {
    env::var(name).unwrap_or_else(|_| {
        let processor = variable("CARGO_CFG_TARGET_ARCH");
        let is_ours = variable("HOST") == variable("TARGET");
        match (is_ours, variable("CARGO_CFG_TARGET_OS").as_str()) {
            (true, _) if called == "gcc" => "cc".into(),
            (true, _) => called.into(),
            (false, "windows") => format!("{processor}-w64-mingw32-{called}"),
            (false, _) if processor == "arm" => format!("arm-linux-gnueabihf-{called}"),
            (false, _) if called == "ar" => called.into(),
            (false, _) => format!("{processor}-linux-gnu-{called}"),
        }
    })
}

/// Runs a tool that may be several words, as `ccache gcc` is, unless they are the name of a file.
fn run<'a>(tool: &str, arguments: impl Iterator<Item = &'a PathBuf>) {
    let words: Vec<&str> = match Path::new(tool).is_file() {
        true => vec![tool],
        false => tool.split_whitespace().collect(),
    };
    let (name, first) = words.split_first().unwrap_or_else(|| fail("CC or AR has no words"));
    match Command::new(name).args(first).args(arguments).status() {
        Ok(status) if status.success() => {}
        Ok(status) => fail(&format!("{tool} ended with {status}")),
        Err(error) => fail(&format!("{tool}: {error}")),
    }
}

fn variable(name: &str) -> String {
    env::var(name).unwrap_or_else(|_| fail(&format!("cargo names no {name}")))
}

fn fail(message: &str) -> ! {
    eprintln!("hidreport: {message}");
    exit(1)
}
