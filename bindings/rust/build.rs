//! Says where the archive with the proved functions lies, for the target that is built for: in the folder
//! that `LISCHEMUR_LIB` names, else in this repository's `target`, where `tools/library` puts those for
//! Linux and `meter/build` those for microcontrollers. A target that has none is refused.

use std::env;
use std::path::PathBuf;
use std::process::exit;

/// The targets that `tools/library` makes the archive for: its folder, and the command.
const COMPUTERS: [(&str, &str, &str); 3] = [
    ("x86_64-unknown-linux-gnu", "library", "tools/library"),
    ("x86_64-unknown-linux-musl", "library", "tools/library"),
    (
        "aarch64-unknown-linux-gnu",
        "library/aarch64",
        "tools/library aarch64",
    ),
];

/// The microcontrollers' targets: the processor and the float ABI that `meter/build` is to be told, and
/// how the archive's names end. `meter/parts` has the whole list.
const PARTS: [(&str, &str, &str, &str); 8] = [
    ("thumbv6m-none-eabi", "cortex-m0plus", "soft", "_for_armv6m"),
    ("thumbv7m-none-eabi", "cortex-m3", "soft", "_for_armv7m"),
    ("thumbv7em-none-eabi", "cortex-m4", "soft", "_for_armv7em"),
    ("thumbv7em-none-eabihf", "cortex-m4", "hard", "_for_armv7em"),
    (
        "thumbv8m.main-none-eabi",
        "cortex-m33",
        "soft",
        "_for_armv8m_main",
    ),
    (
        "thumbv8m.main-none-eabihf",
        "cortex-m33",
        "hard",
        "_for_armv8m_main",
    ),
    (
        "riscv32imac-unknown-none-elf",
        "rv32imac",
        "soft",
        "_for_rv32imac",
    ),
    (
        "riscv32imc-unknown-none-elf",
        "rv32imc",
        "soft",
        "_for_rv32imc",
    ),
];

/// Say what is wrong and what to do, and stop.
fn refuse(text: &str) -> ! {
    eprintln!("lischemur: {text}");
    exit(1);
}

/// The folder of the repository's `target` that has a target's archive, and what makes it there.
fn kept(target: &str) -> (String, String) {
    if let Some((_, folder, command)) = COMPUTERS.iter().find(|computer| computer.0 == target) {
        return (folder.to_string(), command.to_string());
    }
    match PARTS.iter().find(|part| part.0 == target) {
        Some((_, cpu, float, _)) => (
            format!("meter/{cpu}-{float}"),
            format!("meter/build --cpu {cpu} --float {float}"),
        ),
        None => refuse(&format!(
            "there is no archive for {target}, only for {}, {}. For another target compile the proved \
             module as meter/build does, and name the folder of its libdoor.a in LISCHEMUR_LIB",
            COMPUTERS.map(|computer| computer.0).join(", "),
            PARTS.map(|part| part.0).join(", ")
        )),
    }
}

fn main() {
    println!("cargo:rerun-if-env-changed=LISCHEMUR_LIB");
    println!("cargo:rerun-if-changed=build.rs");
    let target = env::var("TARGET").unwrap_or_default();
    let (folder, what_to_do) = match env::var_os("LISCHEMUR_LIB") {
        Some(folder) => (
            PathBuf::from(folder),
            "LISCHEMUR_LIB must name the folder that contains it".into(),
        ),
        None => {
            let (folder, command) = kept(&target);
            let root = PathBuf::from(env!("CARGO_MANIFEST_DIR")).join("../../target");
            let told = format!("`{command}` makes it, or name its folder in LISCHEMUR_LIB");
            (root.join(folder), told)
        }
    };
    let archive = folder.join("libdoor.a");
    if !archive.is_file() {
        refuse(&format!(
            "{} is missing, the archive for {target}: {what_to_do}",
            archive.display()
        ));
    }
    let ending = PARTS.iter().find(|part| part.0 == target);
    println!("cargo:rerun-if-changed={}", archive.display());
    println!("cargo:rustc-link-search=native={}", folder.display());
    println!(
        "cargo:rustc-env=LISCHEMUR_PART={}",
        ending.map_or("", |part| part.3)
    );
}
