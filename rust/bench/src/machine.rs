//! What the numbers were measured on.

use std::fs;
use std::process::Command;

use crate::measure::REPETITIONS;

pub fn print() {
    println!("- Machine: {}", processor());
    println!("- Load when started: {}", load());
    println!("- Compilers: {}; kit `{}`", rustc(), kit());
    println!(
        "- Flags: the verified library as `rt lib` builds it, at -O3 for x86-64; the reference \
         by cargo's release profile, {}",
        rust_flags()
    );
    println!(
        "- Buffers: warm, one run by each receiver before those measured; arena and map as the run \
         before left them, the state's words set back before each run"
    );
    println!(
        "- {REPETITIONS} repetitions, the receivers taking turns; times are median (min to max)"
    );
    println!("- Command: `make bench`");
}

fn processor() -> String {
    let info = fs::read_to_string("/proc/cpuinfo").unwrap_or_default();
    let model = info
        .lines()
        .find(|line| line.starts_with("model name"))
        .and_then(|line| line.split(": ").nth(1))
        .unwrap_or("unknown processor");
    let cores = std::thread::available_parallelism().map_or(0, |cores| cores.get());
    format!("{model}, {cores} cores")
}

fn load() -> String {
    let load = fs::read_to_string("/proc/loadavg").unwrap_or_default();
    load.split(' ').next().unwrap_or("unknown").to_string()
}

fn rustc() -> String {
    let output = Command::new("rustc").arg("--version").output();
    output.map_or("unknown rustc".to_string(), |output| {
        String::from_utf8_lossy(&output.stdout).trim().to_string()
    })
}

fn kit() -> String {
    let id = fs::read_to_string("/opt/rattle/KIT-ID").unwrap_or_default();
    match id.trim() {
        "" => "unknown".to_string(),
        id => id.to_string(),
    }
}

fn rust_flags() -> String {
    match std::env::var("RUSTFLAGS") {
        Ok(flags) if !flags.is_empty() => format!("RUSTFLAGS `{flags}`"),
        _ => "no RUSTFLAGS".to_string(),
    }
}
