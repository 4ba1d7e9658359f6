//! On what it is measured: the machine, and what built both sides.

use std::fs;
use std::process::Command;

/// The Rattle toolchain that built the library.
const TOOLCHAIN: &str = include_str!("../../../toolchain.txt");

/// The description, a point to each line.
pub fn description() -> String {
    let cpu = |name| value(&read("/proc/cpuinfo"), name);
    let (model, cache) = (cpu("model name"), cpu("cache size"));
    let numbers = ["cpu family", "model", "stepping"].map(cpu).join("/");
    let cores = read("/proc/cpuinfo").lines().filter(|line| line.starts_with("processor")).count();
    let memory = value(&read("/proc/meminfo"), "MemTotal");
    let (rustc, rattle) = (rustc_version(), TOOLCHAIN.trim());
    format!(
        "- processor: {model}, family/model/stepping {numbers}, cache {cache}, {cores} cores\n\
         - memory: {memory}\n\
         - reference and benchmark: {rustc}, release profile\n\
         - library: {rattle}\n"
    )
}

fn read(path: &str) -> String {
    fs::read_to_string(path).unwrap_or_default()
}

/// The first value that a text of lines `name : value` has for a name.
fn value(text: &str, name: &str) -> String {
    let values = text.lines().filter_map(|line| line.split_once(':'));
    let found = values.filter(|(found, _)| found.trim() == name).map(|(_, value)| value.trim()).next();
    found.unwrap_or("unknown").to_string()
}

fn rustc_version() -> String {
    let output = Command::new("rustc").arg("--version").output();
    let version = output.map(|output| String::from_utf8_lossy(&output.stdout).trim().to_string());
    version.ok().filter(|version| !version.is_empty()).unwrap_or_else(|| "rustc of an unknown version".into())
}

#[cfg(test)]
mod tests {
    use super::*;

    #[test]
    fn values_are_found_by_their_whole_name() {
        let text = "processor\t: 0\nmodel\t\t: 143\nmodel name\t: A : B\nmodel\t: 7\n";
        assert_eq!(value(text, "model"), "143");
        assert_eq!(value(text, "model name"), "A : B");
        assert_eq!(value(text, "cache size"), "unknown");
        assert_eq!(value("", "model"), "unknown");
    }
}
