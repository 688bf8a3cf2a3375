//! Which processor the times are of.

/// Its name, family and model as Linux tells them.
pub fn print() {
    let told = std::fs::read_to_string("/proc/cpuinfo").unwrap_or_default();
    let of = |key: &str| {
        let line = told
            .lines()
            .find(|line| line.split('\t').next() == Some(key));
        let value = line.and_then(|line| line.split(": ").nth(1));
        value.unwrap_or("unknown").to_string()
    };
    let (name, family, model) = (of("model name"), of("cpu family"), of("model"));
    println!("Processor: {name}, family {family}, model {model}.");
}
