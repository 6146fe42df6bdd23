//! The words of the command.

#[derive(Clone)]
pub struct Options {
    /// the words of the commands under test: the desk, if it is to be run, and the host
    pub desk: Vec<String>,
    pub host: Vec<String>,
    pub seed: u64,
    pub cases: u64,
    pub only: Option<u64>,
}

fn seed_of_now() -> u64 {
    std::time::SystemTime::now().duration_since(std::time::UNIX_EPOCH).map_or(1, |time| time.as_secs())
}

/// Nothing if they are not in order.
pub fn options() -> Option<Options> {
    let mut options = Options { desk: Vec::new(), host: Vec::new(), seed: seed_of_now(), cases: 20_000, only: None };
    let mut words = std::env::args().skip(1);
    while let Some(word) = words.next() {
        let value = words.next()?;
        match word.as_str() {
            "--desk" => options.desk.push(value),
            "--host" => options.host.push(value),
            "--seed" => options.seed = value.parse().ok()?,
            "--cases" => options.cases = value.parse().ok()?,
            "--only" => options.only = Some(value.parse().ok()?),
            _ => return None,
        }
    }
    if options.host.is_empty() { None } else { Some(options) }
}
