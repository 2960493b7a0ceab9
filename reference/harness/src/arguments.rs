//! Options of the form `--name value` and `--name`.

use std::time::Duration;

use reference::mistake::{Mistake, RULED_COMMANDS};

use crate::portal::Portal;

pub struct Arguments {
    words: Vec<String>,
}

impl Arguments {
    /// The command line; anything but `known` options ends the program.
    pub fn read(usage: &str, known: &[&str]) -> Arguments {
        let words: Vec<String> = std::env::args().skip(1).collect();
        let unknown = words
            .iter()
            .find(|word| word.starts_with("--") && !known.contains(&word.as_str()));
        if let Some(word) = unknown {
            fail(&format!("unknown option {word}\nusage: {usage}"));
        }
        Arguments { words }
    }

    pub fn has(&self, name: &str) -> bool {
        self.words.iter().any(|word| word == name)
    }

    pub fn text(&self, name: &str) -> Option<&str> {
        let place = self.words.iter().position(|word| word == name)?;
        match self.words.get(place + 1) {
            Some(word) => Some(word),
            None => fail(&format!("{name} needs a value")),
        }
    }

    pub fn number(&self, name: &str, default: u64) -> u64 {
        let Some(word) = self.text(name) else {
            return default;
        };
        match word.replace([',', '_'], "").parse() {
            Ok(number) => number,
            Err(_) => fail(&format!("{name} needs a number, not {word}")),
        }
    }

    pub fn seconds(&self, default: u64) -> Duration {
        Duration::from_secs(self.number("--seconds", default))
    }

    /// `--replay PATH`, or the environment variable REPLAY.
    pub fn replay(&self) -> Option<String> {
        let named = self.text("--replay").map(String::from);
        named.or_else(|| std::env::var("REPLAY").ok())
    }

    /// `--rounds PATH`, or the environment variable ROUNDS.
    pub fn rounds(&self) -> Option<String> {
        let named = self.text("--rounds").map(String::from);
        named.or_else(|| std::env::var("ROUNDS").ok())
    }

    /// `--mistake NAME`.
    pub fn mistake(&self) -> Mistake {
        self.text("--mistake").map_or(Mistake::None, mistake_named)
    }

    /// `--portal linked`, `fast` or `reference`; linked if not said.
    pub fn portal(&self, mistake: Mistake) -> Portal {
        match self.text("--portal").unwrap_or("linked") {
            "linked" => Portal::linked().unwrap_or_else(|| {
                fail("no portal is linked: build with PORTAL_LIB_DIR, or ask for --portal fast")
            }),
            "fast" => Portal::Fast,
            "reference" => Portal::Reference(mistake),
            other => fail(&format!("no portal {other}")),
        }
    }
}

/// The mistake of this name, as it is written in the reference.
pub fn mistake_named(name: &str) -> Mistake {
    let all = all_mistakes()
        .chain(Mistake::FOLLOWING)
        .chain(Mistake::WRITING)
        .chain(Mistake::TURNING)
        .chain(Mistake::SPENDING)
        .chain(Mistake::CLEANING)
        .chain(Mistake::ARRANGING);
    let mut named = all.chain([Mistake::None]);
    match named.find(|mistake| format!("{mistake:?}") == name) {
        Some(mistake) => mistake,
        None => fail(&format!("no mistake {name}")),
    }
}

/// Every planted mistake that a job shows.
pub fn all_mistakes() -> impl Iterator<Item = Mistake> {
    let rules = RULED_COMMANDS.map(Mistake::NoRule);
    Mistake::ALL.into_iter().chain(rules)
}

/// Says why the program cannot go on, with exit status 2.
pub fn fail(message: &str) -> ! {
    eprintln!("{message}");
    std::process::exit(2)
}
