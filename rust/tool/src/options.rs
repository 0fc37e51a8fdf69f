//! The words behind a command: names of files, options with a word behind them, options alone.

/// What a command takes.
#[derive(Clone, Copy, Debug)]
pub struct Takes {
    pub name: &'static str,
    pub usage: &'static str,
    /// How many names of files.
    pub files: usize,
    /// Options with a word behind them.
    pub with_word: &'static [&'static str],
    /// Options alone.
    pub alone: &'static [&'static str],
}

/// The words given.
#[derive(Clone, Debug, Default)]
pub struct Given {
    pub files: Vec<String>,
    with_word: Vec<(String, String)>,
    alone: Vec<String>,
}

impl Given {
    pub fn word(&self, option: &str) -> Option<&str> {
        self.with_word.iter().find(|(name, _)| name == option).map(|(_, word)| word.as_str())
    }

    pub fn has(&self, option: &str) -> bool {
        self.alone.iter().any(|name| name == option)
    }

    /// A whole number behind an option; digits may be parted by `,` or `_`.
    pub fn number(&self, option: &str) -> Result<Option<u32>, String> {
        let Some(word) = self.word(option) else { return Ok(None) };
        let digits = word.replace([',', '_'], "");
        digits.parse().map(Some).map_err(|_| format!("{option} needs a whole number up to 4,294,967,295, not `{word}`"))
    }
}

/// Sorts a command's words, or says what is wrong with them.
pub fn sorted(takes: &Takes, words: &[String]) -> Result<Given, String> {
    let mut given = Given::default();
    let mut words = words.iter();
    while let Some(word) = words.next() {
        let name = word.as_str();
        if takes.with_word.contains(&name) {
            let behind = words.next().ok_or_else(|| format!("{name} needs a word behind it"))?;
            if given.word(name).is_some() {
                return Err(format!("{name} is given twice"));
            }
            given.with_word.push((name.to_string(), behind.clone()));
        } else if takes.alone.contains(&name) {
            given.alone.push(name.to_string());
        } else if name.starts_with('-') && name != "-" {
            return Err(format!("`tca {}` knows no option {name}", takes.name));
        } else {
            given.files.push(word.clone());
        }
    }
    match given.files.len() == takes.files {
        true => Ok(given),
        false => Err(format!("`tca {}` takes {} here, not {}", takes.name, names(takes.files), given.files.len())),
    }
}

fn names(count: usize) -> String {
    format!("{count} file name{}", if count == 1 { "" } else { "s" })
}
