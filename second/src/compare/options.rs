//! Options of the form `--name value` and `--name`.

pub struct Options<'a> {
    words: &'a [String],
}

impl<'a> Options<'a> {
    /// Nothing but the names given here may stand in the words.
    pub fn of(words: &'a [String], valued: &[&str], bare: &[&str]) -> Result<Options<'a>, String> {
        let mut at = 0;
        while at < words.len() {
            let word = words[at].as_str();
            if valued.contains(&word) && at + 1 < words.len() {
                at += 2;
            } else if bare.contains(&word) {
                at += 1;
            } else {
                return Err(format!("`{word}` is unknown or lacks its value"));
            }
        }
        Ok(Options { words })
    }

    pub fn has(&self, name: &str) -> bool {
        self.words.iter().any(|word| word == name)
    }

    pub fn value(&self, name: &str) -> Option<&'a str> {
        let at = self.words.iter().position(|word| word == name)?;
        self.words.get(at + 1).map(String::as_str)
    }

    pub fn number(&self, name: &str, otherwise: u64) -> Result<u64, String> {
        match self.value(name) {
            None => Ok(otherwise),
            Some(word) => word
                .parse()
                .map_err(|_| format!("{name}: `{word}` is no number")),
        }
    }
}
