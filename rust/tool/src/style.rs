//! Colours, where the answer goes to a terminal that wants them.

/// How words are made to stand out.
#[derive(Clone, Copy)]
pub struct Style {
    pub colours: bool,
}

impl Style {
    /// What is wrong.
    pub fn fault(self, words: &str) -> String {
        self.painted("1;31", words)
    }

    /// What is right.
    pub fn good(self, words: &str) -> String {
        self.painted("32", words)
    }

    /// What a paragraph is about.
    pub fn strong(self, words: &str) -> String {
        self.painted("1", words)
    }

    /// What stands beside: line numbers and the like.
    pub fn faint(self, words: &str) -> String {
        self.painted("36", words)
    }

    fn painted(self, code: &str, words: &str) -> String {
        if self.colours && !words.is_empty() {
            format!("\x1b[{code}m{words}\x1b[0m")
        } else {
            words.to_string()
        }
    }
}
