//! Refusals: the questions of documents 01 and 02 by their numbers.

use core::error::Error;
use core::fmt;

/// A question of document 01, or of a request of document 02, that got a no, by its number.
///
/// ```
/// use sojimu::Question;
///
/// assert_eq!(Question(12).to_string(), "12, is it this side's turn?");
/// ```
#[derive(Clone, Copy, Debug, PartialEq, Eq, PartialOrd, Ord, Hash)]
pub struct Question(
    /// The number: 1 to 23.
    pub u8,
);

impl Question {
    /// 1: a text is longer than 8,192 bytes.
    pub const TEXT_TOO_LONG: Question = Question(1);
    /// 2: a token is not well formed.
    pub const BAD_TOKEN: Question = Question(2);
    /// 3: the grammar does not allow a token where it stands, or the text ends too early.
    pub const MISPLACED: Question = Question(3);
    /// 4: no `rec` around a name binds it.
    pub const UNBOUND: Question = Question(4);
    /// 5: no choice stands between a name and its own `rec`.
    pub const UNGUARDED: Question = Question(5);
    /// 6: a number is outside its kind, or high is below low.
    pub const BAD_RANGE: Question = Question(6);
    /// 7: a label stands twice in a choice.
    pub const LABEL_TWICE: Question = Question(7);
    /// 8: there are too many states, branches, fields, or choices and `rec`s open around one another.
    pub const TOO_MANY: Question = Question(8);
    /// 9: the table is not sound, or not with the state that is given with it.
    pub const UNSOUND: Question = Question(9);
    /// 10: somebody was blamed.
    pub const NOT_RUNNING: Question = Question(10);
    /// 11: the conversation has come to an end.
    pub const AT_END: Question = Question(11);
    /// 12: it is the other side's turn, under edition 1.
    pub const OUT_OF_TURN: Question = Question(12);
    /// 13: a message has fewer than nine bytes, no legal label, a count above 4, or arrays that are not whole.
    pub const BAD_FRONT: Question = Question(13);
    /// 14: a field has an unknown kind, or a number outside its kind.
    pub const BAD_FIELD: Question = Question(14);
    /// 15: a message is shorter or longer than its front says.
    pub const OTHER_LENGTH: Question = Question(15);
    /// 16: the output is too short for the message.
    pub const OUTPUT_TOO_SHORT: Question = Question(16);
    /// 17: the list has fewer than device states times protocol states entries.
    pub const LIST_TOO_SHORT: Question = Question(17);
    /// 18: there is no such branch, or it has no such field.
    pub const NO_BRANCH: Question = Question(18);
    /// 19: a share is not 1 to 1000.
    pub const BAD_SHARE: Question = Question(19);
    /// 20: some branches of a choice have shares and some none, or its shares do not add to 1000.
    pub const BAD_SHARES: Question = Question(20);
    /// 21: the setting is not 1 to 1000.
    pub const BAD_SETTING: Question = Question(21);
    /// 22: a text in a message is not well-formed UTF-8.
    pub const NOT_UTF8: Question = Question(22);
    /// 23: an edition is neither 1 nor 2.
    pub const BAD_EDITION: Question = Question(23);

    /// The first and the last one.
    pub(crate) const FIRST: Question = Question::TEXT_TOO_LONG;
    pub(crate) const LAST: Question = Question::BAD_EDITION;

    /// The question in words; of a number that is none of theirs, nothing.
    ///
    /// ```
    /// use sojimu::Question;
    ///
    /// assert_eq!(Question(21).words(), "is the setting 1 to 1000?");
    /// assert_eq!(Question(22).words(), "is every text well-formed UTF-8?");
    /// assert_eq!(Question(23).words(), "is the edition 1 or 2?");
    /// assert_eq!(Question(24).words(), "");
    /// ```
    pub fn words(self) -> &'static str {
        match self.0 {
            1 => "is the text at most 8,192 bytes long?",
            2 => "is the token well formed?",
            3 => "does the grammar allow it here?",
            4 => "is the name bound by a rec around it?",
            5 => "does a choice stand between the name after the dot of a rec and its own binder?",
            6 => "is the number within its kind, and high not below low?",
            7 => "is the label new in its choice?",
            8 => "is the token within the limits?",
            9 => "is the table sound, its edition 1 or 2, the position one of its states, and are the counts sound?",
            10 => "is the standing running?",
            11 => "is the position not an end?",
            12 => "is it this side's turn?",
            13 => "are there nine bytes, a legal label, a count of at most 4, and both arrays whole?",
            14 => "is every kind known and every number within its kind?",
            15 => "is the length exactly what this gives?",
            16 => "does the output buffer hold the message?",
            17 => "has the list device states times protocol states entries?",
            18 => "does the branch exist, and has it the named field?",
            19 => "is the share 1 to 1000?",
            20 => "has the choice no shares, or one for each branch, which add to 1000?",
            21 => "is the setting 1 to 1000?",
            22 => "is every text well-formed UTF-8?",
            23 => "is the edition 1 or 2?",
            _ => "",
        }
    }
}

impl fmt::Display for Question {
    fn fmt(&self, f: &mut fmt::Formatter<'_>) -> fmt::Result {
        write!(f, "{}, {}", self.0, self.words())
    }
}

impl Error for Question {}

/// Why a text was not read: the question, and the place of its token in the text.
///
/// ```
/// use sojimu::{Question, Refusal, Table};
///
/// let refusal = Table::read(b"rec X.X").unwrap_err();
/// assert_eq!(refusal, Refusal { question: Question(5), at: 6 });
/// assert_eq!(refusal.to_string(), "refused 5 at 6");
/// ```
#[derive(Clone, Copy, Debug, PartialEq, Eq, Hash)]
pub struct Refusal {
    /// The question that got a no: 1 to 8, 19, 20 or 23.
    pub question: Question,
    /// The first byte of the token; the text's length when the text ran out.
    pub at: usize,
}

impl fmt::Display for Refusal {
    fn fmt(&self, f: &mut fmt::Formatter<'_>) -> fmt::Result {
        write!(f, "refused {} at {}", self.question.0, self.at)
    }
}

impl Error for Refusal {}
