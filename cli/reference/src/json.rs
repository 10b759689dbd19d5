//! JSON by RFC 8259: an automaton that takes a text character by character, with a stack of the containers that are open.

use Container::{Array, Object};
use State::{
    AfterValue, Characters, Colon, End, Escape, Exponent, ExponentMark, ExponentSign, FirstElement,
    FirstMember, Fraction, Hex, Integer, Literal, Member, Minus, Point, Start, Value, Zero,
};

/// Most containers that may be open at once.
const DEEPEST: usize = 64;

/// What can hold values.
#[derive(Debug, Clone, Copy, PartialEq, Eq)]
enum Container {
    Object,
    Array,
}

/// What the characters so far leave to be taken.
#[derive(Debug, Clone, Copy, PartialEq, Eq)]
enum State {
    /// Nothing was taken: the brace that opens the outer object.
    Start,
    /// The outer object is closed: nothing.
    End,
    /// After an opening brace: a member or the closing brace.
    FirstMember,
    /// After a comma in an object: a member.
    Member,
    /// After a name: a colon.
    Colon,
    /// After an opening bracket: a value or the closing bracket.
    FirstElement,
    /// After a colon, or a comma in an array: a value.
    Value,
    /// After a value: a comma or the end of its container.
    AfterValue,
    /// In a string: a character or the closing quotation mark.
    Characters,
    /// After a backslash: what it escapes.
    Escape,
    /// After `\u`: so many hexadecimal digits.
    Hex(u8),
    /// In `true`, `false` or `null`: these letters.
    Literal(&'static str),
    /// In a number: after its minus.
    Minus,
    /// After a zero that is the whole integer.
    Zero,
    /// After a digit of an integer that doesn't begin with zero.
    Integer,
    /// After the decimal point.
    Point,
    /// After a digit of the fraction.
    Fraction,
    /// After `e` or `E`.
    ExponentMark,
    /// After the sign of the exponent.
    ExponentSign,
    /// After a digit of the exponent.
    Exponent,
}

/// Whether the text is one object, from its first character to its last, with containers nested at most 64 deep.
pub fn is_object(text: &str) -> bool {
    let mut automaton = Automaton {
        state: Start,
        open: Vec::new(),
        after_string: Colon,
    };
    text.chars().all(|character| automaton.take(character)) && automaton.state == End
}

struct Automaton {
    state: State,
    /// The open containers, the innermost last.
    open: Vec<Container>,
    /// What follows the string that is open, or was last.
    after_string: State,
}

impl Automaton {
    /// Takes a character, if it may stand here.
    fn take(&mut self, character: char) -> bool {
        let next = self.follow(character);
        self.state = next.unwrap_or(self.state);
        next.is_some()
    }

    /// The state after a character; none where it may not stand here.
    fn follow(&mut self, character: char) -> Option<State> {
        match self.state {
            Characters | Escape | Hex(_) => self.follow_in_string(character),
            Literal(letters) => follow_in_literal(letters, character),
            Minus | Point | ExponentMark | ExponentSign => follow_in_number(self.state, character),
            // Such a number is whole, and ends where it doesn't go on.
            Zero | Integer | Fraction | Exponent => follow_in_number(self.state, character)
                .or_else(|| self.follow_token(AfterValue, character)),
            Start | End | FirstMember | Member | Colon | FirstElement | Value | AfterValue => {
                self.follow_token(self.state, character)
            }
        }
    }

    /// The state after a character between two tokens, or the first one of a token.
    fn follow_token(&mut self, state: State, character: char) -> Option<State> {
        match (state, character) {
            (Start, '{') => self.enter(Object),
            (Start | End, _) => None,
            (_, ' ' | '\t' | '\n' | '\r') => Some(state),
            (FirstMember | Member, '"') => self.begin_string(Colon),
            (Colon, ':') => Some(Value),
            (FirstMember | AfterValue, '}') => self.leave(Object),
            (FirstElement | AfterValue, ']') => self.leave(Array),
            (AfterValue, ',') => match self.open.last()? {
                Object => Some(Member),
                Array => Some(Value),
            },
            (FirstElement | Value, _) => self.begin_value(character),
            _ => None,
        }
    }

    /// The state after the first character of a value.
    fn begin_value(&mut self, character: char) -> Option<State> {
        match character {
            '{' => self.enter(Object),
            '[' => self.enter(Array),
            '"' => self.begin_string(AfterValue),
            't' => Some(Literal("rue")),
            'f' => Some(Literal("alse")),
            'n' => Some(Literal("ull")),
            '-' => Some(Minus),
            '0' => Some(Zero),
            '1'..='9' => Some(Integer),
            _ => None,
        }
    }

    /// Opens a container, unless it lies too deep.
    fn enter(&mut self, container: Container) -> Option<State> {
        self.open.push(container);
        let first = match container {
            Object => FirstMember,
            Array => FirstElement,
        };
        (self.open.len() <= DEEPEST).then_some(first)
    }

    /// Closes the innermost container, if it is of this kind.
    fn leave(&mut self, container: Container) -> Option<State> {
        let closed = self.open.pop()?;
        let after = if self.open.is_empty() {
            End
        } else {
            AfterValue
        };
        (closed == container).then_some(after)
    }

    fn begin_string(&mut self, after: State) -> Option<State> {
        self.after_string = after;
        Some(Characters)
    }

    /// The state after a character of a string.
    fn follow_in_string(&self, character: char) -> Option<State> {
        match (self.state, character) {
            (Characters, '"') => Some(self.after_string),
            (Characters, '\\') => Some(Escape),
            (Characters, ' '..) => Some(Characters),
            (Escape, '"' | '\\' | '/' | 'b' | 'f' | 'n' | 'r' | 't') => Some(Characters),
            (Escape, 'u') => Some(Hex(4)),
            (Hex(1), '0'..='9' | 'a'..='f' | 'A'..='F') => Some(Characters),
            (Hex(due), '0'..='9' | 'a'..='f' | 'A'..='F') => Some(Hex(due - 1)),
            _ => None,
        }
    }
}

/// The state after a letter of `true`, `false` or `null`.
fn follow_in_literal(letters: &'static str, character: char) -> Option<State> {
    match letters.strip_prefix(character)? {
        "" => Some(AfterValue),
        rest => Some(Literal(rest)),
    }
}

/// The state after a character of a number.
fn follow_in_number(state: State, character: char) -> Option<State> {
    match (state, character) {
        (Minus, '0') => Some(Zero),
        (Minus, '1'..='9') | (Integer, '0'..='9') => Some(Integer),
        (Zero | Integer, '.') => Some(Point),
        (Point | Fraction, '0'..='9') => Some(Fraction),
        (Zero | Integer | Fraction, 'e' | 'E') => Some(ExponentMark),
        (ExponentMark, '+' | '-') => Some(ExponentSign),
        (ExponentMark | ExponentSign | Exponent, '0'..='9') => Some(Exponent),
        _ => None,
    }
}
