//! Well-shaped lines, as lists of alternatives: every alternative has one length, and says for
//! each of its bytes what may stand there.

use std::sync::LazyLock;

/// Which lines are meant.
#[derive(Clone, Copy, Debug, PartialEq, Eq)]
pub enum Section {
    Catalogue,
    Options,
    Orderings,
    Trailer,
}

/// What may stand at one position.
#[derive(Clone, Copy)]
enum May {
    /// exactly this byte
    Be(u8),
    /// a digit that is not 0
    BeginANumber,
    /// any digit
    GoOn,
}

impl May {
    fn hold(self, byte: u8) -> bool {
        match self {
            May::Be(wanted) => byte == wanted,
            May::BeginANumber => (b'1'..=b'9').contains(&byte),
            May::GoOn => byte.is_ascii_digit(),
        }
    }
}

/// One form of a well-shaped line, its line end included.
type Alternative = Vec<May>;

/// "A number is `0`, or one to five digits of which the first is not 0."
fn numbers() -> Vec<Alternative> {
    let mut forms = vec![vec![May::Be(b'0')]];
    for more in 0..5 {
        let mut form = vec![May::BeginANumber];
        form.extend(std::iter::repeat_n(May::GoOn, more));
        forms.push(form);
    }
    forms
}

/// Every form of a line that has this letter and so many numbers: "one space stands between
/// fields", "each line ends with byte 10".
fn lines(letter: u8, fields: usize) -> Vec<Alternative> {
    let mut forms = vec![vec![May::Be(letter)]];
    for _ in 0..fields {
        let mut longer = Vec::new();
        for form in &forms {
            for number in numbers() {
                let mut next = form.clone();
                next.push(May::Be(b' '));
                next.extend(number);
                longer.push(next);
            }
        }
        forms = longer;
    }
    for form in &mut forms {
        form.push(May::Be(b'\n'));
    }
    forms
}

/// All well-shaped lines of a section.
pub struct Shape(Vec<Alternative>);

// "`C a b`", "`X a b`", "`F a w`", "`U a b w`", "`T f u t`"; each list is made once.
static CATALOGUE: LazyLock<Shape> =
    LazyLock::new(|| Shape([lines(b'C', 2), lines(b'X', 2)].concat()));
static OPTIONS: LazyLock<Shape> = LazyLock::new(|| Shape(lines(b'F', 2)));
static ORDERINGS: LazyLock<Shape> = LazyLock::new(|| Shape(lines(b'U', 3)));
static TRAILER: LazyLock<Shape> = LazyLock::new(|| Shape(lines(b'T', 3)));

impl Shape {
    /// The well-shaped lines of this section.
    pub fn of(section: Section) -> &'static Shape {
        match section {
            Section::Catalogue => &CATALOGUE,
            Section::Options => &OPTIONS,
            Section::Orderings => &ORDERINGS,
            Section::Trailer => &TRAILER,
        }
    }

    /// The column of the "first byte that, after the bytes before it, no well-shaped line of that
    /// section could have there". The line includes its line end, which "has a column"; a line
    /// without such a byte is well-shaped.
    pub fn misfit(&self, line: &[u8]) -> Option<usize> {
        let mut left: Vec<&Alternative> = self.0.iter().collect();
        for (position, &byte) in line.iter().enumerate() {
            left.retain(|form| form.get(position).is_some_and(|may| may.hold(byte)));
            if left.is_empty() {
                return Some(position + 1);
            }
        }
        None
    }
}

/// A number in a well-shaped line, with the column of its first digit.
#[derive(Clone, Copy)]
pub struct Field {
    pub value: u32,
    pub column: usize,
}

/// The numbers of a well-shaped line.
pub fn fields(line: &[u8]) -> Vec<Field> {
    let mut found = Vec::new();
    let mut column = 1;
    for word in line[..line.len() - 1].split(|&byte| byte == b' ') {
        if column > 1 {
            let text = std::str::from_utf8(word).expect("digits");
            found.push(Field {
                value: text.parse().expect("at most five digits"),
                column,
            });
        }
        column += word.len() + 1;
    }
    found
}
