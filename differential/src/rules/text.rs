//! Annotation texts: words, marks and the grammar. A fault is a byte's place.

pub const LONGEST: usize = 4096;

#[derive(Clone, Copy, Debug, PartialEq, Eq)]
pub enum Name {
    Int,
    Bool,
    Str,
    None,
    Type,
    Any,
    Never,
    Callable,
    Iterable,
    List,
    Set,
    Dict,
    Tuple,
    Host(u16),
    Custom(u16),
}

#[derive(Clone, Debug)]
pub enum Args {
    Bare,
    Texts(Vec<Text>),
    /// `tuple[T, ...]`
    Many(Box<Text>),
}

#[derive(Clone, Debug)]
pub struct Alternative {
    /// The place of its name.
    pub at: usize,
    pub name: Name,
    pub args: Args,
}

#[derive(Clone, Debug)]
pub struct Text(pub Vec<Alternative>);

#[derive(Clone, Copy, Debug, PartialEq, Eq)]
enum Token<'a> {
    Mark(u8),
    Word(&'a [u8]),
    End,
}

struct Reader<'a> {
    tokens: Vec<(usize, Token<'a>)>,
    next: usize,
}

fn is_mark(b: u8) -> bool {
    matches!(b, b'|' | b'[' | b']' | b',')
}

fn tokens(text: &[u8]) -> Vec<(usize, Token<'_>)> {
    let mut found = Vec::new();
    let mut at = 0;
    while at < text.len() {
        if text[at] == b' ' {
            at += 1;
        } else if is_mark(text[at]) {
            found.push((at, Token::Mark(text[at])));
            at += 1;
        } else {
            let long = text[at..]
                .iter()
                .take_while(|b| **b != b' ' && !is_mark(**b))
                .count();
            found.push((at, Token::Word(&text[at..at + long])));
            at += long;
        }
    }
    found.push((text.len(), Token::End));
    found
}

/// 0 to 65,535, decimal, without leading zeros.
fn number(digits: &[u8]) -> Option<u16> {
    let plain = !digits.is_empty()
        && digits.len() <= 5
        && digits.iter().all(u8::is_ascii_digit)
        && (digits.len() == 1 || digits[0] != b'0');
    let n = digits.iter().fold(0u32, |n, d| {
        n.wrapping_mul(10)
            .wrapping_add(u32::from(d.wrapping_sub(b'0')))
    });
    (plain && n <= 65_535).then_some(n as u16)
}

fn name(word: &[u8]) -> Option<Name> {
    Some(match word {
        b"int" => Name::Int,
        b"bool" => Name::Bool,
        b"str" => Name::Str,
        b"None" => Name::None,
        b"type" => Name::Type,
        b"list" => Name::List,
        b"dict" => Name::Dict,
        b"set" => Name::Set,
        b"tuple" => Name::Tuple,
        b"typing.Any" => Name::Any,
        b"typing.Never" => Name::Never,
        b"typing.Callable" => Name::Callable,
        b"typing.Iterable" => Name::Iterable,
        _ => {
            if let Some(digits) = word.strip_prefix(b"host.") {
                Name::Host(number(digits)?)
            } else if let Some(digits) = word.strip_prefix(b"custom.") {
                Name::Custom(number(digits)?)
            } else {
                return None;
            }
        }
    })
}

impl<'a> Reader<'a> {
    fn at(&self) -> usize {
        self.tokens[self.next].0
    }

    fn sees(&self, token: Token) -> bool {
        self.tokens[self.next].1 == token
    }

    fn takes(&mut self, mark: u8) -> bool {
        let found = self.sees(Token::Mark(mark));
        if found {
            self.next += 1;
        }
        found
    }

    fn expects(&mut self, mark: u8) -> Result<(), usize> {
        if self.takes(mark) {
            Ok(())
        } else {
            Err(self.at())
        }
    }

    fn text(&mut self) -> Result<Text, usize> {
        let mut alternatives = vec![self.alternative()?];
        while self.takes(b'|') {
            alternatives.push(self.alternative()?);
        }
        Ok(Text(alternatives))
    }

    fn alternative(&mut self) -> Result<Alternative, usize> {
        let at = self.at();
        let Token::Word(word) = self.tokens[self.next].1 else {
            return Err(at);
        };
        let name = name(word).ok_or(at)?;
        self.next += 1;
        let args = match name {
            Name::List | Name::Set | Name::Iterable if self.takes(b'[') => self.fixed(1)?,
            Name::Dict if self.takes(b'[') => self.fixed(2)?,
            Name::Tuple if self.takes(b'[') => self.elements()?,
            _ => Args::Bare,
        };
        Ok(Alternative { at, name, args })
    }

    fn fixed(&mut self, count: usize) -> Result<Args, usize> {
        let mut args = vec![self.text()?];
        while args.len() < count {
            self.expects(b',')?;
            args.push(self.text()?);
        }
        self.expects(b']')?;
        Ok(Args::Texts(args))
    }

    fn elements(&mut self) -> Result<Args, usize> {
        if self.takes(b']') {
            return Ok(Args::Texts(Vec::new()));
        }
        let mut args = vec![self.text()?];
        while !self.takes(b']') {
            self.expects(b',')?;
            if args.len() == 1 && self.sees(Token::Word(b"...")) {
                self.next += 1;
                self.expects(b']')?;
                return Ok(Args::Many(Box::new(args.remove(0))));
            }
            args.push(self.text()?);
        }
        Ok(Args::Texts(args))
    }
}

pub fn read(text: &[u8]) -> Result<Text, usize> {
    if text.len() > LONGEST {
        return Err(LONGEST);
    }
    let mut reader = Reader {
        tokens: tokens(text),
        next: 0,
    };
    let whole = reader.text()?;
    if reader.sees(Token::End) {
        Ok(whole)
    } else {
        Err(reader.at())
    }
}
