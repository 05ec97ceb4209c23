//! A plain Rust parser of the same grammar and with the same trees as `dps_syntax`, to compare with.
use crate::lexer::{tokens, Kind, Token};

#[derive(Clone, Copy, PartialEq, Eq, Debug)]
pub enum Production {
    Decl,
    Ids,
    Rule,
    Query,
    Par,
    Sum,
    Pre,
    Pattern,
    Term,
}

pub struct Tree {
    pub production: Production,
    pub parts: Vec<Part>,
}

pub enum Part {
    Token(Leaf),
    Inner(Tree),
}

pub struct Leaf {
    pub kind: Kind,
    pub text: String,
    pub line: u32,
    pub column: u32,
}

struct Parser<'a> {
    bytes: &'a [u8],
    tokens: &'a [Token],
    next: usize,
    depth: usize,
}

const DEEPEST: usize = 200;

/// The index of the token with the first fault, or their number.
type Parsed<T> = Result<T, usize>;

impl Parser<'_> {
    fn kind(&self) -> Option<Kind> {
        self.tokens.get(self.next).map(|token| token.kind)
    }

    fn take(&mut self, parts: &mut Vec<Part>) {
        let token = self.tokens[self.next];
        let text = std::str::from_utf8(&self.bytes[token.start as usize..token.end as usize]).unwrap();
        parts.push(Part::Token(Leaf {
            kind: token.kind,
            text: String::from(text),
            line: token.line,
            column: token.column,
        }));
        self.next += 1;
    }

    fn expect(&mut self, parts: &mut Vec<Part>, kind: Kind) -> Parsed<()> {
        if self.kind() == Some(kind) {
            self.take(parts);
            Ok(())
        } else {
            Err(self.next)
        }
    }

    fn accept(&mut self, parts: &mut Vec<Part>, kind: Kind) -> bool {
        let found = self.kind() == Some(kind);
        if found {
            self.take(parts);
        }
        found
    }

    fn inner(
        &mut self,
        parts: &mut Vec<Part>,
        production: Production,
        body: fn(&mut Self, &mut Vec<Part>) -> Parsed<()>,
    ) -> Parsed<()> {
        let mut inside = Vec::new();
        body(self, &mut inside)?;
        parts.push(Part::Inner(Tree {
            production,
            parts: inside,
        }));
        Ok(())
    }

    fn counted(
        &mut self,
        parts: &mut Vec<Part>,
        production: Production,
        body: fn(&mut Self, &mut Vec<Part>) -> Parsed<()>,
    ) -> Parsed<()> {
        if self.depth == DEEPEST {
            return Err(self.next);
        }
        self.depth += 1;
        self.inner(parts, production, body)?;
        self.depth -= 1;
        Ok(())
    }

    fn term(&mut self, parts: &mut Vec<Part>) -> Parsed<()> {
        self.counted(parts, Production::Term, Self::term_parts)
    }

    fn pattern(&mut self, parts: &mut Vec<Part>) -> Parsed<()> {
        self.counted(parts, Production::Pattern, Self::pattern_parts)
    }

    fn process(&mut self, parts: &mut Vec<Part>) -> Parsed<()> {
        self.counted(parts, Production::Pre, Self::process_parts)
    }

    fn parallel(&mut self, parts: &mut Vec<Part>) -> Parsed<()> {
        self.inner(parts, Production::Par, |p, parts| {
            p.choice(parts)?;
            while p.accept(parts, Kind::Bar) {
                p.choice(parts)?;
            }
            Ok(())
        })
    }

    fn choice(&mut self, parts: &mut Vec<Part>) -> Parsed<()> {
        self.inner(parts, Production::Sum, |p, parts| {
            p.process(parts)?;
            while p.accept(parts, Kind::Plus) {
                p.process(parts)?;
            }
            Ok(())
        })
    }

    fn terms(&mut self, parts: &mut Vec<Part>) -> Parsed<()> {
        self.term(parts)?;
        while self.accept(parts, Kind::Comma) {
            self.term(parts)?;
        }
        Ok(())
    }

    fn term_parts(&mut self, parts: &mut Vec<Part>) -> Parsed<()> {
        if self.accept(parts, Kind::Ident) {
            if self.accept(parts, Kind::OP) {
                if self.kind() != Some(Kind::CP) {
                    self.terms(parts)?;
                }
                self.expect(parts, Kind::CP)?;
            }
            return Ok(());
        }
        self.expect(parts, Kind::OP)?;
        self.terms(parts)?;
        self.expect(parts, Kind::CP)
    }

    fn pattern_parts(&mut self, parts: &mut Vec<Part>) -> Parsed<()> {
        if self.accept(parts, Kind::Ident) {
            return Ok(());
        }
        if self.accept(parts, Kind::Eq) {
            return self.term(parts);
        }
        self.expect(parts, Kind::OP)?;
        self.pattern(parts)?;
        self.expect(parts, Kind::Comma)?;
        self.pattern(parts)?;
        while self.accept(parts, Kind::Comma) {
            self.pattern(parts)?;
        }
        self.expect(parts, Kind::CP)
    }

    fn then(&mut self, parts: &mut Vec<Part>, kind: Kind) -> Parsed<()> {
        if self.accept(parts, kind) {
            self.process(parts)?;
        }
        Ok(())
    }

    fn process_parts(&mut self, parts: &mut Vec<Part>) -> Parsed<()> {
        match self.kind() {
            Some(Kind::Number) => {
                let token = self.tokens[self.next];
                if &self.bytes[token.start as usize..token.end as usize] != b"0" {
                    return Err(self.next);
                }
                self.take(parts);
                Ok(())
            }
            Some(Kind::OP) => {
                self.take(parts);
                self.parallel(parts)?;
                self.expect(parts, Kind::CP)
            }
            Some(Kind::Bang) => {
                self.take(parts);
                self.expect(parts, Kind::Caret)?;
                self.expect(parts, Kind::Number)?;
                self.process(parts)
            }
            Some(Kind::New) => {
                self.take(parts);
                self.expect(parts, Kind::Ident)?;
                self.expect(parts, Kind::Semi)?;
                self.process(parts)
            }
            Some(Kind::In) => {
                self.take(parts);
                self.expect(parts, Kind::OP)?;
                self.expect(parts, Kind::Ident)?;
                self.expect(parts, Kind::Comma)?;
                self.pattern(parts)?;
                self.expect(parts, Kind::CP)?;
                self.then(parts, Kind::Semi)
            }
            Some(Kind::Out) => {
                self.take(parts);
                self.expect(parts, Kind::OP)?;
                self.expect(parts, Kind::Ident)?;
                self.expect(parts, Kind::Comma)?;
                self.term(parts)?;
                self.expect(parts, Kind::CP)?;
                self.then(parts, Kind::Semi)
            }
            Some(Kind::If) => {
                self.take(parts);
                self.term(parts)?;
                self.expect(parts, Kind::Eq)?;
                self.term(parts)?;
                self.expect(parts, Kind::Then)?;
                self.process(parts)?;
                self.then(parts, Kind::Else)
            }
            Some(Kind::Let) => {
                self.take(parts);
                self.pattern(parts)?;
                self.expect(parts, Kind::Eq)?;
                self.term(parts)?;
                self.expect(parts, Kind::In)?;
                self.process(parts)?;
                self.then(parts, Kind::Else)
            }
            Some(Kind::Ident) => {
                self.take(parts);
                if self.accept(parts, Kind::OP) {
                    self.terms(parts)?;
                    self.expect(parts, Kind::CP)?;
                }
                Ok(())
            }
            _ => Err(self.next),
        }
    }

    fn names(&mut self, parts: &mut Vec<Part>) -> Parsed<()> {
        self.inner(parts, Production::Ids, |p, parts| {
            p.expect(parts, Kind::Ident)?;
            while p.accept(parts, Kind::Comma) {
                p.expect(parts, Kind::Ident)?;
            }
            Ok(())
        })
    }

    fn rule(&mut self, parts: &mut Vec<Part>) -> Parsed<()> {
        self.inner(parts, Production::Rule, |p, parts| {
            p.expect(parts, Kind::Ident)?;
            p.expect(parts, Kind::OP)?;
            p.terms(parts)?;
            p.expect(parts, Kind::CP)?;
            p.expect(parts, Kind::Arrow)?;
            p.term(parts)
        })
    }

    fn function(&mut self, parts: &mut Vec<Part>) -> Parsed<()> {
        self.expect(parts, Kind::Ident)?;
        self.expect(parts, Kind::Slash)?;
        self.expect(parts, Kind::Number)
    }

    fn declaration(&mut self, parts: &mut Vec<Part>) -> Parsed<()> {
        match self.kind() {
            Some(Kind::Free | Kind::Const) => {
                self.take(parts);
                self.names(parts)?;
                if self.accept(parts, Kind::OB) {
                    self.expect(parts, Kind::Private)?;
                    self.expect(parts, Kind::CB)?;
                }
            }
            Some(Kind::Fun) => {
                self.take(parts);
                self.function(parts)?;
                while self.accept(parts, Kind::Comma) {
                    self.function(parts)?;
                }
            }
            Some(Kind::Reduc) => {
                self.take(parts);
                self.rule(parts)?;
                while self.accept(parts, Kind::Semi) {
                    self.rule(parts)?;
                }
            }
            _ => {
                self.expect(parts, Kind::Let)?;
                self.expect(parts, Kind::Ident)?;
                if self.accept(parts, Kind::OP) {
                    self.names(parts)?;
                    self.expect(parts, Kind::CP)?;
                }
                self.expect(parts, Kind::Eq)?;
                self.parallel(parts)?;
            }
        }
        self.expect(parts, Kind::Dot)
    }

    fn query(&mut self, parts: &mut Vec<Part>) -> Parsed<()> {
        self.expect(parts, Kind::Query)?;
        self.expect(parts, Kind::TraceEquiv)?;
        self.expect(parts, Kind::OP)?;
        self.parallel(parts)?;
        self.expect(parts, Kind::Comma)?;
        self.parallel(parts)?;
        self.expect(parts, Kind::CP)?;
        self.expect(parts, Kind::Dot)
    }

    fn file(&mut self) -> Parsed<Vec<Part>> {
        let mut parts = Vec::new();
        while self.kind() != Some(Kind::Query) {
            self.inner(&mut parts, Production::Decl, Self::declaration)?;
        }
        self.inner(&mut parts, Production::Query, Self::query)?;
        if self.next == self.tokens.len() {
            Ok(parts)
        } else {
            Err(self.next)
        }
    }
}

/// The declarations and the query of a text, or the index of the token with its first fault.
#[inline(never)]
pub fn read_file(bytes: &[u8]) -> Parsed<Vec<Part>> {
    let tokens = tokens(bytes).map_err(|_| 0usize)?;
    Parser {
        bytes,
        tokens: &tokens,
        next: 0,
        depth: 0,
    }
    .file()
}
