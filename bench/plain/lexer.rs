//! A plain Rust lexer of the same tokens, faults and places as `dps_lex`, to compare with.
#[derive(Clone, Copy, PartialEq, Eq, Debug)]
#[repr(u8)]
pub enum Kind {
    Free,
    Const,
    Fun,
    Reduc,
    Let,
    In,
    Out,
    If,
    Then,
    Else,
    New,
    Query,
    TraceEquiv,
    Private,
    OP,
    CP,
    OB,
    CB,
    Comma,
    Semi,
    Dot,
    Slash,
    Eq,
    Bar,
    Plus,
    Bang,
    Caret,
    Arrow,
    Ident,
    Number,
}
#[derive(Clone, Copy)]
pub struct Token {
    pub kind: Kind,
    pub start: u32,
    pub end: u32,
    pub line: u32,
    pub column: u32,
}
#[derive(Debug)]
pub enum FaultKind {
    BadByte,
    OpenComment,
    LongName,
    BadNumber,
    LargeNumber,
}
#[derive(Debug)]
pub struct Fault {
    pub line: u32,
    pub column: u32,
    pub kind: FaultKind,
}
fn keyword(w: &[u8]) -> Kind {
    match w {
        b"free" => Kind::Free,
        b"const" => Kind::Const,
        b"fun" => Kind::Fun,
        b"reduc" => Kind::Reduc,
        b"let" => Kind::Let,
        b"in" => Kind::In,
        b"out" => Kind::Out,
        b"if" => Kind::If,
        b"then" => Kind::Then,
        b"else" => Kind::Else,
        b"new" => Kind::New,
        b"query" => Kind::Query,
        b"trace_equiv" => Kind::TraceEquiv,
        b"private" => Kind::Private,
        _ => Kind::Ident,
    }
}
#[inline(never)]
pub fn tokens(b: &[u8]) -> Result<Vec<Token>, Fault> {
    let mut out = Vec::new();
    let mut i = 0usize;
    let mut line = 1u32;
    let mut ls = 0usize;
    while i < b.len() {
        let c = b[i];
        let fault = |kind| Fault {
            line,
            column: (i - ls + 1) as u32,
            kind,
        };
        match c {
            b' ' | b'\t' | b'\r' => {
                i += 1;
                continue;
            }
            b'\n' => {
                i += 1;
                line += 1;
                ls = i;
                continue;
            }
            b'(' if b.get(i + 1) == Some(&b'*') => {
                let mut j = i + 2;
                let mut depth = 0usize;
                let (mut l, mut s) = (line, ls);
                loop {
                    if j + 1 >= b.len() {
                        return Err(fault(FaultKind::OpenComment));
                    }
                    match (b[j], b[j + 1]) {
                        (b'*', b')') => {
                            j += 2;
                            if depth == 0 {
                                break;
                            }
                            depth -= 1;
                        }
                        (b'(', b'*') => {
                            j += 2;
                            depth += 1;
                        }
                        (b'\n', _) => {
                            j += 1;
                            l += 1;
                            s = j;
                        }
                        _ => j += 1,
                    }
                }
                i = j;
                line = l;
                ls = s;
                continue;
            }
            _ => {}
        }
        let (kind, len) = match c {
            b'a'..=b'z' | b'A'..=b'Z' => {
                let mut n = 1;
                while i + n < b.len()
                    && matches!(b[i + n], b'a'..=b'z' | b'A'..=b'Z' | b'0'..=b'9' | b'_' | b'\'')
                {
                    n += 1;
                }
                if n > 64 {
                    return Err(fault(FaultKind::LongName));
                }
                (keyword(&b[i..i + n]), n)
            }
            b'0'..=b'9' => {
                let mut n = 1;
                let mut v = (c - b'0') as u32;
                while i + n < b.len() && b[i + n].is_ascii_digit() {
                    if v <= 1_000_000 {
                        v = v * 10 + (b[i + n] - b'0') as u32;
                    }
                    n += 1;
                }
                if n > 1 && c == b'0' {
                    return Err(fault(FaultKind::BadNumber));
                }
                if v > 1_000_000 {
                    return Err(fault(FaultKind::LargeNumber));
                }
                (Kind::Number, n)
            }
            b'(' => (Kind::OP, 1),
            b')' => (Kind::CP, 1),
            b'[' => (Kind::OB, 1),
            b']' => (Kind::CB, 1),
            b',' => (Kind::Comma, 1),
            b';' => (Kind::Semi, 1),
            b'.' => (Kind::Dot, 1),
            b'/' => (Kind::Slash, 1),
            b'=' => (Kind::Eq, 1),
            b'|' => (Kind::Bar, 1),
            b'+' => (Kind::Plus, 1),
            b'!' => (Kind::Bang, 1),
            b'^' => (Kind::Caret, 1),
            b'-' if b.get(i + 1) == Some(&b'>') => (Kind::Arrow, 2),
            _ => return Err(fault(FaultKind::BadByte)),
        };
        out.push(Token {
            kind,
            start: i as u32,
            end: (i + len) as u32,
            line,
            column: (i - ls + 1) as u32,
        });
        i += len;
    }
    Ok(out)
}
