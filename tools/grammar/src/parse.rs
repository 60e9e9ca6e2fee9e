//! A line of text as a statement; names are not looked up yet.
use crate::lex::{too_large, Kind, Lexeme};
use crate::model::{Condition, Function, Item};
use crate::source::{fault, Fault, Span};
use crate::suggest::nearest;

/// A name where it stands.
#[derive(Clone, Debug)]
pub struct Word {
    pub text: String,
    pub span: Span,
}

/// An attribute as it is written: `n`, or `L.n` with a symbol on the right side.
#[derive(Clone, Debug)]
pub struct Reference {
    pub symbol: Option<Word>,
    pub attribute: Word,
}

impl Reference {
    pub fn span(&self) -> Span {
        match &self.symbol {
            Some(symbol) => symbol.span.to(self.attribute.span),
            None => self.attribute.span,
        }
    }
}

#[derive(Clone, Debug)]
pub enum Statement {
    /// Tokens, and the attribute of those that carry a value.
    Tokens {
        names: Vec<Word>,
        carried: Option<Word>,
    },
    Part {
        name: Word,
        takes: Vec<Word>,
        gives: Vec<Word>,
    },
    Start {
        part: Word,
        result: Word,
    },
    Production {
        left: Word,
        right: Vec<Word>,
    },
    Item(Item<Reference>),
}

const RESERVED: [&str; 6] = ["token", "part", "start", "nothing", "max", "min"];

/// The statement of a line that is not empty.
pub fn statement(line: &[Lexeme]) -> Result<Statement, Fault> {
    let mut c = Cursor { line, at: 0 };
    c.is_meant()?;
    let found = match &line[0].kind {
        Kind::Name(w) if w == "token" => c.tokens("->"),
        Kind::Name(w) if w == "terminal" && c.second_is_name() => c.tokens(":"),
        Kind::Name(w) if w == "part" => c.part(),
        Kind::Name(w) if w == "start" => c.start(),
        Kind::Name(_) if c.second_is(":") => c.production(),
        _ if line.iter().any(|l| l.kind == Kind::Mark("<=")) => c.condition(),
        _ => c.rule(),
    }?;
    match line.get(c.at) {
        None => Ok(found),
        Some(l) => fault(l.span, format!("expected the end of the line, found {}{}", shown(&l.kind), c.too_much())),
    }
}

fn shown(kind: &Kind) -> String {
    match kind {
        Kind::Name(w) => format!("`{w}`"),
        Kind::Number(n) => format!("`{n}`"),
        Kind::Mark(m) => format!("`{m}`"),
    }
}

fn fits(number: i64, span: Span) -> Result<i32, Fault> {
    i32::try_from(number).or_else(|_| too_large(&number.to_string(), span))
}

struct Cursor<'a> {
    line: &'a [Lexeme],
    at: usize,
}

impl Cursor<'_> {
    /// Turns back lines that look like a statement of another form, and says which form was meant.
    fn is_meant(&self) -> Result<(), Fault> {
        let [Lexeme { kind: Kind::Name(first), span }, second, ..] = self.line else { return Ok(()) };
        let declares = ["token", "part", "start"];
        let is_name = matches!(second.kind, Kind::Name(_));
        if is_name && first != "terminal" && !declares.contains(&first.as_str()) {
            if let Some(word) = nearest(first, declares) {
                return fault(*span, format!("`{first}` begins no line; did you mean `{word}`, in small letters?"));
            }
        }
        if second.kind == Kind::Mark("->") && !declares.contains(&first.as_str()) {
            return fault(second.span, format!("a production is written `{first}: ...`, a declaration `part {first} -> ...`"));
        }
        Ok(())
    }

    /// What to say of something after a statement that was whole.
    fn too_much(&self) -> &'static str {
        let before = self.at.checked_sub(1).map(|i| &self.line[i].kind);
        let number = |kind: Option<&Kind>| matches!(kind, Some(Kind::Number(_)));
        let after = self.line.get(self.at + 1).map(|l| &l.kind);
        match self.kind() {
            Some(Kind::Mark("," | ".")) if number(before) && number(after) => "; numbers are whole and written without marks, as in `1000`",
            Some(Kind::Mark("+" | "-" | "*" | "/")) if self.line.iter().any(|l| l.kind == Kind::Mark("=")) => {
                "; a rule has one function: a part that reads nothing can compute the rest"
            }
            _ => "",
        }
    }

    fn kind(&self) -> Option<&Kind> {
        self.line.get(self.at).map(|l| &l.kind)
    }

    fn is(&self, mark: &str) -> bool {
        matches!(self.kind(), Some(Kind::Mark(m)) if *m == mark)
    }

    fn second_is(&self, mark: &str) -> bool {
        matches!(self.line.get(1), Some(Lexeme { kind: Kind::Mark(m), .. }) if *m == mark)
    }

    fn second_is_name(&self) -> bool {
        matches!(self.line.get(1), Some(Lexeme { kind: Kind::Name(_), .. }))
    }

    fn is_word(&self, word: &str) -> bool {
        matches!(self.kind(), Some(Kind::Name(w)) if w == word)
    }

    fn is_number(&self) -> bool {
        let at = self.at + self.is("-") as usize;
        matches!(self.line.get(at), Some(Lexeme { kind: Kind::Number(_), .. }))
    }

    /// Steps over a mark if it stands here.
    fn skip(&mut self, mark: &str) -> bool {
        let here = self.is(mark);
        self.at += here as usize;
        here
    }

    fn expected<T>(&self, what: &str) -> Result<T, Fault> {
        match self.line.get(self.at) {
            Some(l) => fault(l.span, format!("expected {what}, found {}", shown(&l.kind))),
            None => fault(self.line[self.line.len() - 1].span.after(), format!("expected {what}, but the line ends here")),
        }
    }

    fn expect(&mut self, mark: &str) -> Result<(), Fault> {
        if self.skip(mark) {
            return Ok(());
        }
        self.expected(&format!("`{mark}`"))
    }

    fn name(&mut self, what: &str) -> Result<Word, Fault> {
        let Some(Lexeme { kind: Kind::Name(text), span }) = self.line.get(self.at) else { return self.expected(what) };
        if RESERVED.contains(&text.as_str()) {
            return fault(*span, format!("`{text}` is a word of the grammar language and cannot be a name"));
        }
        self.at += 1;
        Ok(Word { text: text.clone(), span: *span })
    }

    /// A number with its sign, at least the digits; the caller has looked with `is_number`.
    fn number(&mut self) -> Result<(i64, Span), Fault> {
        let first = self.at;
        let minus = self.skip("-");
        let Some(Kind::Number(n)) = self.kind() else { return self.expected("a number") };
        let value = if minus { -n } else { *n };
        self.at += 1;
        Ok((value, self.line[first].span.to(self.line[self.at - 1].span)))
    }

    fn constant(&mut self) -> Result<i32, Fault> {
        let (number, span) = self.number()?;
        fits(number, span)
    }

    fn names(&mut self, what: &str) -> Result<Vec<Word>, Fault> {
        let mut found = vec![self.name(what)?];
        while self.skip(",") {
            found.push(self.name(what)?);
        }
        Ok(found)
    }

    /// `token word -> length`, or in 01's word `terminal word : length`.
    fn tokens(&mut self, mark: &str) -> Result<Statement, Fault> {
        self.at += 1;
        let mut names = vec![self.name("the name of a token")?];
        while self.kind().is_some() && !self.is(mark) {
            names.push(self.name("the name of a token")?);
        }
        let carried = if self.skip(mark) { Some(self.name("the name of an attribute")?) } else { None };
        Ok(Statement::Tokens { names, carried })
    }

    fn part(&mut self) -> Result<Statement, Fault> {
        self.at += 1;
        let name = self.name("the name of a part")?;
        let mut takes = Vec::new();
        if self.skip("(") {
            takes = self.names("the name of an attribute")?;
            self.expect(")")?;
        }
        let gives = if self.skip("->") { self.names("the name of an attribute")? } else { Vec::new() };
        Ok(Statement::Part { name, takes, gives })
    }

    fn start(&mut self) -> Result<Statement, Fault> {
        self.at += 1;
        let part = self.name("the name of a part")?;
        self.expect(".")?;
        Ok(Statement::Start { part, result: self.name("the name of an attribute")? })
    }

    fn production(&mut self) -> Result<Statement, Fault> {
        let left = self.name("the name of a part")?;
        self.expect(":")?;
        let mut right = Vec::new();
        if self.is_word("nothing") {
            self.at += 1;
            return Ok(Statement::Production { left, right });
        }
        right.push(self.name("a token, a part or `nothing`")?);
        while self.kind().is_some() {
            right.push(self.name("a token or a part")?);
        }
        Ok(Statement::Production { left, right })
    }

    fn reference(&mut self, what: &str) -> Result<Reference, Fault> {
        let first = self.name(what)?;
        if !self.skip(".") {
            return Ok(Reference { symbol: None, attribute: first });
        }
        Ok(Reference { symbol: Some(first), attribute: self.name("the name of an attribute")? })
    }

    fn rule(&mut self) -> Result<Statement, Fault> {
        let target = self.reference("a declaration, a production, a rule or a condition")?;
        if target.symbol.is_none() && self.kind().is_none() {
            return self.expected("`:`, `=` or `<=`");
        }
        self.expect("=")?;
        Ok(Statement::Item(Item::Rule(target, self.function()?)))
    }

    fn function(&mut self) -> Result<Function<Reference>, Fault> {
        if self.is_word("max") || self.is_word("min") {
            return self.choice();
        }
        if self.is_number() {
            let c = self.constant()?;
            if !self.skip("+") {
                return Ok(Function::Const(c));
            }
            if self.is_number() {
                return self.expected("an attribute (the sum of two numbers is written as one)");
            }
            return Ok(Function::AddC(self.reference("an attribute")?, c));
        }
        let a = self.reference("an attribute, a number, `max` or `min`")?;
        if self.skip("+") {
            return Ok(if self.is_number() { Function::AddC(a, self.constant()?) } else { Function::Sum(a, self.operand()?) });
        }
        if self.skip("-") {
            return self.less(a);
        }
        if self.skip("*") {
            if self.is_number() {
                return self.expected("an attribute (a product is of two attributes)");
            }
            return Ok(Function::Prod(a, self.operand()?));
        }
        if self.skip("/") {
            if !self.is_number() {
                return self.expected("a number (a quotient is by a number from 1 to 1000000)");
            }
            return Ok(Function::Quot(a, self.constant()?));
        }
        Ok(Function::Copy(a))
    }

    fn operand(&mut self) -> Result<Reference, Fault> {
        self.reference("an attribute or a number")
    }

    /// What follows `a -`: an attribute, or a number whose negative is added.
    fn less(&mut self, a: Reference) -> Result<Function<Reference>, Fault> {
        if !self.is_number() {
            return Ok(Function::Diff(a, self.operand()?));
        }
        let (number, span) = self.number()?;
        Ok(Function::AddC(a, fits(-number, span)?))
    }

    fn choice(&mut self) -> Result<Function<Reference>, Fault> {
        let is_max = self.is_word("max");
        self.at += 1;
        self.expect("(")?;
        let a = self.reference("an attribute")?;
        self.expect(",")?;
        let b = self.reference("an attribute")?;
        self.expect(")")?;
        Ok(if is_max { Function::Max(a, b) } else { Function::Min(a, b) })
    }

    /// What a comparison adds to its second attribute: `+ 2` or `- 2`.
    fn plus(&mut self) -> Result<Option<i32>, Fault> {
        let sign = match (self.skip("+"), self.skip("-")) {
            (true, _) => 1,
            (_, true) => -1,
            _ => return Ok(None),
        };
        if !self.is_number() {
            return self.expected("a number (a comparison adds a number, as in `d <= a + 2`)");
        }
        let (number, span) = self.number()?;
        Ok(Some(fits(sign * number, span)?))
    }

    fn condition(&mut self) -> Result<Statement, Fault> {
        let found = if self.is_number() {
            let low = self.constant()?;
            self.expect("<=")?;
            let a = self.reference("an attribute")?;
            self.expect("<=")?;
            if !self.is_number() {
                return self.expected("a number (a range has two numbers, as in `0 <= d <= 2`)");
            }
            Condition::Range(a, low, self.constant()?)
        } else {
            let a = self.reference("an attribute or a number")?;
            self.expect("<=")?;
            if self.is_number() {
                return self.expected("an attribute (a range has two numbers, as in `0 <= d <= 2`)");
            }
            let b = self.reference("an attribute")?;
            Condition::AtMost(a, b, self.plus()?)
        };
        Ok(Statement::Item(Item::Condition(found)))
    }
}
