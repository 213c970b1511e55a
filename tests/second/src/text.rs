//! Text to forms: what is not read here is refusal 1.

use crate::forms::{
    Aggregate, Caller, Comparison, Condition, Equality, Function, Grant, Line, Name, Number,
    Operand, Query, Ref, Right, Show,
};

/// What was read, with how many brackets of it are open at once.
pub struct Written<T> {
    pub form: T,
    pub depth: usize,
}

enum Tree<'t> {
    Word(&'t [u8]),
    List(Vec<Tree<'t>>),
}

pub fn read_line(text: &[u8]) -> Option<Written<Line>> {
    let tree = whole_tree(text)?;
    let form = line(&tree)?;
    let outside = usize::from(matches!(form, Line::Ask(_) | Line::Line(..)));
    let depth = tree.depth() - outside;
    Some(Written { form, depth })
}

pub fn read_query(text: &[u8]) -> Option<Written<Query>> {
    let tree = whole_tree(text)?;
    let form = query(&tree)?;
    let depth = tree.depth();
    Some(Written { form, depth })
}

fn whole_tree(text: &[u8]) -> Option<Tree<'_>> {
    match tree(text)? {
        (tree, []) => Some(tree),
        _ => None,
    }
}

fn tree(text: &[u8]) -> Option<(Tree<'_>, &[u8])> {
    let Some(mut rest) = text.strip_prefix(b"(") else {
        return word(text);
    };
    let mut items = vec![];
    loop {
        let (item, after) = tree(rest)?;
        items.push(item);
        match after {
            [b' ', after @ ..] => rest = after,
            [b')', after @ ..] => return Some((Tree::List(items), after)),
            _ => return None,
        }
    }
}

fn word(text: &[u8]) -> Option<(Tree<'_>, &[u8])> {
    let ends = |byte: &u8| matches!(byte, b' ' | b'(' | b')');
    let length = text.iter().position(ends).unwrap_or(text.len());
    let (word, rest) = text.split_at(length);
    (length > 0).then_some((Tree::Word(word), rest))
}

impl<'t> Tree<'t> {
    fn depth(&self) -> usize {
        match self {
            Tree::Word(_) => 0,
            Tree::List(items) => 1 + items.iter().map(Tree::depth).max().unwrap_or(0),
        }
    }

    fn as_word(&self) -> Option<&'t [u8]> {
        match self {
            Tree::Word(word) => Some(word),
            Tree::List(_) => None,
        }
    }

    /// The first word of a bracket and what follows it.
    fn headed(&self) -> Option<(&'t [u8], &[Tree<'t>])> {
        let Tree::List(items) = self else {
            return None;
        };
        let (head, rest) = items.split_first()?;
        Some((head.as_word()?, rest))
    }

    fn part(&self, head: &[u8]) -> Option<&[Tree<'t>]> {
        let (found, items) = self.headed()?;
        (found == head).then_some(items)
    }
}

fn line(tree: &Tree) -> Option<Line> {
    match tree.headed()? {
        (b"stream", [stream, columns @ ..]) => {
            Some(Line::Stream(name(stream)?, some(columns, name)?))
        }
        (b"grant", [role, right, parts @ ..]) => {
            Some(Line::Grant(grant(name(role)?, self::right(right)?, parts)?))
        }
        (b"clock", [time]) => Some(Line::Clock(number(time)?)),
        (b"row", [stream, values @ ..]) => Some(Line::Row(name(stream)?, some(values, number)?)),
        (b"clear", []) => Some(Line::Clear),
        (b"caller", [roles, entries @ ..]) => Some(Line::Caller(Caller {
            roles: each(roles.part(b"roles")?, name)?,
            entries: each(entries, entry)?,
        })),
        (b"ask", [asked]) => Some(Line::Ask(query(asked)?)),
        (b"line", [route, asked]) => Some(Line::Line(number(route)?, query(asked)?)),
        _ => None,
    }
}

fn entry(tree: &Tree) -> Option<(Name, Number)> {
    match tree.part(b"self")? {
        [entry, value] => Some((name(entry)?, number(value)?)),
        _ => None,
    }
}

fn grant(role: Name, right: Right, parts: &[Tree]) -> Option<Grant> {
    let [of, show, rest @ ..] = parts else {
        return None;
    };
    let mut rest = rest;
    let when = optional(&mut rest, b"when");
    let from = optional(&mut rest, b"from");
    let to = optional(&mut rest, b"to");
    let window = optional(&mut rest, b"window");
    if !rest.is_empty() {
        return None;
    }
    Some(Grant {
        role,
        right,
        of: some(of.part(b"of")?, name)?,
        show: shown(show.part(b"show")?)?,
        when: when.map_or(Some(vec![]), |items| some(items, condition))?,
        from: given(from, one_number)?,
        to: given(to, one_number)?,
        window: given(window, two_numbers)?,
    })
}

/// Takes the next part if it has this head.
fn optional<'p, 't>(parts: &mut &'p [Tree<'t>], head: &[u8]) -> Option<&'p [Tree<'t>]> {
    let (first, rest) = parts.split_first()?;
    let items = first.part(head)?;
    *parts = rest;
    Some(items)
}

fn given<T>(part: Option<&[Tree]>, read: fn(&[Tree]) -> Option<T>) -> Option<Option<T>> {
    match part {
        None => Some(None),
        Some(items) => read(items).map(Some),
    }
}

fn one_number(items: &[Tree]) -> Option<Number> {
    match items {
        [one] => number(one),
        _ => None,
    }
}

fn two_numbers(items: &[Tree]) -> Option<(Number, Number)> {
    match items {
        [first, second] => Some((number(first)?, number(second)?)),
        _ => None,
    }
}

fn shown(items: &[Tree]) -> Option<Show> {
    match items {
        [Tree::Word(b"*")] => Some(Show::All),
        _ => Some(Show::Listed(some(items, reference)?)),
    }
}

fn query(tree: &Tree) -> Option<Query> {
    match tree.headed()? {
        (b"in", [stream]) => Some(Query::In(name(stream)?)),
        (b"pick", [test, below]) => Some(Query::Pick(condition(test)?, boxed(below)?)),
        (b"keep", [columns @ .., below]) => {
            Some(Query::Keep(some(columns, reference)?, boxed(below)?))
        }
        (b"join", [equality, left, right]) => {
            Some(Query::Join(equal(equality)?, boxed(left)?, boxed(right)?))
        }
        (head, [column, size, offset, below]) => {
            let aggregate = Aggregate {
                function: function(head)?,
                column: reference(column)?,
                size: number(size)?,
                offset: number(offset)?,
            };
            Some(Query::Aggregate(aggregate, boxed(below)?))
        }
        _ => None,
    }
}

fn boxed(tree: &Tree) -> Option<Box<Query>> {
    query(tree).map(Box::new)
}

fn equal(tree: &Tree) -> Option<Equality> {
    match tree.part(b"=")? {
        [a, b] => Some(Equality(reference(a)?, reference(b)?)),
        _ => None,
    }
}

fn condition(tree: &Tree) -> Option<Condition> {
    match tree.headed()? {
        (b"and", list) => Some(Condition::And(some(list, condition)?)),
        (b"or", list) => Some(Condition::Or(some(list, condition)?)),
        (b"not", [inner]) => Some(Condition::Not(Box::new(condition(inner)?))),
        (sign, [a, b]) => Some(Condition::Test(
            comparison(sign)?,
            reference(a)?,
            operand(b)?,
        )),
        _ => None,
    }
}

fn comparison(sign: &[u8]) -> Option<Comparison> {
    match sign {
        b"=" => Some(Comparison::Equal),
        b"/=" => Some(Comparison::Unequal),
        b"<" => Some(Comparison::Less),
        b"<=" => Some(Comparison::AtMost),
        b">" => Some(Comparison::Greater),
        b">=" => Some(Comparison::AtLeast),
        _ => None,
    }
}

fn operand(tree: &Tree) -> Option<Operand> {
    match number(tree) {
        Some(number) => Some(Operand::Number(number)),
        None => reference(tree).map(Operand::Ref),
    }
}

fn right(tree: &Tree) -> Option<Right> {
    match tree.as_word()? {
        b"read" => Some(Right::Read),
        word => function(word).map(Right::Figures),
    }
}

fn function(word: &[u8]) -> Option<Function> {
    match word {
        b"min" => Some(Function::Min),
        b"max" => Some(Function::Max),
        b"count" => Some(Function::Count),
        b"avg" => Some(Function::Avg),
        b"sum" => Some(Function::Sum),
        _ => None,
    }
}

fn reference(tree: &Tree) -> Option<Ref> {
    let word = tree.as_word()?;
    let Some(dot) = word.iter().position(|&byte| byte == b'.') else {
        return match word {
            b"time" => Some(Ref::Time),
            b"figure" => Some(Ref::Figure),
            _ => None,
        };
    };
    let (stream, column) = (name_of(&word[..dot])?, name_of(&word[dot + 1..])?);
    match stream.as_str() {
        "self" => Some(Ref::Own(column)),
        _ => Some(Ref::Column(stream, column)),
    }
}

fn name(tree: &Tree) -> Option<Name> {
    name_of(tree.as_word()?)
}

/// A name of any length: its bound is tried later.
pub fn name_of(word: &[u8]) -> Option<Name> {
    let (first, rest) = word.split_first()?;
    let others = |byte: &u8| byte.is_ascii_lowercase() || byte.is_ascii_digit();
    if !first.is_ascii_lowercase() || !rest.iter().all(others) {
        return None;
    }
    Some(word.iter().map(|&byte| char::from(byte)).collect())
}

fn number(tree: &Tree) -> Option<Number> {
    let word = tree.as_word()?;
    let (negative, digits) = match word.strip_prefix(b"-") {
        Some(digits) => (true, digits),
        None => (false, word),
    };
    let canonical = match digits {
        [] => false,
        [b'0'] => !negative,
        [first, ..] => *first != b'0' && digits.iter().all(u8::is_ascii_digit),
    };
    canonical.then(|| signed(negative, digits))
}

fn signed(negative: bool, digits: &[u8]) -> Number {
    let sign = if negative { -1 } else { 1 };
    digits.iter().fold(0, |number: Number, digit| {
        number
            .saturating_mul(10)
            .saturating_add(sign * Number::from(digit - b'0'))
    })
}

fn each<T>(items: &[Tree], read: fn(&Tree) -> Option<T>) -> Option<Vec<T>> {
    items.iter().map(read).collect()
}

/// One or more.
fn some<T>(items: &[Tree], read: fn(&Tree) -> Option<T>) -> Option<Vec<T>> {
    if items.is_empty() {
        return None;
    }
    each(items, read)
}
