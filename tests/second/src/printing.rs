//! Queries and answers as text.

use crate::answering::Answer;
use crate::forms::{Comparison, Condition, Equality, Function, Operand, Query, Ref};

pub fn query(query: &Query) -> String {
    match query {
        Query::In(stream) => format!("(in {stream})"),
        Query::Pick(test, inner) => format!("(pick {} {})", condition(test), self::query(inner)),
        Query::Keep(columns, inner) => {
            let columns: Vec<String> = columns.iter().map(reference).collect();
            format!("(keep {} {})", columns.join(" "), self::query(inner))
        }
        Query::Join(Equality(a, b), left, right) => {
            let (a, b) = (reference(a), reference(b));
            let (left, right) = (self::query(left), self::query(right));
            format!("(join (= {a} {b}) {left} {right})")
        }
        Query::Aggregate(aggregate, inner) => format!(
            "({} {} {} {} {})",
            function(aggregate.function),
            reference(&aggregate.column),
            aggregate.size,
            aggregate.offset,
            self::query(inner)
        ),
    }
}

fn condition(test: &Condition) -> String {
    match test {
        Condition::And(list) => format!("(and {})", conditions(list)),
        Condition::Or(list) => format!("(or {})", conditions(list)),
        Condition::Not(inner) => format!("(not {})", condition(inner)),
        Condition::Test(sign, a, b) => {
            format!("({} {} {})", comparison(*sign), reference(a), operand(b))
        }
    }
}

fn conditions(list: &[Condition]) -> String {
    let texts: Vec<String> = list.iter().map(condition).collect();
    texts.join(" ")
}

fn comparison(comparison: Comparison) -> &'static str {
    match comparison {
        Comparison::Equal => "=",
        Comparison::Unequal => "/=",
        Comparison::Less => "<",
        Comparison::AtMost => "<=",
        Comparison::Greater => ">",
        Comparison::AtLeast => ">=",
    }
}

fn reference(reference: &Ref) -> String {
    match reference {
        Ref::Column(stream, column) => format!("{stream}.{column}"),
        Ref::Own(name) => format!("self.{name}"),
        Ref::Time => "time".to_string(),
        Ref::Figure => "figure".to_string(),
    }
}

fn operand(operand: &Operand) -> String {
    match operand {
        Operand::Number(number) => number.to_string(),
        Operand::Ref(named) => reference(named),
    }
}

fn function(function: Function) -> &'static str {
    match function {
        Function::Min => "min",
        Function::Max => "max",
        Function::Count => "count",
        Function::Avg => "avg",
        Function::Sum => "sum",
    }
}

/// The lines that an answer prints.
pub fn answer(answer: &Answer) -> Vec<String> {
    let spaced = |cells: Vec<i64>| -> String {
        let texts: Vec<String> = cells.iter().map(i64::to_string).collect();
        texts.join(" ")
    };
    let mut lines = vec![format!("routes {}", answer.routes.len())];
    for route in &answer.routes {
        lines.push(format!("route {}", spaced(route.header_cells())));
        lines.extend(route.row_cells().into_iter().map(spaced));
    }
    lines
}
