//! The forms that lines have, with names as they are written.

pub type Name = String;

/// A written number; one of more digits than this type holds is read as its end, beyond every range.
pub type Number = i128;

#[derive(Clone, PartialEq, Eq, Debug)]
pub enum Ref {
    Column(Name, Name),
    Own(Name),
    Time,
    Figure,
}

#[derive(Clone, PartialEq, Eq, Debug)]
pub enum Operand {
    Ref(Ref),
    Number(Number),
}

#[derive(Clone, Copy, PartialEq, Eq, Debug)]
pub enum Comparison {
    Equal,
    Unequal,
    Less,
    AtMost,
    Greater,
    AtLeast,
}

#[derive(Clone, PartialEq, Eq, Debug)]
pub enum Condition {
    Test(Comparison, Ref, Operand),
    And(Vec<Condition>),
    Or(Vec<Condition>),
    Not(Box<Condition>),
}

#[derive(Clone, Copy, PartialEq, Eq, Debug)]
pub enum Function {
    Min,
    Max,
    Count,
    Avg,
    Sum,
}

#[derive(Clone, Copy, PartialEq, Eq, Debug)]
pub enum Right {
    Read,
    Figures(Function),
}

#[derive(Clone, PartialEq, Eq, Debug)]
pub struct Equality(pub Ref, pub Ref);

#[derive(Clone, PartialEq, Eq, Debug)]
pub struct Aggregate {
    pub function: Function,
    pub column: Ref,
    pub size: Number,
    pub offset: Number,
}

/// A query over leaves: names of streams as written, numbers of grants in a route.
#[derive(Clone, PartialEq, Eq, Debug)]
pub enum Query<L = Name> {
    In(L),
    Pick(Condition, Box<Query<L>>),
    Keep(Vec<Ref>, Box<Query<L>>),
    Join(Equality, Box<Query<L>>, Box<Query<L>>),
    Aggregate(Aggregate, Box<Query<L>>),
}

#[derive(Clone, PartialEq, Eq, Debug)]
pub enum Show {
    All,
    Listed(Vec<Ref>),
}

#[derive(Clone, PartialEq, Eq, Debug)]
pub struct Grant {
    pub role: Name,
    pub right: Right,
    pub of: Vec<Name>,
    pub show: Show,
    pub when: Vec<Condition>,
    pub from: Option<Number>,
    pub to: Option<Number>,
    pub window: Option<(Number, Number)>,
}

#[derive(Clone, PartialEq, Eq, Debug, Default)]
pub struct Caller {
    pub roles: Vec<Name>,
    pub entries: Vec<(Name, Number)>,
}

#[derive(Clone, PartialEq, Eq, Debug)]
pub enum Line {
    Stream(Name, Vec<Name>),
    Grant(Grant),
    Clock(Number),
    Row(Name, Vec<Number>),
    Clear,
    Caller(Caller),
    Ask(Query),
    Line(Number, Query),
}

impl Condition {
    /// All comparisons inside, in the order written.
    pub fn tests(&self) -> Vec<(&Ref, &Operand)> {
        match self {
            Condition::Test(_, a, b) => vec![(a, b)],
            Condition::And(list) | Condition::Or(list) => tests_of(list),
            Condition::Not(inner) => inner.tests(),
        }
    }

    pub fn refs(&self) -> Vec<&Ref> {
        let tests = self.tests().into_iter();
        tests
            .flat_map(|(a, b)| match b {
                Operand::Ref(b) => vec![a, b],
                Operand::Number(_) => vec![a],
            })
            .collect()
    }
}

pub fn tests_of(conditions: &[Condition]) -> Vec<(&Ref, &Operand)> {
    conditions.iter().flat_map(Condition::tests).collect()
}

impl<L> Query<L> {
    /// The queries directly inside this form, left before right.
    pub fn inside(&self) -> Vec<&Query<L>> {
        match self {
            Query::In(_) => vec![],
            Query::Pick(_, q) | Query::Keep(_, q) | Query::Aggregate(_, q) => vec![q],
            Query::Join(_, left, right) => vec![left, right],
        }
    }

    /// This form and all inside it, outer before inner and left before right.
    pub fn forms(&self) -> Vec<&Query<L>> {
        let mut all = vec![self];
        all.extend(self.inside().into_iter().flat_map(Query::forms));
        all
    }

    pub fn has_join(&self) -> bool {
        self.forms()
            .iter()
            .any(|form| matches!(form, Query::Join(..)))
    }

    pub fn has_aggregate(&self) -> bool {
        self.forms()
            .iter()
            .any(|form| matches!(form, Query::Aggregate(..)))
    }

    pub fn conditions(&self) -> Vec<&Condition> {
        let forms = self.forms().into_iter();
        forms
            .filter_map(|form| match form {
                Query::Pick(condition, _) => Some(condition),
                _ => None,
            })
            .collect()
    }

    /// All that a form names where a column may stand.
    pub fn refs(&self) -> Vec<&Ref> {
        self.forms().into_iter().flat_map(Query::own_refs).collect()
    }

    fn own_refs(&self) -> Vec<&Ref> {
        match self {
            Query::In(_) => vec![],
            Query::Pick(condition, _) => condition.refs(),
            Query::Keep(columns, _) => columns.iter().collect(),
            Query::Join(Equality(a, b), _, _) => vec![a, b],
            Query::Aggregate(aggregate, _) => vec![&aggregate.column],
        }
    }
}

impl Query {
    /// The streams read, in the order of their `in` forms.
    pub fn streams(&self) -> Vec<&Name> {
        let forms = self.forms().into_iter();
        forms
            .filter_map(|form| match form {
                Query::In(name) => Some(name),
                _ => None,
            })
            .collect()
    }
}

impl Grant {
    pub fn refs(&self) -> Vec<&Ref> {
        let listed: &[Ref] = match &self.show {
            Show::All => &[],
            Show::Listed(refs) => refs,
        };
        let conditions = self.when.iter().flat_map(Condition::refs);
        listed.iter().chain(conditions).collect()
    }
}
