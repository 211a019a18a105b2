//! Plain Rust beside bench/run.sh: one form at one size, ten times.
//! `objects` makes objects with three slots each and sets them, in vectors of this file's own. The other forms evaluate one
//! expression, given as a tree, over values of the sorts that a run has: each node counts one unit against a limit, a variable is
//! looked up by its number in the scope, arithmetic is checked, and a collection is a vector of values.

use std::hint::black_box;

#[derive(Clone, Debug, PartialEq)]
enum Value {
    Null,
    Bool(bool),
    Int(i64),
    Str(String),
    Obj(u32),
    Coll(Vec<Value>),
    Invalid,
}

struct Object {
    class: u32,
    extent: u32,
    slots: Vec<Vec<Value>>,
}

fn objects(count: i64) -> usize {
    let mut store: Vec<Object> = Vec::new();
    let mut last = Value::Null;
    for i in 1..=count {
        let number = store.len() as u32;
        store.push(Object {
            class: 1,
            extent: 1,
            slots: vec![Vec::new(); 4],
        });
        let object = store.last_mut().unwrap();
        object.slots[0] = vec![Value::Int(i)];
        object.slots[1] = vec![Value::Str("x".to_string())];
        object.slots[2] = match last {
            Value::Null => Vec::new(),
            value => vec![value],
        };
        last = Value::Obj(number);
    }
    store
        .iter()
        .map(|o| o.slots.len() + (o.class + o.extent) as usize)
        .sum()
}

enum Expr {
    Int(i64),
    Name(usize),
    Plus(Box<Expr>, Box<Expr>),
    Times(Box<Expr>, Box<Expr>),
    Greater(Box<Expr>, Box<Expr>),
    Less(Box<Expr>, Box<Expr>),
    Range(i64, i64),
    Collect(Box<Expr>, Box<Expr>),
    Select(Box<Expr>, Box<Expr>),
    ForAll(Box<Expr>, Box<Expr>),
    Exists(Box<Expr>, Box<Expr>),
    Any(Box<Expr>, Box<Expr>),
    One(Box<Expr>, Box<Expr>),
    Iterate(Box<Expr>, Box<Expr>),
    Sum(Box<Expr>),
    Size(Box<Expr>),
    While(Box<Expr>, Box<Expr>),
}

use Expr::*;

struct Run {
    scope: Vec<Value>,
    cost: u64,
    fuel: u64,
}

struct Ended;

fn numbers(a: Value, b: Value, f: impl Fn(i64, i64) -> Option<i64>) -> Value {
    match (a, b) {
        (Value::Int(a), Value::Int(b)) => f(a, b).map_or(Value::Invalid, Value::Int),
        _ => Value::Invalid,
    }
}

fn compared(a: Value, b: Value, f: impl Fn(&i64, &i64) -> bool) -> Value {
    match (a, b) {
        (Value::Int(a), Value::Int(b)) => Value::Bool(f(&a, &b)),
        _ => Value::Invalid,
    }
}

fn items(value: Value) -> Vec<Value> {
    match value {
        Value::Coll(items) => items,
        value => vec![value],
    }
}

impl Run {
    fn spend(&mut self) -> Result<(), Ended> {
        self.cost += 1;
        if self.cost > self.fuel {
            Err(Ended)
        } else {
            Ok(())
        }
    }

    fn under(&mut self, item: Value, body: &Expr) -> Result<Value, Ended> {
        self.scope.push(item);
        let value = self.value(body);
        self.scope.pop();
        value
    }

    fn pair(&mut self, a: &Expr, b: &Expr) -> Result<(Value, Value), Ended> {
        let left = self.value(a)?;
        let right = self.value(b)?;
        self.spend()?;
        Ok((left, right))
    }

    fn value(&mut self, expr: &Expr) -> Result<Value, Ended> {
        match expr {
            Int(value) => {
                self.spend()?;
                Ok(Value::Int(*value))
            }
            Name(at) => {
                self.spend()?;
                Ok(self.scope[*at].clone())
            }
            Plus(a, b) => {
                let (a, b) = self.pair(a, b)?;
                Ok(numbers(a, b, i64::checked_add))
            }
            Times(a, b) => {
                let (a, b) = self.pair(a, b)?;
                Ok(numbers(a, b, i64::checked_mul))
            }
            Greater(a, b) => {
                let (a, b) = self.pair(a, b)?;
                Ok(compared(a, b, |a, b| a > b))
            }
            Less(a, b) => {
                let (a, b) = self.pair(a, b)?;
                Ok(compared(a, b, |a, b| a < b))
            }
            Range(a, b) => {
                self.cost += 2;
                self.spend()?;
                Ok(Value::Coll((*a..=*b).map(Value::Int).collect()))
            }
            Collect(source, body) => {
                let source = items(self.value(source)?);
                self.spend()?;
                let mut made = Vec::new();
                for item in source {
                    made.push(self.under(item, body)?);
                }
                Ok(Value::Coll(made))
            }
            Select(source, body) => {
                let source = items(self.value(source)?);
                self.spend()?;
                let mut made = Vec::new();
                for item in source {
                    if self.under(item.clone(), body)? == Value::Bool(true) {
                        made.push(item);
                    }
                }
                Ok(Value::Coll(made))
            }
            ForAll(source, body) => {
                let source = items(self.value(source)?);
                self.spend()?;
                for item in source {
                    if self.under(item, body)? != Value::Bool(true) {
                        return Ok(Value::Bool(false));
                    }
                }
                Ok(Value::Bool(true))
            }
            Exists(source, body) => {
                let source = items(self.value(source)?);
                self.spend()?;
                for item in source {
                    if self.under(item, body)? == Value::Bool(true) {
                        return Ok(Value::Bool(true));
                    }
                }
                Ok(Value::Bool(false))
            }
            Any(source, body) => {
                let source = items(self.value(source)?);
                self.spend()?;
                for item in source {
                    if self.under(item.clone(), body)? == Value::Bool(true) {
                        return Ok(item);
                    }
                }
                Ok(Value::Null)
            }
            One(source, body) => {
                let source = items(self.value(source)?);
                self.spend()?;
                let mut found = 0;
                for item in source {
                    if self.under(item, body)? == Value::Bool(true) {
                        found += 1;
                    }
                }
                Ok(Value::Bool(found == 1))
            }
            Iterate(source, body) => {
                let source = items(self.value(source)?);
                self.spend()?;
                let mut made = Value::Int(0);
                for item in source {
                    self.scope.push(item);
                    let value = self.under(made, body);
                    self.scope.pop();
                    made = value?;
                }
                Ok(made)
            }
            Sum(source) => {
                let source = items(self.value(source)?);
                self.spend()?;
                let mut sum = 0i64;
                for item in source {
                    match item {
                        Value::Int(value) => match sum.checked_add(value) {
                            Some(next) => sum = next,
                            None => return Ok(Value::Invalid),
                        },
                        _ => return Ok(Value::Invalid),
                    }
                }
                Ok(Value::Int(sum))
            }
            Size(source) => {
                let source = items(self.value(source)?);
                self.spend()?;
                Ok(Value::Int(source.len() as i64))
            }
            While(condition, next) => {
                while self.value(condition)? == Value::Bool(true) {
                    self.spend()?;
                    let value = self.value(next)?;
                    self.scope[0] = value;
                }
                Ok(Value::Null)
            }
        }
    }
}

fn with(scope: Vec<Value>, expr: &Expr) -> u64 {
    let mut run = Run {
        scope,
        cost: 0,
        fuel: 1_000_000_000,
    };
    match run.value(black_box(expr)) {
        Ok(value) => {
            black_box(value);
            run.cost
        }
        Err(Ended) => 0,
    }
}

fn boxed(expr: Expr) -> Box<Expr> {
    Box::new(expr)
}

fn twice(at: usize) -> Box<Expr> {
    boxed(Times(boxed(Name(at)), boxed(Int(2))))
}

fn main() {
    let words: Vec<String> = std::env::args().collect();
    let count: i64 = words[2].parse().unwrap();
    let range = || boxed(Range(1, count));
    let tree = match words[1].as_str() {
        "collect" => Some(Sum(boxed(Collect(
            range(),
            boxed(Plus(twice(0), boxed(Int(1)))),
        )))),
        "select" => Some(Size(boxed(Select(
            range(),
            boxed(Greater(twice(0), boxed(Int(1000)))),
        )))),
        "iterate" => Some(Iterate(range(), boxed(Plus(boxed(Name(1)), twice(0))))),
        "forAll" => Some(ForAll(range(), boxed(Greater(twice(0), boxed(Int(1)))))),
        "exists" => Some(Exists(range(), boxed(Less(twice(0), boxed(Int(1)))))),
        "any" => Some(Any(range(), boxed(Less(twice(0), boxed(Int(1)))))),
        "one" => Some(One(range(), boxed(Less(twice(0), boxed(Int(3)))))),
        "while" => Some(While(
            boxed(Less(boxed(Name(0)), boxed(Int(count)))),
            boxed(Plus(boxed(Name(0)), boxed(Int(1)))),
        )),
        _ => None,
    };
    for _ in 0..10 {
        match &tree {
            Some(tree) => {
                let scope = if words[1] == "while" {
                    vec![Value::Int(0)]
                } else {
                    Vec::new()
                };
                black_box(with(scope, tree));
            }
            None => {
                black_box(objects(black_box(count)));
            }
        }
    }
}
