//! Values, and what expressions come to.

use crate::code::Code;
use crate::tree::Operator;
use std::fmt::Write;
use std::rc::Rc;

#[derive(Clone)]
pub enum Value {
    Unit,
    Bool(bool),
    Integer(i64),
    Text(Rc<str>),
    Mailbox(u32),
}

impl Value {
    pub fn mailbox(&self) -> u32 {
        match self {
            Value::Mailbox(number) => *number,
            _ => unreachable!("kinds were checked"),
        }
    }

    pub fn truth(&self) -> bool {
        match self {
            Value::Bool(value) => *value,
            _ => unreachable!("kinds were checked"),
        }
    }

    pub fn write(&self, out: &mut String) {
        let _ = match self {
            Value::Unit => out.write_str("()"),
            Value::Bool(value) => write!(out, "{value}"),
            Value::Integer(value) => write!(out, "{value}"),
            Value::Text(value) => out.write_str(value),
            Value::Mailbox(number) => write!(out, "mailbox {number}"),
        };
    }
}

/// What an expression comes to, where these values stand at the places.
pub fn evaluate(places: &[Value], code: &Code) -> Value {
    match code {
        Code::Place(place) => places[*place as usize].clone(),
        Code::Constant(value) => value.clone(),
        Code::Operator(operator, sides) => applied(*operator, evaluate(places, &sides.0), evaluate(places, &sides.1)),
    }
}

fn applied(operator: Operator, left: Value, right: Value) -> Value {
    match (operator, left, right) {
        (Operator::Add, Value::Integer(left), Value::Integer(right)) => Value::Integer(left.wrapping_add(right)),
        (Operator::Subtract, Value::Integer(left), Value::Integer(right)) => Value::Integer(left.wrapping_sub(right)),
        (Operator::Multiply, Value::Integer(left), Value::Integer(right)) => Value::Integer(left.wrapping_mul(right)),
        (Operator::Less, Value::Integer(left), Value::Integer(right)) => Value::Bool(left < right),
        (Operator::Equal, Value::Integer(left), Value::Integer(right)) => Value::Bool(left == right),
        (Operator::Equal, Value::Bool(left), Value::Bool(right)) => Value::Bool(left == right),
        (Operator::Equal, Value::Text(left), Value::Text(right)) => Value::Bool(left == right),
        _ => unreachable!("kinds were checked"),
    }
}
