//! Builds an operator (`wide` or `deep`), runs the passes over it 20,000 times, and writes how many nodes it and the last
//! result have. Every operand is an `int32_t` here, so that only values and nodes count.

// the passes treat every kind, and these operators have some
#![allow(dead_code)]

#[derive(Clone, Copy, PartialEq)]
enum Op {
    Add,
    Sub,
    Mul,
    Shl,
}

enum Expr {
    Literal(u32),
    Scalar(String),
    Binary(Op, Box<Expr>, Box<Expr>),
}

enum Statement {
    Assign(String, Expr),
    Write(String, Expr),
    If(Expr, Vec<Statement>, Vec<Statement>),
    While(Expr, Vec<Statement>),
    Return,
}

fn literal(e: &Expr) -> Option<u32> {
    match e {
        Expr::Literal(v) => Some(*v),
        _ => None,
    }
}

fn apply(o: Op, v: u32, w: u32) -> u32 {
    match o {
        Op::Add => v.wrapping_add(w),
        Op::Sub => v.wrapping_sub(w),
        Op::Mul => v.wrapping_mul(w),
        Op::Shl => v.wrapping_shl(w),
    }
}

fn shifted(e: Expr, v: u32) -> Expr {
    Expr::Binary(Op::Shl, Box::new(e), Box::new(Expr::Literal(v.trailing_zeros())))
}

fn is_power(v: Option<u32>) -> bool {
    v.is_some_and(|v| v > 1 && v.is_power_of_two())
}

fn infix(o: Op, a: Expr, b: Expr) -> Expr {
    match (o, literal(&a), literal(&b)) {
        (_, Some(v), Some(w)) => Expr::Literal(apply(o, v, w)),
        (Op::Mul, Some(0), _) | (Op::Mul, _, Some(0)) => Expr::Literal(0),
        (Op::Mul, _, Some(1)) | (Op::Add | Op::Sub, _, Some(0)) => a,
        (Op::Mul, Some(1), _) | (Op::Add, Some(0), _) => b,
        (Op::Mul, _, Some(v)) if is_power(Some(v)) => shifted(a, v),
        (Op::Mul, Some(v), _) if is_power(Some(v)) => shifted(b, v),
        _ => Expr::Binary(o, Box::new(a), Box::new(b)),
    }
}

fn value(e: &Expr) -> Expr {
    match e {
        Expr::Literal(v) => Expr::Literal(*v),
        Expr::Scalar(name) => Expr::Scalar(name.clone()),
        Expr::Binary(o, a, b) => infix(*o, value(a), value(b)),
    }
}

// Adds what a block becomes, and tells whether a return is among it.
fn add_block(body: &[Statement], made: &mut Vec<Statement>) -> bool {
    body.iter().any(|s| add_statement(s, made))
}

fn block(body: &[Statement]) -> Vec<Statement> {
    let mut made = Vec::new();
    add_block(body, &mut made);
    made
}

fn add_statement(s: &Statement, made: &mut Vec<Statement>) -> bool {
    match s {
        Statement::Assign(name, e) => made.push(Statement::Assign(name.clone(), value(e))),
        Statement::Write(name, e) => made.push(Statement::Write(name.clone(), value(e))),
        Statement::If(test, yes, no) => {
            let test = value(test);
            match literal(&test) {
                Some(0) => return add_block(no, made),
                Some(_) => return add_block(yes, made),
                None => made.push(Statement::If(test, block(yes), block(no))),
            }
        }
        Statement::While(test, body) => {
            let test = value(test);
            if literal(&test) != Some(0) {
                made.push(Statement::While(test, block(body)));
            }
        }
        Statement::Return => {
            made.push(Statement::Return);
            return true;
        }
    }
    false
}

fn value_nodes(e: &Expr) -> u32 {
    match e {
        Expr::Binary(_, a, b) => 1 + value_nodes(a) + value_nodes(b),
        _ => 1,
    }
}

fn nodes(body: &[Statement]) -> u32 {
    body.iter().map(statement_nodes).sum()
}

fn statement_nodes(s: &Statement) -> u32 {
    match s {
        Statement::Assign(_, e) | Statement::Write(_, e) => 1 + value_nodes(e),
        Statement::If(test, yes, no) => 1 + value_nodes(test) + nodes(yes) + nodes(no),
        Statement::While(test, body) => 1 + value_nodes(test) + nodes(body),
        Statement::Return => 1,
    }
}

fn binary(o: Op, a: Expr, b: Expr) -> Expr {
    Expr::Binary(o, Box::new(a), Box::new(b))
}

fn scalar() -> Expr {
    Expr::Scalar("x".to_string())
}

// x = x * 8 + 0; 166 times
fn wide() -> Vec<Statement> {
    let term = || binary(Op::Add, binary(Op::Mul, scalar(), Expr::Literal(8)), Expr::Literal(0));
    (0..166).map(|_| Statement::Assign("x".to_string(), term())).collect()
}

// 30 times if (x) { in one another, round write(b, x + x * 8 + x * 8 ..) with 234 products
fn deep() -> Vec<Statement> {
    let product = || binary(Op::Mul, scalar(), Expr::Literal(8));
    let sum = (0..234).fold(scalar(), |sum, _| binary(Op::Add, sum, product()));
    (0..30).fold(vec![Statement::Write("b".to_string(), sum)], |body, _| vec![Statement::If(scalar(), body, Vec::new())])
}

fn main() {
    let body = if std::env::args().nth(1).as_deref() == Some("wide") { wide() } else { deep() };
    let mut after = 0;
    for _ in 0..20_000 {
        after = nodes(&block(&body));
    }
    println!("{} {after}", nodes(&body));
}
