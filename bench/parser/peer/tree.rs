// The tree, with the fields of the tool's.
#![allow(dead_code)]

use crate::items::{Boxed, Items};

pub type Name = Items<u8>;

#[derive(Clone, Copy, Debug, PartialEq)]
pub enum Op {
    Or,
    And,
    Eq,
    Ne,
    Lt,
    Le,
    Gt,
    Ge,
    Add,
    Sub,
    Mul,
    Div,
    Rem,
}

#[derive(Debug)]
pub enum Expr {
    Number(u32),
    Name(Name),
    Element { name: Name, index: Boxed<Expr> },
    Arg(Name),
    Not(Boxed<Expr>),
    Minus(Boxed<Expr>),
    Binary { op: Op, left: Boxed<Expr>, right: Boxed<Expr> },
}

#[derive(Debug)]
pub struct Place {
    pub name: Name,
    pub index: Option<Expr>,
}

#[derive(Debug)]
pub struct Stmt {
    pub line: u32,
    pub act: Act,
}

pub type Stmts = Items<Stmt>;

#[derive(Debug)]
pub enum Act {
    Declare { name: Name, value: Option<Expr> },
    Assign { target: Place, value: Expr },
    Call { target: Option<Place>, function: Name, args: Items<Expr> },
    If { test: Expr, then_arm: Stmts, else_arm: Stmts },
    While { test: Expr, body: Stmts },
    For { first: Stmts, test: Expr, step: Stmts, body: Stmts },
    Return { value: Option<Expr> },
    Read { target: Place },
    Print { format: Name, args: Items<Expr> },
    Create { slot: Place, function: Name, arg: Expr },
    Join { slot: Place },
    InitMutex { place: Place },
    InitCond { place: Place },
    Lock { place: Place },
    Unlock { place: Place },
    Wait { cond: Place, mutex: Place },
    Signal { cond: Place },
    Broadcast { cond: Place },
    Take { monitor: u32 },
    Give { monitor: u32 },
}

#[derive(Clone, Copy, Debug, PartialEq)]
pub enum Kind {
    Main,
    Thread,
    Int,
    Void,
}

#[derive(Debug)]
pub struct Cell {
    pub name: Name,
    pub value: i32,
    pub line: u32,
}

#[derive(Debug)]
pub struct Array {
    pub name: Name,
    pub len: u32,
    pub values: Items<i32>,
    pub line: u32,
}

#[derive(Debug)]
pub struct Object {
    pub name: Name,
    pub len: Option<u32>,
    pub ready: bool,
    pub given: u32,
    pub line: u32,
}

#[derive(Debug)]
pub struct Slot {
    pub name: Name,
    pub len: Option<u32>,
    pub line: u32,
}

#[derive(Debug)]
pub struct Function {
    pub name: Name,
    pub kind: Kind,
    pub params: Items<Name>,
    pub body: Stmts,
    pub line: u32,
    pub end_line: u32,
}

#[derive(Debug)]
pub struct Program {
    pub ints: Items<Cell>,
    pub arrays: Items<Array>,
    pub mutexes: Items<Object>,
    pub conds: Items<Object>,
    pub threads: Items<Slot>,
    pub monitors: Items<u32>,
    pub functions: Items<Function>,
    pub cap_len: u32,
    pub cap_line: u32,
    pub end_line: u32,
}
