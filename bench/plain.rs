// A plain interpreter of the loop that bench/runs times: statements and expressions as trees, values with their kinds,
// memory as blocks of cells, a stack of work that could be stopped at each tick. It proves nothing and refuses nothing
// but what the loop could do wrong.
use std::env;

#[derive(Clone, Copy, PartialEq)]
enum Kind {
    U32,
    S32,
}

#[derive(Clone, Copy)]
struct View {
    block: usize,
    first: usize,
    count: usize,
    index: usize,
}

#[derive(Clone, Copy)]
enum Value {
    Int(Kind, i128),
    Ptr(View),
}

#[derive(Clone, Copy)]
enum Operator {
    Add,
    Xor,
    Less,
}

enum Place {
    Slot(usize),
    Global(usize),
}

enum Expr {
    Lit(Value),
    Load(Place),
    Bin(Operator, Kind, Box<Expr>, Box<Expr>),
}

enum Stmt {
    Assign(Place, Expr),
    While(Expr, Vec<Stmt>),
}

#[derive(Clone, Copy, Debug)]
enum Stop {
    Dead,
    Bounds,
    Kind,
    Ticks,
}

struct Block {
    alive: bool,
    cells: Vec<Value>,
}

struct Machine {
    slots: Vec<Value>,
    blocks: Vec<Block>,
    rest: u64,
}

impl Machine {
    fn cell(&self, view: View) -> Result<(usize, usize), Stop> {
        let block = self.blocks.get(view.block).ok_or(Stop::Dead)?;
        if !block.alive {
            return Err(Stop::Dead);
        }
        if view.index >= view.count || view.first + view.index >= block.cells.len() {
            return Err(Stop::Bounds);
        }
        Ok((view.block, view.first + view.index))
    }

    fn global(&self, g: usize) -> Value {
        Value::Ptr(View { block: g, first: 0, count: 1, index: 0 })
    }

    fn load(&self, place: &Place) -> Result<Value, Stop> {
        match place {
            Place::Slot(i) => Ok(self.slots[*i]),
            Place::Global(g) => match self.global(*g) {
                Value::Ptr(view) => self.cell(view).map(|(b, c)| self.blocks[b].cells[c]),
                Value::Int(..) => Err(Stop::Kind),
            },
        }
    }

    fn store(&mut self, place: &Place, value: Value) -> Result<(), Stop> {
        match place {
            Place::Slot(i) => self.slots[*i] = value,
            Place::Global(g) => match self.global(*g) {
                Value::Ptr(view) => {
                    let (b, c) = self.cell(view)?;
                    self.blocks[b].cells[c] = value;
                }
                Value::Int(..) => return Err(Stop::Kind),
            },
        }
        Ok(())
    }

    fn value(&self, expr: &Expr) -> Result<Value, Stop> {
        match expr {
            Expr::Lit(value) => Ok(*value),
            Expr::Load(place) => self.load(place),
            Expr::Bin(op, kind, a, b) => combined(*op, *kind, self.value(a)?, self.value(b)?),
        }
    }

    fn tick(&mut self) -> Result<(), Stop> {
        if self.rest == 0 {
            return Err(Stop::Ticks);
        }
        self.rest -= 1;
        Ok(())
    }
}

fn combined(op: Operator, kind: Kind, a: Value, b: Value) -> Result<Value, Stop> {
    match (a, b) {
        (Value::Int(k, a), Value::Int(l, b)) if k == kind && l == kind => Ok(match op {
            Operator::Add => Value::Int(kind, (a + b) & 0xffff_ffff),
            Operator::Xor => Value::Int(kind, a ^ b),
            Operator::Less => Value::Int(Kind::S32, i128::from(a < b)),
        }),
        _ => Err(Stop::Kind),
    }
}

struct At<'a> {
    block: &'a [Stmt],
    next: usize,
}

fn run(machine: &mut Machine, body: &[Stmt]) -> Result<(), Stop> {
    let mut work = vec![At { block: body, next: 0 }];
    while let Some(at) = work.last_mut() {
        let Some(stmt) = at.block.get(at.next) else {
            work.pop();
            continue;
        };
        machine.tick()?;
        match stmt {
            Stmt::Assign(place, expr) => {
                let value = machine.value(expr)?;
                machine.store(place, value)?;
                at.next += 1;
            }
            Stmt::While(test, inner) => match machine.value(test)? {
                Value::Int(_, 0) => at.next += 1,
                Value::Int(..) => work.push(At { block: inner, next: 0 }),
                Value::Ptr(_) => return Err(Stop::Kind),
            },
        }
    }
    Ok(())
}

fn bin(op: Operator, a: Expr, b: Expr) -> Expr {
    Expr::Bin(op, Kind::U32, Box::new(a), Box::new(b))
}

fn u32_of(n: i128) -> Value {
    Value::Int(Kind::U32, n)
}

fn main() {
    let turns: i128 = env::args().nth(1).and_then(|it| it.parse().ok()).unwrap_or(3_750_000);
    let slot = |i| Expr::Load(Place::Slot(i));
    let global = |g| Expr::Load(Place::Global(g));
    let body = vec![Stmt::While(
        bin(Operator::Less, slot(1), slot(0)),
        vec![
            Stmt::Assign(Place::Global(0), bin(Operator::Add, global(0), slot(1))),
            Stmt::Assign(Place::Global(1), bin(Operator::Xor, global(1), global(0))),
            Stmt::Assign(Place::Slot(1), bin(Operator::Add, slot(1), Expr::Lit(u32_of(1)))),
        ],
    )];
    let one = || Block { alive: true, cells: vec![u32_of(0)] };
    let mut machine = Machine { slots: vec![u32_of(turns), u32_of(0)], blocks: vec![one(), one()], rest: 100_000_000 };
    let ended = run(&mut machine, &body);
    for block in &machine.blocks {
        if let Value::Int(_, n) = block.cells[0] {
            print!("{n} ");
        }
    }
    println!("{ended:?}, {} ticks", 100_000_000 - machine.rest);
}
