//! The commands of advice_bench, and `check`, over the crates as plain Rust. The generator's setting is made without text.
//!
//! programme SEED TABLES STATEMENTS ROUNDS; search and check SEED TABLES STATEMENTS NODES SHARE..; print SEED TABLES STATEMENTS
use adv_base::*;
use bip_model::*;
use branch_bound::{Proposals, Room, search};
use lagrange_bound::{CheaperParts, Ledger, PriceRows, Terms, bound, bound_by, carry, improve, open_ledger, rent, terms, total};
use std::hint::black_box;
use shim::{Global, Vec as V};
use shim::Instant;

struct Draws(u64);
impl Draws { fn draw(&mut self, k: u64) -> u64 { self.0 = self.0.wrapping_mul(6364136223846793005).wrapping_add(1442695040888963407); (self.0 >> 33) % k } }
fn list<T>(v: Vec<T>) -> List<T> { List { items: V(v) } }
fn name(s: &str) -> Name { Name { items: V(s.as_bytes().to_vec()) } }
fn column(n: &str, kind: Kind, width: u16, distinct: u64, ends: Option<(i64, i64)>) -> Column {
    Column { name: name(n), kind, width, distinct: Some(distinct), low: ends.map(|e| e.0), high: ends.map(|e| e.1), bounds: list(vec![]) }
}
const K: u16 = 0; const F: u16 = 1; const A: u16 = 2; const B: u16 = 3; const D: u16 = 4;
fn table(i: u64, d: &mut Draws) -> Table {
    let rows = 1000 * (1 + d.draw(1000)); let da = 10 + d.draw(991); let db = 10 + d.draw(991);
    Table { name: name(&format!("t{}", i + 1)), rows, pages: rows / 50, may_cluster: false, columns: list(vec![
        column("k", Kind::Int, 8, rows, None), column("f", Kind::Int, 8, 1000, None),
        column("a", Kind::Int, 4, da, Some((1, da as i64))), column("b", Kind::Int, 4, db, Some((1, db as i64))),
        column("d", Kind::Date, 4, 3653, Some((10957, 14609)))]),
        indexes: list(vec![Index { name: name("pk"), shape: IndexShape { table: i as u16, keys: list(vec![K]), unique: true, clustered: false } }]) }
}
fn slot(table: u64, n: &str, needed: &[u16]) -> Slot { Slot { table: table as u16, name: name(n), needed: list(needed.to_vec()) } }
fn pred(slot: u8, column: u16, test: Test) -> Pred { Pred { slot, column, test } }
fn up(column: u16) -> Item { Item::Up { slot: 0, column } }
fn statement(tables: u64, d: &mut Draws) -> Statement {
    let weight = 1 + d.draw(100) as u32; let i = 1 + d.draw(tables); let v = 1 + d.draw(1000) as i64; let kind = d.draw(5);
    let j = i % tables + 1; let (i, j) = (i - 1, j - 1);
    let block = |slots, preds, edges, group, order, may_cover| Block { slots: list(slots), preds: list(preds), edges: list(edges), group, order: list(order), may_cover };
    let work = match kind {
        0 => Work::Select(block(vec![slot(i, "t", &[A, B])], vec![pred(0, A, Test::Equal)], vec![], None, vec![up(B)], true)),
        1 => Work::Select(block(vec![slot(i, "t", &[K, D, B])], vec![pred(0, B, Test::Between(Value::Number(v), Value::Number(v + 50)))], vec![], None, vec![], true)),
        2 => Work::Select(block(vec![slot(i, "x", &[A, F, B]), slot(j, "y", &[B, K])], vec![pred(0, B, Test::Equal)],
            vec![Edge { left: 0, left_column: F, right: 1, right_column: K }], None, vec![up(A)], true)),
        3 => Work::Select(block(vec![slot(i, "t", &[A, B])], vec![], vec![], Some(list(vec![up(A)])), vec![], true)),
        _ => Work::Update(block(vec![slot(i, "t", &[K])], vec![pred(0, K, Test::Equal)], vec![], None, vec![], false), list(vec![B])),
    };
    Statement { weight, work }
}
fn price(p: &Option<u64>) -> String { p.map_or(" -".into(), |p| format!(" {p}")) }
fn print(p: &Programme, shapes: &[IndexShape]) {
    println!("clustered{}", shapes.iter().map(|x| if x.clustered { format!(" {}", x.table) } else { " -".into() }).collect::<String>());
    println!("kept {}", p.kept);
    println!("sizes{}", p.sizes.as_slice().iter().map(|x| format!(" {x}")).collect::<String>());
    println!("upkeep{}", p.upkeep.as_slice().iter().map(|x| format!(" {x}")).collect::<String>());
    for part in p.parts.as_slice() {
        println!("part {} {}", part.statement, part.weight);
        for s in part.slots.as_slice() {
            println!("slot{}", s.base.as_slice().iter().map(price).collect::<String>());
            for g in s.grants.as_slice() { println!("grant {}{}", g.candidate, g.prices.as_slice().iter().map(price).collect::<String>()); }
        }
        for t in part.templates.as_slice() { println!("template {}{}", t.internal, t.needs[..part.slots.len()].iter().map(|x| format!(" {x}")).collect::<String>()); }
    }
}
fn useful_pages(p: &Programme) -> u64 {
    let mut on = Config::none();
    for part in p.parts.as_slice() { for slot in part.slots.as_slice() { for g in slot.grants.as_slice() {
        for (a, b) in g.prices.as_slice().iter().zip(slot.base.as_slice()) {
            if let Some(a) = a { if b.map_or(true, |b| *a < b) { on.on[g.candidate as usize - 1] = true; } } } } } }
    p.sizes.as_slice().iter().zip(on.on.iter()).filter(|x| *x.1).map(|x| *x.0).sum()
}
fn free() -> Fix { Fix { state: [State::Free; 256] } }
fn without(i: usize) -> Fix { let mut fix = free(); fix.state[i] = State::Out; fix }
fn zeros(p: &Programme) -> Multipliers { Multipliers::zero(Global, p).ok().unwrap() }
fn templates(p: &Programme) -> usize { p.parts.as_slice().iter().map(|x| x.templates.len()).sum() }
fn micros(t: Instant) -> u128 { t.elapsed().as_nanos() / 1000 }
fn counts(setting: &Setting, p: &Programme) -> String {
    format!("statements {} candidates {} parts {} templates {} grants {}", setting.statements.len(), setting.shapes.len(), p.parts.len(), templates(p), grant_count(p))
}
fn budget_of(p: &Programme, word: &str) -> u64 {
    let share: u64 = word.parse().unwrap();
    if share >= 100 { 1_000_000_000_000 } else { useful_pages(p) / 100 * share }
}
fn searched(p: &Programme, shapes: &[IndexShape], budget: u64, nodes: u32) -> Answer {
    let room = Room::new(Global, p, nodes).ok().unwrap();
    let mut proposed = Proposals::new(Global, p, nodes).ok().unwrap();
    search(p, shapes, &free(), budget, nodes, room, &mut proposed)
}
/// Nanoseconds of a call: the fastest of some rounds of so many calls.
fn fastest(rounds: u64, mut calls: impl FnMut() -> u32) -> u128 {
    (0..rounds).map(|_| { let t = Instant::now(); let n = calls(); t.elapsed().as_nanos() / n.max(1) as u128 }).min().unwrap_or(0)
}
fn programme(setting: &Setting, rounds: u64) {
    let made = fastest(rounds, || { black_box(tuning::programme(Global, setting).ok().unwrap()); 1 });
    let p = &tuning::programme(Global, setting).ok().unwrap();
    let (budget, n) = (10000, p.sizes.len());
    let mut mult = zeros(p);
    rent(p, 1024, &mut mult);
    let mut spare = zeros(p);
    let mut old = Terms::new(Global, p).ok().unwrap();
    let mut into = Terms::new(Global, p).ok().unwrap();
    let b = fastest(rounds, || { for i in 0..n { black_box(bound(p, budget, &without(i), &mult)); } n as u32 });
    let t = fastest(rounds, || { for i in 0..n { terms(p, budget, &without(i), &mult, &mut into); } n as u32 });
    terms(p, budget, &free(), &mult, &mut old);
    let c = fastest(rounds, || { for i in 0..n { carry(p, budget, &free(), &without(i), &mult, &old, &mut into); } n as u32 });
    let s = fastest(rounds, || { for _ in 0..n { black_box(total(p, budget, &free(), &mult, &old)); } n as u32 });
    let l = fastest(rounds, || { black_box(CheaperParts::new(Global, p).ok().unwrap()); 1 });
    let cheaper = CheaperParts::new(Global, p).ok().unwrap();
    let mut ledger = Ledger::new(Global, p).ok().unwrap();
    let mut rows = PriceRows::new(Global, &cheaper).ok().unwrap();
    let o = fastest(rounds, || { for i in 0..n { black_box(open_ledger(p, &cheaper, budget, &without(i), &mult, &mut ledger, &mut rows)); } n as u32 });
    open_ledger(p, &cheaper, budget, &free(), &mult, &mut ledger, &mut rows);
    let k = fastest(rounds, || {
        for i in 0..n { for fix in [without(i), free()] { black_box(bound_by(p, &cheaper, budget, &fix, &mult, &mut ledger, &mut rows)); } }
        2 * n as u32
    });
    let i = fastest(rounds, || { let mut from = zeros(p); improve(p, budget, &free(), &mut from, &mut spare, 41); 41 });
    println!("{}", counts(setting, p));
    println!("programme {made} bound {b} lists {l} opened {o} terms {t} carry {c} total {s} carried {k} improve {i}");
}
fn print_search(p: &Programme, shapes: &[IndexShape], budget: u64, nodes: u32) {
    let t = Instant::now();
    let a = searched(p, shapes, budget, nodes);
    let time = micros(t);
    let chosen: String = a.config.on.iter().enumerate().filter(|x| *x.1).map(|x| format!(" {}", x.0 + 1)).collect();
    println!("budget {budget} cost {} bound {} nodes {} sets {} useful {} microseconds {time} chosen{chosen}", a.cost, a.bound, a.tree.len(), a.sets.len(), a.useful);
}
/// The way of `advise --cert`, from the candidates on, and that of `check`, from the certificate's bytes on.
fn check(setting: &Setting, p: &Programme, made: u128, budget: u64, nodes: u32) {
    let t = Instant::now();
    let a = searched(p, setting.shapes, budget, nodes);
    let bytes = certificate::write_cert(Global, p, 1, budget, &a).ok().unwrap();
    let advise = made + micros(t);
    let t = Instant::now();
    let cert = certificate::read_cert(Global, bytes.as_slice()).unwrap();
    let proved = gap_checker::check(Global, setting, &cert).is_ok() as u8;
    println!("budget {budget} closed {} nodes {} bytes {} advise {advise} check {} proved {proved}", (a.bound >= a.cost as i128) as u8, a.tree.len(), bytes.as_slice().len(), micros(t));
}
fn main() {
    let words: Vec<String> = std::env::args().collect();
    let number = |at: usize| words[at].parse::<u64>().unwrap();
    let (seed, tables, statements) = (number(2), number(3), number(4));
    let mut d = Draws(seed);
    let cat = Catalogue { rates: Rates::default(), tables: list((0..tables).map(|i| table(i, &mut d)).collect()) };
    let load: Vec<Statement> = (0..statements).map(|_| statement(tables, &mut d)).collect();
    let t = Instant::now();
    let found = candidates::candidates(Global, &cat, &load).ok().unwrap();
    let setting = Setting { cat: &cat, statements: &load, shapes: found.list.as_slice() };
    if words[1] == "programme" {
        return programme(&setting, number(5));
    }
    let p = tuning::programme(Global, &setting).ok().unwrap();
    let made = micros(t);
    match words[1].as_str() {
        "print" => print(&p, setting.shapes),
        command => {
            if command == "search" { println!("{} microseconds {made}", counts(&setting, &p)); }
            for word in &words[6..] {
                let budget = budget_of(&p, word);
                if command == "search" { print_search(&p, setting.shapes, budget, number(5) as u32) } else { check(&setting, &p, made, budget, number(5) as u32) }
            }
        }
    }
}
