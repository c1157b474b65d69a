//! Searches over programmes that `advice_bench print-files` printed: NODES, and then FILE SHARE,SHARE.. as often as there are
//! files. A share is one of ten thousand of the pages of all useful candidates.
use adv_base::*;
use bip_model::*;
use branch_bound::{Proposals, Room, search};
use plan_model::Template;
use shim::{Global, Instant, Vec as V};

fn list<T>(v: Vec<T>) -> List<T> { List { items: V(v) } }
fn prices(words: &[&str]) -> List<Option<u64>> { list(words.iter().map(|it| it.parse().ok()).collect()) }
fn numbers<T: std::str::FromStr>(words: &[&str]) -> Vec<T> { words.iter().map(|it| it.parse().ok().unwrap()).collect() }
fn template(words: &[&str]) -> Template {
    let mut needs = [0; 8];
    for (need, word) in needs.iter_mut().zip(&words[1..]) { *need = word.parse().unwrap(); }
    Template { internal: words[0].parse().unwrap(), needs }
}
fn shape(word: &str) -> IndexShape {
    let table = word.parse();
    IndexShape { clustered: table.is_ok(), table: table.unwrap_or(0), keys: list(vec![]), unique: false }
}
fn read(text: &str) -> (Programme, Vec<IndexShape>) {
    let mut p = Programme { sizes: list(vec![]), upkeep: list(vec![]), kept: 0, parts: list(vec![]) };
    let mut shapes = vec![];
    for line in text.lines() {
        let words: Vec<&str> = line.split_whitespace().collect();
        let (kind, words) = (words[0], &words[1..]);
        let part = p.parts.items.0.last_mut();
        match kind {
            "clustered" => shapes = words.iter().map(|it| shape(it)).collect(),
            "kept" => p.kept = words[0].parse().unwrap(),
            "sizes" => p.sizes = list(numbers(words)),
            "upkeep" => p.upkeep = list(numbers(words)),
            "part" => p.parts.items.0.push(Part { statement: words[0].parse().unwrap(), weight: words[1].parse().unwrap(), templates: list(vec![]), slots: list(vec![]) }),
            "slot" => part.unwrap().slots.items.0.push(SlotPart { base: prices(words), grants: list(vec![]) }),
            "grant" => part.unwrap().slots.items.0.last_mut().unwrap().grants.items.0.push(Grant { candidate: words[0].parse().unwrap(), prices: prices(&words[1..]) }),
            "template" => part.unwrap().templates.items.0.push(template(words)),
            other => panic!("{other}"),
        }
    }
    (p, shapes)
}
fn useful_pages(p: &Programme) -> u64 {
    let mut on = [false; 257];
    for part in p.parts.as_slice() { for slot in part.slots.as_slice() { for g in slot.grants.as_slice() {
        let helps = g.prices.as_slice().iter().zip(slot.base.as_slice()).any(|(a, b)| a.is_some_and(|a| b.is_none_or(|b| a < b)));
        on[g.candidate as usize] |= helps;
    } } }
    p.sizes.as_slice().iter().zip(&on[1..]).filter(|it| *it.1).map(|it| *it.0).sum()
}
fn main() {
    let words: Vec<String> = std::env::args().skip(1).collect();
    let nodes: u32 = words[0].parse().unwrap();
    for pair in words[1..].chunks(2) {
        let (p, shapes) = read(&std::fs::read_to_string(&pair[0]).unwrap());
        for share in pair[1].split(',') {
            let budget = useful_pages(&p) * share.parse::<u64>().unwrap() / 10000;
            let begun = Instant::now();
            let room = Room::new(Global, &p, nodes).ok().unwrap();
            let mut proposed = Proposals::new(Global, &p, nodes).ok().unwrap();
            let free = Fix { state: [State::Free; 256] };
            let a = search(&p, &shapes, &free, budget, nodes, room, &mut proposed);
            println!("budget {budget} cost {} bound {} nodes {} sets {} microseconds {}", a.cost, a.bound, a.tree.len(), a.sets.len(), begun.elapsed().as_micros());
        }
    }
}
