//! Forged plans, made from right ones; some are right all the same.

use crate::acts::applicable;
use crate::random::Random;
use reference::act::act_bytes;
use reference::answer::{plan_bytes, YES};
use reference::graph::{Graph, MOST};
use reference::question::Question;
use reference::rules::Rule;
use reference::witness::longest;

fn plan_of(count: usize, rules: &[Rule]) -> Vec<u8> {
    let mut bytes = vec![YES];
    bytes.extend((count as u32).to_be_bytes());
    bytes.extend(rules.iter().flat_map(|&rule| act_bytes(rule)));
    bytes
}

/// Plans made from one that is right.
pub fn forged(random: &mut Random, graph: &Graph, question: Question, rules: &[Rule]) -> Vec<Vec<u8>> {
    let count = rules.len();
    let limit = longest(graph.size());
    let mut forged = vec![
        plan_of(count + 1, rules),
        plan_of(random.pick(&[limit + 1, u32::MAX as usize, 1 << 24, 1 << 16]), rules),
        plan_of(limit, rules),
        lengthened(random, graph, rules),
    ];
    if count > 0 {
        let (i, j) = (random.below(count), random.below(count));
        forged.push(plan_of(count - 1, rules));
        forged.push(plan_of(count - 1, &rules[..count - 1]));
        let mut dropped = rules.to_vec();
        dropped.remove(i);
        forged.push(plan_bytes(&dropped));
        let mut swapped = rules.to_vec();
        swapped.swap(i, if random.chance(50) { j } else { (i + 1) % count });
        forged.push(plan_bytes(&swapped));
        let mut repeated = rules.to_vec();
        repeated.insert(j, rules[i]);
        forged.push(plan_bytes(&repeated));
        forged.push(changed(random, graph, rules));
    }
    if graph.is_subject(question.x) {
        let undone = Rule::Remove { who: question.x, right: question.right, to: question.y };
        forged.push(plan_bytes(&[rules, &[undone]].concat()));
    }
    forged
}

/// One number of one act is another.
fn changed(random: &mut Random, graph: &Graph, rules: &[Rule]) -> Vec<u8> {
    let mut bytes = plan_bytes(rules);
    let at = random.between(5, bytes.len() - 1);
    bytes[at] = if random.chance(60) { random.below(graph.size() + 1) as u8 } else { random.byte() };
    bytes
}

/// More acts before and behind, each of which may be done; so mostly still right.
fn lengthened(random: &mut Random, graph: &Graph, rules: &[Rule]) -> Vec<u8> {
    let mut now = graph.clone();
    let mut all = Vec::new();
    for &rule in rules {
        if now.apply(rule).is_ok() {
            all.push(rule);
        }
    }
    for _ in 0..random.between(1, 6) {
        if let Some(rule) = applicable(random, &now, 20) {
            if now.apply(rule).is_ok() {
                all.push(rule);
            }
        }
    }
    plan_bytes(&all)
}

/// A plan with as many acts as may be, then one with one more; somebody must act.
pub fn longest_plans(graph: &Graph, rules: &[Rule]) -> Vec<Vec<u8>> {
    let Some(who) = graph.subjects().next() else {
        return Vec::new();
    };
    let idle = vec![Rule::Create { who, subject: false, rights: 0 }; MOST - graph.size()];
    let nothing = Rule::Remove { who, right: 7, to: who };
    let limit = longest(graph.size());
    let mut full = rules.to_vec();
    full.resize(limit, nothing);
    let mut most = rules.to_vec();
    most.extend(&idle);
    most.truncate(limit.min(most.len()));
    let one_more = [&most[..], &[Rule::Create { who, subject: true, rights: 255 }]].concat();
    vec![plan_bytes(&full), plan_of(limit + 1, &full), plan_bytes(&most), plan_bytes(&one_more)]
}
