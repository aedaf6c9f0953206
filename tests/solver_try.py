"""A program over the solvers and the checker of derivations, run unproved on a copy of the crates.

Its input has lines. `p VARS` begins a formula and `c LITS` adds a clause. `v VARIABLES` begins a graph; `g A B` joins two of its
bits, which are numbered, with 0 for true, then the variables and then what was joined, each as twice the number and one more for
the opposite; `o A` has the formula that a bit is true, and prints it. `s BUDGET` decides the formula by both solvers, the plain one
first. `l LITS` with `h HINTS` after it has the checker judge a step, which is then known. A literal is a variable or its negative.
"""
import unproved

USES = ('bit_graph', 'bit_words', 'clause_base', 'cnf_build', 'derivation_check', 'sat_core', 'sat_plain')
PROGRAM = r'''
//! Decides formulas, and judges the steps of logs.
#![tactic(auto)]

use bit_graph::gate::GraphBit;
use bit_graph::graph::Graph;
use bit_words::logic::{Logic, Variables};
use clause_base::answer::StepAnswer;
use clause_base::clause::Clause;
use clause_base::formula::{Clauses, Formula};
use clause_base::hints::Hints;
use clause_base::lit::Lit;
use clause_base::lits::Lits;
use clause_base::log::Log;
use clause_base::solved::Solved;
use cnf_build::build::to_formula;
use derivation_check::checker::Checker;
use std::alloc::Global;
use std::io::{BufRead, BufReader};

fn numbers(alloc: Global, line: &str) -> Result<Vec<i64>, anyhow::Error> {
    let mut all = Vec::new(alloc);
    for word in line.split_whitespace() {
        if let Ok(number) = word.parse::<i64>() {
            all.push(number)?;
        }
    }
    Ok(all)
}

fn clause(alloc: Global, numbers: &[i64]) -> Result<Clause, anyhow::Error> {
    let mut lits = Lits::new(alloc);
    for number in numbers {
        let positive = *number > 0;
        let var = if positive { *number as u32 } else { (0 - *number) as u32 };
        lits.push(Lit { var, positive })?;
    }
    Ok(Clause::new(lits))
}

fn print_literals(rt: &HostRuntime, clause: &Clause) -> Result<(), anyhow::Error> {
    for lit in clause.lits.as_slice() {
        let sign = if lit.positive { "" } else { "-" };
        let var = lit.var;
        print!(rt; " {sign}{var}")?;
    }
    Ok(())
}

fn print_log(rt: &HostRuntime, log: &Log) -> Result<(), anyhow::Error> {
    for i in 0..log.steps.len() {
        let step = log.steps.at(i);
        print!(rt; "l")?;
        print_literals(rt, &step.clause)?;
        print!(rt; " 0")?;
        for hint in step.hints.as_slice() {
            let number = *hint;
            print!(rt; " {number}")?;
        }
        println!(rt; "")?;
    }
    Ok(())
}

fn print_formula(rt: &HostRuntime, f: &Formula) -> Result<(), anyhow::Error> {
    let vars = f.vars;
    println!(rt; "formula {vars}")?;
    for i in 0..f.clauses.len() {
        print!(rt; "clause")?;
        print_literals(rt, f.clauses.at(i))?;
        println!(rt; "")?;
    }
    Ok(())
}

fn print_solved(rt: &HostRuntime, solved: &Solved) -> Result<(), anyhow::Error> {
    match solved {
        Solved::Holds(truths, log) => {
            print!(rt; "holds")?;
            for i in 0..truths.len() {
                let value = if truths.at(i) { 1 } else { 0 };
                print!(rt; " {value}")?;
            }
            println!(rt; "")?;
            print_log(rt, log)?;
        }
        Solved::Refuted(log) => {
            println!(rt; "refuted")?;
            print_log(rt, log)?;
        }
        Solved::Spent(log) => {
            println!(rt; "spent")?;
            print_log(rt, log)?;
        }
        Solved::NoMemory => println!(rt; "no memory")?,
    }
    Ok(())
}

fn bit_of(bits: &Vec<GraphBit>, g: &Graph, number: i64) -> GraphBit {
    let bit = bits[number as usize / 2];
    if number % 2 == 0 { bit } else { g.not(bit) }
}

fn main(rt: HostRuntime) -> Result<(), anyhow::Error> {
    let alloc = rt.alloc();
    let mut f = Formula { vars: 0, clauses: Clauses::new(alloc) };
    let mut g = Graph::new(alloc)?;
    let mut bits: Vec<GraphBit> = Vec::new(alloc);
    let mut checker = Checker::new(alloc, 0)?;
    let mut lits = Vec::new(alloc);
    for text in BufReader::new(alloc, rt.reader())?.lines(alloc) {
        let line = text?;
        let all = numbers(alloc, line.as_str())?;
        if line.as_str().starts_with("p") {
            f = Formula { vars: all[0] as u32, clauses: Clauses::new(alloc) };
            checker = Checker::new(alloc, all[0] as u32)?;
        } else if line.as_str().starts_with("c") {
            f.clauses.push(clause(alloc, all.as_slice())?)?;
        } else if line.as_str().starts_with("v") {
            g = Graph::new(alloc)?;
            bits = Vec::new(alloc);
            bits.push(g.constant(true))?;
            for _ in 0..all[0] {
                bits.push(g.variable()?)?;
            }
        } else if line.as_str().starts_with("g") {
            let first = bit_of(&bits, &g, all[0]);
            let second = bit_of(&bits, &g, all[1]);
            bits.push(g.and(first, second)?)?;
        } else if line.as_str().starts_with("o") {
            f = to_formula(alloc, &g, bit_of(&bits, &g, all[0]))?;
            print_formula(&rt, &f)?;
        } else if line.as_str().starts_with("s") {
            print_solved(&rt, &sat_plain::solve(alloc, &f, all[0] as u32))?;
            print_solved(&rt, &sat_core::solve(alloc, &f, all[0] as u32))?;
        } else if line.as_str().starts_with("l") {
            lits = all;
        } else if line.as_str().starts_with("h") {
            let mut hints: Vec<u32> = Vec::new(alloc);
            for hint in &all {
                hints.push(*hint as u32)?;
            }
            let step = clause(alloc, lits.as_slice())?;
            let hints = Hints::from_slice(alloc, hints.as_slice())?;
            match checker.step(&f.clauses, &step, &hints) {
                StepAnswer::Good => println!(rt; "good")?,
                StepAnswer::NotUnit(place) => println!(rt; "not unit {place}")?,
                StepAnswer::NoEnd => println!(rt; "no end")?,
            }
            f.clauses.push(step)?;
        }
    }
    Ok(())
}
'''
MARKS = ('formula ', 'clause', 'holds', 'refuted', 'spent', 'no ', 'good', 'not unit', 'l ')


class Harness(unproved.Harness):
    """The program, in a folder of its own."""

    def __init__(self, folder):
        super().__init__(folder, USES, PROGRAM)

    def lines_of_each(self, texts):
        """The lines that one build of the program writes for each of these inputs."""
        return [[line for line in part if line.startswith(MARKS)] for part in self.printed_for_each(texts)]
