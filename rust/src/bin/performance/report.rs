//! The tables that are printed, in Markdown.

use gurvoke::executive::{Executive, BOARD, LIBRARY, REFERENCE};

use crate::programs::{SHAPES, SIZES};
use crate::trial::{Operation, IDLE};
use crate::Cost;

/// Sizes between which the growth is taken: one is twice the other.
const HALF: usize = 100;
const WHOLE: usize = 200;

/// The largest ratios that are aimed at, with any number of parts and with the most.
const RATIO: f64 = 1.0;
const WHOLE_RATIO: f64 = 0.9;

/// Functions with less than this part of a call's instructions are left out.
const LEAST_SHARE: f64 = 0.005;

/// The executives that the library is compared with.
static PLAIN: [&Executive; 2] = [&REFERENCE, &BOARD];

pub fn print(costs: &[Cost], refused_stack: usize) {
    let costs = Costs(costs);
    print_calling(&costs);
    for shape in &SHAPES {
        println!(
            "\n### {}{}\n",
            shape.name[..1].to_uppercase(),
            &shape.name[1..]
        );
        print_marked(&costs, shape.name);
        print_instructions(&costs, shape.name);
        println!("\nInstructions by function, library, {WHOLE} parts:\n");
        print_functions(&costs, shape.name);
    }
    print_worst(&costs, refused_stack);
}

/// All costs, to be asked for one by one.
struct Costs<'a>(&'a [Cost]);

impl Costs<'_> {
    fn of(&self, shape: &str, parts: usize, operation: Operation, executive: &str) -> &Cost {
        let is_it = |cost: &&Cost| {
            (cost.shape, cost.parts) == (shape, parts)
                && (cost.operation, cost.executive) == (operation, executive)
        };
        self.0.iter().find(is_it).expect("every call is measured")
    }

    fn growth(&self, shape: &str, operation: Operation, executive: &str) -> f64 {
        let instructions = |parts| self.of(shape, parts, operation, executive).instructions;
        instructions(WHOLE) as f64 / instructions(HALF) as f64
    }

    /// What the library takes over what a plain executive takes.
    fn ratio(&self, shape: &str, parts: usize, operation: Operation, plain: &str) -> f64 {
        let instructions = |executive| self.of(shape, parts, operation, executive).instructions;
        instructions(LIBRARY.name) as f64 / instructions(plain) as f64
    }

    /// The deepest stack of a call over all sizes.
    fn stack(&self, shape: &str, operation: Operation, executive: &str) -> usize {
        let stacks = SIZES.map(|parts| self.of(shape, parts, operation, executive).stack);
        stacks.into_iter().max().expect("some sizes")
    }
}

/// What calling takes, by the executive that does nothing.
fn print_calling(costs: &Costs) {
    let idle = || costs.0.iter().filter(|cost| cost.executive == IDLE.name);
    let instructions = idle().map(|cost| cost.instructions).max();
    let stack = idle().map(|cost| cost.stack).max();
    println!(
        "To call a function that does nothing takes at most {} instructions and {} bytes of stack;\n\
         all figures include it.",
        instructions.expect("some calls"),
        stack.expect("some calls")
    );
}

fn print_marked(costs: &Costs, shape: &str) {
    let marked = SIZES.map(|parts| {
        let offer = costs.of(shape, parts, Operation::Offer, LIBRARY.name);
        format!("{} of {parts}", offer.marked)
    });
    println!("Marked before offer and settling: {}.\n", marked.join(", "));
}

fn print_instructions(costs: &Costs, shape: &str) {
    let sizes = SIZES.map(|parts| format!("{parts} parts |"));
    println!("| Call | | {} Growth | Stack, bytes |", sizes.join(" "));
    println!("|---|---|{}---:|---:|", "---:|".repeat(SIZES.len()));
    for operation in Operation::ALL {
        let call = operation.name();
        for Executive { name, .. } in [&LIBRARY].into_iter().chain(PLAIN) {
            let instructions =
                SIZES.map(|parts| grouped(costs.of(shape, parts, operation, name).instructions));
            println!(
                "| {call} | {name} | {} | {:.2} | {} |",
                instructions.join(" | "),
                costs.growth(shape, operation, name),
                grouped(costs.stack(shape, operation, name) as u64)
            );
        }
        for Executive { name, .. } in PLAIN {
            let ratio = |parts| costs.ratio(shape, parts, operation, name);
            let ratios = SIZES.map(|parts| format!("{:.2}", ratio(parts)));
            println!("| {call} | ratio to {name} | {} | | |", ratios.join(" | "));
        }
    }
}

/// A line for each function of the library, with its part in each call.
fn print_functions(costs: &Costs, shape: &str) {
    let calls = Operation::ALL.map(|operation| costs.of(shape, WHOLE, operation, LIBRARY.name));
    println!(
        "| Function | {} |",
        Operation::ALL.map(Operation::name).join(" | ")
    );
    println!("|---|{}", "---:|".repeat(calls.len()));
    let mut labels = Vec::new();
    for function in calls.iter().flat_map(|call| &call.functions) {
        let label = label(&function.name);
        let is_small = calls.iter().all(|call| share(call, label) < LEAST_SHARE);
        if !labels.contains(&label) && !is_small {
            labels.push(label);
        }
    }
    for label in labels {
        let cells = calls.map(|call| cell(call, label));
        println!("| {label} | {} |", cells.join(" | "));
    }
}

/// The exported functions share a line: each is in one call only.
fn label(function: &str) -> &str {
    if function.starts_with("gurvoke_") {
        "the exported function itself"
    } else {
        function
    }
}

fn cell(call: &Cost, name: &str) -> String {
    match instructions_in(call, name) {
        0 => String::new(),
        count => format!("{} ({:.0} %)", grouped(count), 100.0 * share(call, name)),
    }
}

fn share(call: &Cost, name: &str) -> f64 {
    instructions_in(call, name) as f64 / call.instructions as f64
}

fn instructions_in(call: &Cost, name: &str) -> u64 {
    let named = call
        .functions
        .iter()
        .filter(|cost| label(&cost.name) == name);
    named.map(|cost| cost.instructions).sum()
}

/// The library's largest figures over all calls and shapes.
fn print_worst(costs: &Costs, refused_stack: usize) {
    let calls = || {
        let with_shape = |operation| SHAPES.iter().map(move |shape| (shape.name, operation));
        Operation::ALL.into_iter().flat_map(with_shape)
    };
    let growth = calls().map(|(shape, operation)| costs.growth(shape, operation, LIBRARY.name));
    let stack = calls().map(|(shape, operation)| costs.stack(shape, operation, LIBRARY.name));
    println!("\n### Largest figures of the library\n");
    println!(
        "- growth from {HALF} to {WHOLE} parts: {:.2}",
        largest(growth)
    );
    for Executive { name, .. } in PLAIN {
        let ratios = |parts| {
            calls().map(move |(shape, operation)| costs.ratio(shape, parts, operation, name))
        };
        let all = || SIZES.into_iter().flat_map(ratios);
        println!("- ratio to {name}: {}", against(all, RATIO));
        let whole = || ratios(WHOLE);
        println!(
            "- ratio to {name} at {WHOLE} parts: {}",
            against(whole, WHOLE_RATIO)
        );
    }
    println!(
        "- stack: {} bytes, {} where the program goes too deep",
        grouped(stack.max().expect("some calls") as u64),
        grouped(refused_stack as u64)
    );
}

/// The largest of some figures, and how many of them miss a target.
fn against<I: Iterator<Item = f64>>(figures: impl Fn() -> I, target: f64) -> String {
    let over = figures().filter(|&figure| figure > target).count();
    let worst = largest(figures());
    format!(
        "{worst:.2}, above {target:.1} in {over} of {} calls",
        figures().count()
    )
}

fn largest(numbers: impl Iterator<Item = f64>) -> f64 {
    numbers.fold(0.0, f64::max)
}

/// A number with a comma before every three digits.
fn grouped(number: u64) -> String {
    let digits = number.to_string();
    let mut text = String::new();
    for (place, digit) in digits.chars().enumerate() {
        if place > 0 && (digits.len() - place).is_multiple_of(3) {
            text.push(',');
        }
        text.push(digit);
    }
    text
}
