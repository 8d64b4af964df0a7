//! Loads: their columns, what can be loaded, and none twice.

use crate::build::Builder;
use crate::design::{Load, Place, Single};
use crate::item::{LoadItem, Name, ValuesItem};
use crate::links::measure;
use crate::problem::{Code, Problem};
use crate::span::joined;

pub(crate) fn resolve(builder: &mut Builder) {
    let mut names = Vec::new();
    for item in std::mem::take(&mut builder.loads) {
        named_twice(builder, &item.name, &names);
        names.push(item.name.clone());
        let values = item.values.as_ref().map(|values| range(builder, values));
        match builder.resolve(&item.column) {
            Some(column) => add(builder, item, column, values.unwrap_or_default()),
            None => builder.lost.loads.push(item.name.span),
        }
    }
}

fn named_twice(builder: &mut Builder, name: &Name, before: &[Name]) {
    let Some(first) = before.iter().find(|other| other.text == name.text) else {
        return;
    };
    let message = format!("there are two loads `{}`", name.text);
    let problem = Problem::new(Code::E016, name.span.clone(), message);
    builder.problem(problem.also(first.span.clone(), "the first one"));
}

fn add(builder: &mut Builder, item: LoadItem, column: Place, values: Option<(u32, u32)>) {
    let span = item.column.span();
    let same = |load: &Load| load.column == column;
    if let Some(first) = builder.design.loads.iter().position(same) {
        let message = format!("{} is loaded by two loads", item.column.text());
        let problem = Problem::new(Code::E015, span.clone(), message);
        let name = builder.spans.loads[first].clone();
        builder.problem(
            problem
                .also(name, "the first one")
                .help("a column has one load, with one range of values"),
        );
    }
    let measured = measure(builder, column, &span, "a load");
    builder.problems.extend(measured);
    if let Some(values) = &item.values {
        let typed = !builder.untyped.contains(&column);
        let kind = &builder.design.column(column).kind;
        if typed && *kind != Single::Integer.into() {
            let span = joined(&values.low.span, &values.high.span);
            let message = format!(
                "{} is {kind}: only `integer` columns are loaded by `values`",
                item.column.text()
            );
            let problem = Problem::new(Code::E024, span, message);
            builder.problem(problem.help("without `values` every value can be loaded"));
        }
    }
    builder.spans.loads.push(item.name.span);
    builder.design.loads.push(Load {
        name: item.name.text,
        column,
        values,
    });
}

/// The lowest and the highest value of a range.
fn range(builder: &mut Builder, values: &ValuesItem) -> Option<(u32, u32)> {
    let low = number(builder, &values.low);
    let high = number(builder, &values.high);
    let (low, high) = (low?, high?);
    let problem = if low == 0 {
        let problem = Problem::new(
            Code::E030,
            values.low.span.clone(),
            "the lowest value is 0, which stands for NULL",
        );
        problem.label("write 1 or more")
    } else if low > high {
        let span = joined(&values.low.span, &values.high.span);
        let message = format!("{low} is above {high}: no value can be loaded");
        Problem::new(Code::E030, span, message).help("the lowest value stands first")
    } else {
        return Some((low, high));
    };
    builder.problem(problem);
    None
}

fn number(builder: &mut Builder, digits: &Name) -> Option<u32> {
    let number = digits.text.parse().ok();
    if number.is_none() {
        let message = format!("{} is above 4,294,967,295, the largest value", digits.text);
        builder.problem(Problem::new(Code::E030, digits.span.clone(), message));
    }
    number
}
