//! Labels and sketches opened into runs.

use crate::kinds::Day;
use crate::tables::{Label, Sketch, Tables};

/// The rides of a label by the tables' pivots; `None` is refusal 18: a run or
/// a label is missing, or two labels do not meet.
pub fn of_label(tables: &Tables, day: &Day, label: &Label) -> Option<Vec<u32>> {
    match label.pivot {
        None => {
            let run = day.runs.iter().position(|r| {
                r.from == label.from()
                    && r.to == label.to()
                    && (r.dep, r.arr) == (label.dep, label.arr)
            })?;
            Some(vec![run as u32])
        }
        Some(p) => {
            let (first, second) = tables.halves(label, p)?;
            let mut rides = of_label(tables, day, &first)?;
            rides.extend(of_label(tables, day, &second)?);
            Some(rides)
        }
    }
}

/// The rides of a sketch: of its one label, or of its two in order.
pub fn of_sketch(tables: &Tables, day: &Day, sketch: &Sketch) -> Option<Vec<u32>> {
    match sketch {
        Sketch::Single(label) => of_label(tables, day, label),
        Sketch::Joined(first, second) => {
            let mut rides = of_label(tables, day, first)?;
            rides.extend(of_label(tables, day, second)?);
            Some(rides)
        }
    }
}
