//! The pruned search by hubs finds the builder's labels, pivots left out.

use generate::days::{self, Day};
use generate::tables::Sets;
use generate::{example, Rng};

fn built(day: &Day) -> Vec<plain::Found> {
    let (mut tables, mut work) = (vec![0; 50_174], vec![0; plain::BUILD_ROOM]);
    let mut answer = [0; 4];
    plain::build(day.stops, day.run_count(), &day.numbers(), &mut tables, &mut work, &mut answer);
    assert_eq!(answer[0], 0);
    let sets = Sets::from_bytes(&tables[..answer[1] as usize]);
    let mut labels = Vec::new();
    for (owner, [outs, ins]) in sets.stops.iter().enumerate() {
        for (is_in, set) in [(false, outs), (true, ins)] {
            for label in set {
                labels.push((owner as u8, is_in, label.hub, label.dep, label.arr));
            }
        }
    }
    labels
}

#[test]
fn hubs_find_the_rules_labels() {
    let mut rng = Rng::new(77);
    let mut some = vec![example::day(), days::chain(), days::with_labels(8_192)];
    some.extend((0..400).map(|_| days::small(&mut rng)));
    some.push(days::city(&mut rng));
    some.push(days::many_ties(&mut rng));
    for day in some {
        let by_hubs = plain::labels_by_hubs(day.stops as usize, &day.numbers());
        assert_eq!(by_hubs, built(&day), "{day:?}");
    }
}
