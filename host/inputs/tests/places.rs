//! The counting of values of all ones, on strips written by hand.

use inputs::{Place, Places};

fn counted(version: u8, listing: &str) -> Places {
    let mut places = Places::default();
    places.count(version, &listing::strip(listing));
    places
}

/// What was seen, without version and type.
fn whats(places: &Places) -> Vec<&'static str> {
    places.seen().iter().map(|place| place.what).collect()
}

/// A summary's TOS list: each line is a metric's entry.
fn summary(metrics: &[&str]) -> String {
    let entry = |metric| format!("open 97 28 32 2\n u8 81 28 29 0\n {metric}\n close\n");
    let entries: String = metrics.iter().map(entry).collect();
    let count = metrics.len();
    format!("u8 2 3 4 4\n never 19 25 28\n open 20 28 40 {count}\n {entries} close")
}

#[test]
fn tos_lists() {
    let (never, cost) = ("never 82 29 32", "u32 82 29 32 65535");
    let lists: [(&[&str], &[&str]); 6] = [
        (&[], &["metric"]),
        (&[cost, cost], &["metric"]),
        (&[never], &["TOS metric alone", "metric"]),
        (
            &[never, cost],
            &["first TOS metric", "metric", "some TOS metrics"],
        ),
        (
            &[cost, never, cost, never],
            &[
                "TOS metric between",
                "last TOS metric",
                "metric",
                "some TOS metrics",
            ],
        ),
        (
            &[never, never],
            &[
                "all TOS metrics",
                "first TOS metric",
                "last TOS metric",
                "metric",
            ],
        ),
    ];
    for (metrics, expected) in lists {
        let places = counted(2, &summary(metrics));
        assert_eq!(whats(&places), expected, "{metrics:?}");
        let of_type_4 = |place: &Place| (place.version, place.function) == (2, 4);
        assert!(places.seen().iter().all(of_type_4));
    }
}

/// A router link's TOS metric is a number, though it has a TOS entry's id.
#[test]
fn numbers() {
    let link = "u8 2 3 4 1\n u16 68 34 36 65535\n open 69 36 40 1\n open 97 36 40 1\n \
                u32 82 38 40 65535\n close\n close";
    assert_eq!(whats(&counted(2, link)), ["link TOS metric", "link metric"]);
    let less = link.replace("65535", "65534");
    assert_eq!(counted(2, &less), Places::default());
    let opaque = "u8 2 3 4 9\n u32 9 5 8 16777215";
    assert_eq!(whats(&counted(2, opaque)), ["opaque id"]);
    // The same ids in version 3 mean other things, and scope bits do not count.
    let v3 = "u16 1 2 4 40969\n u16 82 34 36 65535\n u32 9 5 8 16777215";
    let seen = counted(3, v3).seen();
    let place = Place {
        version: 3,
        function: 9,
        what: "prefix metric",
    };
    assert!(seen.iter().eq([&place]), "{seen:?}");
}

#[test]
#[should_panic(expected = "no metric has id 9")]
fn unreachable_at_no_metric() {
    counted(2, "u8 2 3 4 9\n never 9 5 8");
}

/// A line for each version and type, places without a count too.
#[test]
fn printed() {
    let mut places = counted(2, &summary(&["never 82 29 32"]));
    places.add(&counted(2, &summary(&[])));
    let printed = places.to_string();
    let line = "unreachable, version 2 type 4: metric 2, TOS metric alone 1, first TOS metric 0, \
                TOS metric between 0, last TOS metric 0, all TOS metrics 0, some TOS metrics 0";
    assert!(printed.lines().any(|l| l == line), "{printed}");
    let last = printed.lines().last();
    assert_eq!(
        last,
        Some("number of all ones, version 3 function 9: prefix metric 0")
    );
    // Seven places of each type with TOS entries; each place has its count.
    assert_eq!(Places::all().len(), 4 * 7 + 4 + 2 + 4 + 3 + 2 + 6 + 2 + 1);
    assert_eq!(printed.matches(" 0").count() + 2, Places::all().len());
}
