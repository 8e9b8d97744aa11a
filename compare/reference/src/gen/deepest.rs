//! Files whose conditions and expressions nest as deep as "1 to 120 frame bytes a line" allows: what
//! a call needs of its stack grows with that depth.

/// The bytes of a line.
const LINE: usize = 120;

/// A table of one row, of which every file here is.
const TABLE: &str = "010101000000000c";

/// What stands before a form, and what behind it.
struct Around {
    name: &'static str,
    before: &'static str,
    behind: &'static str,
}

const fn around(name: &'static str, before: &'static str, behind: &'static str) -> Around {
    Around {
        name,
        before,
        behind,
    }
}

/// Conditions that hold a condition, and expressions that hold an expression.
const CONDITIONS: [Around; 4] = [
    around("not", "14", ""),
    around("and, on the left", "15", "10"),
    around("and, on the right", "1510", ""),
    around("or, on the right of what holds", "1610", ""),
];
const EXPRESSIONS: [Around; 6] = [
    around("sum, on the left", "02", "010000"),
    around("difference, on the right", "03010000", ""),
    around("rounding", "050001", ""),
    around("first branch", "0610", "010000"),
    around("second branch", "0610010000", ""),
    around("condition of a branch", "0612", "000000000000000000"),
];

/// Where conditions stand, and expressions. Five exists open all six items behind a from list of
/// one.
const OF_CONDITIONS: [Around; 7] = [
    around("where", "03010001", "010000"),
    around("where of groups", "0401000001", "10000000"),
    around("exists in where", "0301000117001700170017001700", "010000"),
    around(
        "exists in where of groups",
        "040100000117001700170017001700",
        "10000000",
    ),
    around(
        "exists in branches in where",
        concat!("03010001", "12061700", "12061700", "12061700", "12061700", "12061700"),
        concat!(
            "000000000000000000",
            "000000000000000000",
            "000000000000000000",
            "000000000000000000",
            "000000000000000000",
            "010000"
        ),
    ),
    around("having", "040100000110", "000000"),
    around("branch in select", "030100011006", "010000000000"),
];
const OF_EXPRESSIONS: [Around; 5] = [
    around("comparison in where", "0301000112", "000000010000"),
    around(
        "comparison in exists",
        "030100011700170017001700170012",
        "010500010000",
    ),
    around("select", "0301000110", ""),
    around("aggregate in having", "040100000110120701", "000000000000"),
    around("aggregate in select", "040100000110100701", ""),
];

/// A frame with as many of one form in another as its line holds.
fn frame(place: &Around, form: &Around, innermost: &str) -> String {
    let fixed = place.before.len() + innermost.len() + place.behind.len();
    let each = form.before.len() + form.behind.len();
    let times = (2 * LINE - fixed) / each;
    let (before, behind) = (form.before.repeat(times), form.behind.repeat(times));
    [place.before, &before, innermost, &behind, place.behind].concat()
}

/// Accepted files, each with a name for messages: every form in every place, and either goal.
pub fn deepest() -> Vec<(String, Vec<u8>)> {
    let conditions = (&OF_CONDITIONS[..], &CONDITIONS[..], "10");
    let expressions = (&OF_EXPRESSIONS[..], &EXPRESSIONS[..], "010000");
    let mut files = Vec::new();
    for (places, forms, innermost) in [conditions, expressions] {
        let pairs = |place| forms.iter().map(move |form| (place, form));
        for (place, form) in places.iter().flat_map(pairs) {
            for sign in 0..2 {
                let view = frame(place, form, innermost);
                let name = format!("{}: {}, goal {sign}", place.name, form.name);
                let text = format!("{TABLE}\n{view}\n07010{sign}\n");
                files.push((name, text.into_bytes()));
            }
        }
    }
    files
}

/// Texts that are refused by 4 at line 2: forms opened to the end of the line, and none closed.
pub fn deepest_refused() -> Vec<(String, Vec<u8>)> {
    let conditions = ["14", "15", "16"].map(|form| ("", form));
    let exists = [
        ("17001700170017001700", "14"),
        ("17001700170017001700", "15"),
        ("1700170017001700170012", "0612"),
    ];
    let expressions = ["02", "0610", "0612"].map(|form| ("12", form));
    let named = |(first, form): (&str, &str)| {
        let view = format!("03010001{first}{}", form.repeat(LINE));
        let text = format!("{TABLE}\n{}\n070100\n", &view[..2 * LINE]);
        (format!("{first}{form}, opened"), text.into_bytes())
    };
    let forms = conditions.into_iter().chain(exists).chain(expressions);
    forms.map(named).collect()
}
