//! Records that grow in one thing by steps: the fields of the target, the declarations, or the bytes.

use crate::sketch;

pub struct Point {
    /// What is counted along the curve, which one it is, and how far along it.
    pub grows: &'static str,
    pub curve: &'static str,
    pub far: usize,
    /// It answers 0.
    pub record: Vec<u8>,
}

pub fn points() -> Vec<Point> {
    let of_fields = |curve, fields: fn(usize) -> Vec<String>| {
        let point = move |n| Point { grows: "fields", curve, far: n, record: packet("", &fields(n)) };
        (8..=64).step_by(8).map(point).collect::<Vec<_>>()
    };
    let of_declarations = |curve, record: fn(usize) -> Vec<u8>| {
        let point = move |n| Point { grows: "declarations", curve, far: n, record: record(n) };
        (4..=32).step_by(4).map(point).collect::<Vec<_>>()
    };
    let of_bytes = |curve, record: fn(usize) -> Vec<u8>| {
        let point = move |record: Vec<u8>| Point { grows: "bytes", curve, far: record.len(), record };
        (4..=32).step_by(4).map(record).map(point).collect::<Vec<_>>()
    };
    [
        of_fields("scalars", |n| each(n, |k| format!("scalar s{k} 8"))),
        of_fields("flags, 8 to a chunk", |n| each(n, |k| format!("flag s{k}"))),
        of_fields("arrays of a fixed count", |n| each(n, |k| format!("array a{k} 8 - - 2"))),
        of_fields("typedefs of a struct", |n| each(n, |k| format!("typedef t{k} S"))),
        of_fields("conditions, and their optional scalars behind them", |n| {
            let conditions = each(n / 2, |k| format!("scalar c{k} 8"));
            [conditions, each(n / 2, |k| format!("scalar x{k} 8 if c{k} 1"))].concat()
        }),
        of_fields("sizes, and their arrays behind them", |n| {
            let sizes = each(n / 2, |k| format!("size a{k} 8"));
            [sizes, each(n / 2, |k| format!("array a{k} 16 - - -"))].concat()
        }),
        of_declarations("structs of one scalar", |n| structs(n, |_| "scalar x 8".to_string())),
        of_declarations("structs, each in the next", |n| {
            structs(n, |k| if k == 0 { "scalar x 8".to_string() } else { format!("typedef x S{}", k - 1) })
        }),
        of_declarations("enums, and a packet with a field of each", |n| {
            let enums: String = (1..n).map(|k| format!("enum E{k} 8 0 0; ")).collect();
            packet(&enums, &each(n - 1, |k| format!("typedef e{k} E{}", k + 1)))
        }),
        of_bytes("structs of 14 scalars", |n| {
            structs(n, |_| each(14, |k| format!("scalar s{k} 8")).join(", "))
        }),
        of_bytes("64 scalars with longer names", |n| {
            packet("", &each(64, |k| format!("scalar {}{k:02} 8", "n".repeat(n - 2))))
        }),
    ]
    .into_iter()
    .flatten()
    .collect()
}

fn each(count: usize, field: impl Fn(usize) -> String) -> Vec<String> {
    (0..count).map(field).collect()
}

/// A packet behind declarations, and behind a struct for its typedefs.
fn packet(decls: &str, fields: &[String]) -> Vec<u8> {
    let fields = fields.join(", ");
    let used = if fields.contains(" S") { "struct S -: scalar x 8; " } else { "" };
    sketch::record(&format!("little P lite; {decls}{used}packet P -: {fields}"))
}

/// Structs, of which the last is the target.
fn structs(count: usize, fields: impl Fn(usize) -> String) -> Vec<u8> {
    let decls: Vec<String> = (0..count).map(|k| format!("struct S{k} -: {}", fields(k))).collect();
    sketch::record(&format!("little S{} lite; {}", count - 1, decls.join("; ")))
}
