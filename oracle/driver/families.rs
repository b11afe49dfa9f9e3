//! Records that grow in one thing, so that a time that is not linear shows.

use crate::sketch;

/// A name and a record that answers 0.
pub type Family = (&'static str, Vec<u8>);

pub fn families() -> Vec<Family> {
    vec![
        ("a packet without fields", packet("lite", "", &[])),
        ("64 scalars", packet("lite", "", &each(64, |k| format!("scalar s{k} 8")))),
        ("64 scalars, names of 32 bytes", packet("lite", "", &each(64, |k| format!("scalar {} 8", long(k))))),
        ("64 bit fields in 8 chunks", packet("lite", "", &each(64, |k| format!("scalar s{k} 1")))),
        ("64 flags", packet("lite", "", &each(64, |k| format!("flag s{k}")))),
        ("32 sizes and their 32 arrays", packet("full", "", &sizes_and_arrays())),
        ("32 conditions and their 32 scalars", packet("lite", "", &conditions())),
        ("64 arrays of 8 bits, full", packet("full", "", &each(64, |k| format!("array a{k} 8 - - 2")))),
        ("64 typedefs of the last of 31 structs", packet("lite", &structs(), &each(64, |k| format!("typedef t{k} S30")))),
        ("64 enum bit fields of the last of 31", packet("lite", &enums(), &each(64, |k| format!("typedef e{k} E30")))),
        ("64 arrays of the last of 31 enums, full", packet("full", &enums(), &each(64, |k| format!("array a{k} - E30 - 2")))),
        ("31 structs of 14 scalars, the last is the target", many()),
    ]
}

fn each(count: usize, field: impl Fn(usize) -> String) -> Vec<String> {
    (0..count).map(field).collect()
}

fn long(k: usize) -> String {
    format!("{}{k:02}", "n".repeat(30))
}

fn packet(arrays: &str, decls: &str, fields: &[String]) -> Vec<u8> {
    sketch::record(&format!("little P {arrays}; {decls}packet P -: {}", fields.join(", ")))
}

fn sizes_and_arrays() -> Vec<String> {
    let sizes = (0..32).map(|k| format!("size a{k} 8"));
    sizes.chain((0..32).map(|k| format!("array a{k} 16 - - -"))).collect()
}

fn conditions() -> Vec<String> {
    let flags = (0..32).map(|k| format!("flag c{k}"));
    flags.chain((0..32).map(|k| format!("scalar x{k} 8 if c{k} 1"))).collect()
}

fn structs() -> String {
    (0..31).map(|k| format!("struct S{k} -: scalar x 8; ")).collect()
}

fn enums() -> String {
    (0..31).map(|k| format!("enum E{k} 8 0 0; ")).collect()
}

fn many() -> Vec<u8> {
    let fields = each(14, |k| format!("scalar s{k} 8")).join(", ");
    let decls: Vec<String> = (0..31).map(|k| format!("struct S{k} -: {fields}")).collect();
    sketch::record(&format!("little S30 lite; {}", decls.join("; ")))
}
