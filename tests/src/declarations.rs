//! The table's calls and the structs' layouts as C, for the compiler to hold to include/cerberus.h.

use crate::calls::{CALLS, CParameter, Signature};
use crate::ffi::{LAYOUTS, Layout};

/// A file that compiles without a warning where the header declares the same.
pub fn in_c() -> String {
    let calls = CALLS.iter().map(|call| of_call(call.signature()));
    let structs = LAYOUTS.iter().map(of_struct);
    let opening = "#include \"cerberus.h\"\n#include <stddef.h>\n".to_string();
    [opening].into_iter().chain(calls).chain(structs).collect()
}

/// The pointer shows that the header has the function, the declaration that arrays have the same lengths.
fn of_call(signature: &Signature) -> String {
    let name = signature.name;
    let parameters = signature.in_c.iter().map(of_parameter).collect::<Vec<_>>().join(", ");
    format!("uint8_t (*const table_{name})({parameters}) = {name};\nuint8_t {name}({parameters});\n")
}

fn of_parameter(parameter: &CParameter) -> String {
    let constant = if parameter.constant { "const " } else { "" };
    let pointer = match parameter.array {
        Some(len) => format!(" [{len}]"),
        None if parameter.pointer => " *".to_string(),
        None => String::new(),
    };
    format!("{constant}{}{pointer}", parameter.name)
}

/// Each field begins where the one before it ends.
fn of_struct(layout: &Layout) -> String {
    let name = layout.name;
    let ends = layout.fields.iter().skip(1).map(|(_, at)| *at).chain([layout.len]);
    let fields = layout.fields.iter().zip(ends).map(|((field, at), end)| {
        let place = assertion(&format!("offsetof({name}, {field}) == {at}"));
        place + &assertion(&format!("sizeof((({name} *)0)->{field}) == {}", end - at))
    });
    fields.chain([assertion(&format!("sizeof({name}) == {}", layout.len))]).collect()
}

fn assertion(holds: &str) -> String {
    format!("_Static_assert({holds}, \"{holds}\");\n")
}
