//! The options `(order)` of examples/order.proto, resolved, from the root of the repository:
//! cargo run -q --manifest-path bindings/rust/Cargo.toml --example order
use cizasmok::{resolve, Refused};

const FIELD: &str = "google.protobuf.FieldOptions";
const MESSAGE: &str = "google.protobuf.MessageOptions";

/// A field of a sheet or of a request: tag, length, payload.
fn f(tag: u8, payload: impl AsRef<[u8]>) -> Vec<u8> {
    let payload = payload.as_ref();
    [&[tag][..], &(payload.len() as u16).to_be_bytes(), payload].concat()
}

/// extend EXTENDEE { optional uint32 order = NUMBER; }
fn order(number: u32, extendee: &str) -> Vec<u8> {
    let shape = [f(0x13, number.to_be_bytes()), f(0x14, [13]), f(0x15, [1])].concat();
    f(0x03, [f(0x11, "order"), f(0x12, extendee), shape].concat())
}

/// order.proto, with Dispatch's own `order` on this extendee, and the file of the options types.
fn schema(extendee: &str) -> Vec<u8> {
    let dispatch = f(0x02, [f(0x11, "Dispatch"), order(50002, extendee)].concat());
    let fleet = order(50001, FIELD);
    let plant = f(0x01, [f(0x10, "plant"), fleet, dispatch].concat());
    let types = ["FieldOptions", "MessageOptions"].map(|name| f(0x02, f(0x11, name)));
    let google = f(0x01, [f(0x10, "google.protobuf"), types.concat()].concat());
    [plant, google].concat()
}

/// `[(NAME) = 7]` on a field of Dispatch, resolved, as hexadecimal digits.
fn seven(name: &str, sheet: &[u8]) -> Result<String, Refused> {
    let option = f(0x08, [f(0x1B, name), f(0x21, 7u64.to_be_bytes())].concat());
    let request = [f(0x18, "plant.Dispatch"), f(0x19, FIELD), option].concat();
    let mut out = [0; 64];
    let bytes = resolve(sheet, &request, &mut out)?.expect("the request has an option");
    Ok(bytes.iter().map(|byte| format!(" {byte:02X}")).collect())
}

fn main() -> Result<(), Refused> {
    let sheet = schema(FIELD);
    println!("(order) sets:{}", seven("order", &sheet)?);
    println!("(.plant.order) sets:{}", seven(".plant.order", &sheet)?);
    // Dispatch's own is on MessageOptions by mistake: found first, and none of a field's.
    let refused = seven("order", &schema(MESSAGE)).expect_err("a refusal");
    println!("in the mistaken schema, (order) is refused at {refused}");
    Ok(())
}
