//! What an editor shows of a shader in which `‸` is the cursor: the type there, the call around it with the parameter that the
//! cursor is in, the names that may be completed, the types that declarations leave out, and what is wrong.

use wgsl_types_proved::module::{check, Checked, Meaning};

const SHADERS: [&str; 2] = [
    "struct Light { direction: vec3f, color: vec3f }
@group(0) @binding(0) var<uniform> lights: array<Light, 4>;
fn diffuse(light: Light, normal: vec3f) -> vec3f {
    return light.color * max(dot(normal, light.‸direction), 0);
}
@fragment fn shade(@location(0) normal: vec3f) -> @location(0) vec4f {
    var sum = vec3f();
    for (var i = 0; i < 4; i++) { sum += diffuse(lights[i], normal); }
    return vec4f(sum, 1);
}",
    "fn hash(seed: u32) -> f32 { return f32(seed * 2246822519u) / 4294967296; }
fn noise(at: vec2f) -> f32 {
    let cell = vec2u(at);
    let cell = floor(at) + 1u;
    return mix(hash(cell.x), hash(‸cell.y), vec2f());
}",
];

fn show_cursor(checked: &Checked, text: &str, cursor: usize) {
    if let Some((part, (ty, _))) =
        checked.part_at(cursor).and_then(|part| Some((part, part.typed.as_ref()?)))
    {
        println!("    hover: {}: {ty}", &text[part.bytes.clone()]);
    }
    if let Some(call) = checked.signature_at(cursor) {
        for (index, overload) in call.overloads.iter().enumerate() {
            let mark = if call.fitting == Some(index) { ">" } else { " " };
            let at = overload.parameters().get(call.argument).cloned().unwrap_or(0..0);
            let (before, behind) = (&overload.text[..at.start], &overload.text[at.end..]);
            println!("    help: {mark} {before}[{}]{behind}", &overload.text[at]);
        }
    }
    let names = checked.names_at(cursor).into_iter().map(|name| match &name.meaning {
        Meaning::Value(ty, _) => format!("{}: {ty}", name.text),
        _ => name.text.clone(),
    });
    println!("    names: {}", names.collect::<Vec<_>>().join(", "));
}

fn show_text(checked: &Checked, text: &str) {
    for name in &checked.names {
        if let Some(ty) = name.inferred_type() {
            println!("    hint: {}: {ty}", name.text);
        }
    }
    let line = |byte: usize| text[..byte].matches('\n').count() + 1;
    for fault in &checked.faults {
        println!("    {}: {}", line(fault.bytes.start), fault.message);
        let notes = fault.notes.iter();
        notes.for_each(|note| println!("        {}: {}", line(note.bytes.start), note.message));
    }
}

fn main() {
    for shader in SHADERS {
        let text = shader.replace('‸', "");
        let checked = check(&text);
        println!("{text}");
        show_cursor(&checked, &text, shader.find('‸').unwrap());
        show_text(&checked, &text);
    }
}
