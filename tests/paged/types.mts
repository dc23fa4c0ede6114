// What TypeScript makes of the package's types. Each line under `@ts-expect-error` must be refused.
import { Checked, Layouts, Message, Refused, SourceError, StructLayout, Type, Unreadable, answer, check, init, layouts, standardExplain, version, view } from "wgsl-types-proved";
import { initSync } from "wgsl-types-proved/inline";

await init();
initSync(new Uint8Array(8));
const told: Layouts = layouts("struct A { a: vec3f }");
const struct: StructLayout | undefined = told.structs[0];
const place: [number, number] | undefined = struct && [struct.members[0]!.offset, struct.index];
const made = view(told.variables[0]!, { count: 2 });
made.set({ a: [1, 2, 3], b: new Float32Array(16), c: [[1, 2], { d: 1n }], e: true });
const bytes: ArrayBuffer = made.buffer;
const why: string | null = standardExplain(version());
try {
  answer("unary - f32");
} catch (error) {
  if (error instanceof SourceError) error.errors.map(({ kind, index }: Message) => kind + index);
  else if (error instanceof Unreadable) console.log(error.index, place, bytes, why);
  else if (error instanceof Refused) console.log(error.message, error.index);
}

const checked: Checked = check("const a = 1;");
const declared: number | undefined = checked.parts.find(({ stage }) => stage === "override")?.declared?.index;
console.log(declared, checked.faults.map(({ kind, end }: Message) => kind + end.index));

/** The struct inside all arrays, as a type says it. */
function innermost(type: Type): string {
  if (type.kind === "array") return innermost(type.element);
  return type.kind === "struct" ? type.struct.name : type.kind;
}
console.log(innermost(told.variables[0]!.typeTree));

// @ts-expect-error: a request is a string
answer(7);
// @ts-expect-error: no name may be declared
checked.parts[0]!.declared.index;
// @ts-expect-error: a stage is none of these
checked.parts[0]!.stage === "vertex";
// @ts-expect-error: a view has no such option
view(struct!, { length: 2 });
// @ts-expect-error: no value is a function
made.set(() => 1);
// @ts-expect-error: a layout isn't written
told.structs[0].offset;
// @ts-expect-error: a layout is no name
view("Light");
// @ts-expect-error: a layout may be missing
view(told.structs.find(({ name }) => name === "Light"));
// @ts-expect-error: a buffer is given by its name
view(struct!, new ArrayBuffer(16));
// @ts-expect-error: an offset is no text
view(struct!, { offset: "16" });
view(struct!, { buffer: new ArrayBuffer(64), offset: 16 }).set({ a: [1n, 2, 3], b: false });
