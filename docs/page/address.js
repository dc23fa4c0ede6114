// The state of the page as the hash of its address.

async function through(stream, bytes) {
  return new Uint8Array(await new Response(new Blob([bytes]).stream().pipeThrough(stream)).arrayBuffer());
}

/** The hash of a state, which is a list of texts. */
export async function hashOf(state) {
  const bytes = await through(new CompressionStream("deflate-raw"), JSON.stringify(state));
  const binary = Array.from(bytes, (byte) => String.fromCharCode(byte)).join("");
  return `#z=${btoa(binary).replaceAll("+", "-").replaceAll("/", "_").replace(/=+$/, "")}`;
}

/** The state of a hash, or null if it is none. `#wgsl=` stands before a text that is not compressed. */
export async function stateOf(hash) {
  try {
    if (hash.startsWith("#wgsl=")) return [decodeURIComponent(hash.slice(6))];
    if (!hash.startsWith("#z=")) return null;
    const binary = atob(hash.slice(3).replaceAll("-", "+").replaceAll("_", "/"));
    const bytes = await through(new DecompressionStream("deflate-raw"), Uint8Array.from(binary, (character) => character.charCodeAt(0)));
    return JSON.parse(new TextDecoder().decode(bytes));
  } catch {
    return null;
  }
}
