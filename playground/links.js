// A text in the address of the page, behind the #, packed so that it stays short.
"use strict";

const Links = (() => {
  async function through(bytes, stream) {
    return new Uint8Array(await new Response(new Blob([bytes]).stream().pipeThrough(stream)).arrayBuffer());
  }

  function spelled(bytes) {
    let binary = "";
    for (const byte of bytes) binary += String.fromCharCode(byte);
    return btoa(binary).replaceAll("+", "-").replaceAll("/", "_").replaceAll("=", "");
  }

  function read(letters) {
    const binary = atob(letters.replaceAll("-", "+").replaceAll("_", "/"));
    return Uint8Array.from(binary, (letter) => letter.charCodeAt(0));
  }

  async function of(text) {
    return `#text=${spelled(await through(new TextEncoder().encode(text), new CompressionStream("deflate-raw")))}`;
  }

  // The text of an address, null where there is none, undefined where it cannot be read.
  async function textOf(hash) {
    const found = /^#text=([A-Za-z0-9_-]+)$/.exec(hash);
    if (!found) return null;
    try {
      return new TextDecoder("utf-8", { fatal: true }).decode(await through(read(found[1]), new DecompressionStream("deflate-raw")));
    } catch {
      return undefined;
    }
  }

  return { of, textOf };
})();
