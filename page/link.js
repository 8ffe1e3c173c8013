// Links that carry a descriptor behind their `#`, which no browser sends to a server.
import { inputOf } from "./inputs.js";

/** As many bytes as a descriptor may have. */
const MOST_LINKED = 65536;

function base64Of(bytes) {
  const binary = Array.from(bytes, (byte) => String.fromCharCode(byte)).join("");
  return btoa(binary).replaceAll("+", "-").replaceAll("/", "_").replaceAll("=", "");
}

function bytesOfBase64(digits) {
  try {
    const binary = atob(digits.replaceAll("-", "+").replaceAll("_", "/"));
    return Uint8Array.from(binary, (letter) => letter.charCodeAt(0));
  } catch {
    return new Uint8Array(0);
  }
}

/** Lines of hexadecimal digits. */
export function hexOf(bytes) {
  const digits = Array.from(bytes, (byte) => byte.toString(16).padStart(2, "0"));
  const lines = [];
  for (let at = 0; at < digits.length; at += 16) lines.push(digits.slice(at, at + 16).join(" "));
  return `${lines.join("\n")}\n`;
}

/** The link to a descriptor's bytes, under a name, with a part that is pinned. */
export function linkTo(bytes, name, pin) {
  const words = new URLSearchParams({ descriptor: base64Of(bytes), name });
  if (pin !== "") words.set("at", pin);
  return `${location.href.split("#")[0]}#${words}`;
}

/** What a link carries: an input and the part that is pinned; null where it has no descriptor. */
export function linked() {
  const words = new URLSearchParams(location.hash.slice(1));
  const bytes = bytesOfBase64(words.get("descriptor") ?? "");
  if (bytes.length === 0 || bytes.length > MOST_LINKED) return null;
  const text = new TextEncoder().encode(hexOf(bytes));
  return { input: inputOf(words.get("name") ?? "", text), pin: words.get("at") ?? "" };
}
