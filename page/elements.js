// Elements of the page, and the little that is done with many of them.

export function byId(id) {
  return document.getElementById(id);
}

/** An element with properties, and what stands in it: texts stay texts. */
export function make(name, properties = {}, ...children) {
  const made = Object.assign(document.createElement(name), properties);
  made.append(...children);
  return made;
}

/** A text with its letters that can't be seen, or turn a line, as numbers; of long ones the front. */
export function shown(text, most = 4000) {
  const front = text.length > most ? `${text.slice(0, most)} …` : text;
  return front.replace(/[\0-\x08\x0b-\x1f\x7f-\x9f\u061c\u200e\u200f\u2028-\u202e\u2066-\u2069\ufeff]/g,
    (letter) => `\\u{${letter.charCodeAt(0).toString(16)}}`);
}

export function counted(count, word) {
  return `${count} ${word}${count === 1 ? "" : "s"}`;
}

/** Calls behind the last of several events that come at once. */
export function settled(call, milliseconds = 120) {
  let timer;
  return () => {
    clearTimeout(timer);
    timer = setTimeout(call, milliseconds);
  };
}

/** Puts a text on the clipboard, and says on the button whether that went. */
export async function copy(button, text) {
  const name = button.dataset.name ??= button.textContent;
  try {
    await navigator.clipboard.writeText(text);
    button.textContent = "Copied";
  } catch {
    button.textContent = "The browser refused to copy";
  }
  setTimeout(() => { button.textContent = name; }, 1500);
}
