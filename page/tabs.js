// The tabs over the tools, by mouse and by arrow keys.
import { byId } from "./elements.js";

const tabs = () => Array.from(document.querySelectorAll("[role=tab]:not([hidden])"));

/** Shows the panel of a tab; tells it by an event, for what is made when it is seen. */
export function openTab(name) {
  for (const tab of tabs()) {
    const isOpen = tab.id === `tab-${name}`;
    tab.setAttribute("aria-selected", String(isOpen));
    tab.tabIndex = isOpen ? 0 : -1;
    byId(tab.getAttribute("aria-controls")).hidden = !isOpen;
  }
  byId(name).dispatchEvent(new Event("opened"));
}

export function isOpen(name) {
  return !byId(name).hidden;
}

function walk(event) {
  const all = tabs();
  const place = all.indexOf(event.target);
  const places = { ArrowLeft: place - 1, ArrowRight: place + 1, Home: 0, End: all.length - 1 };
  if (place < 0 || !(event.key in places)) return;
  const tab = all[(places[event.key] + all.length) % all.length];
  tab.focus();
  openTab(tab.getAttribute("aria-controls"));
  event.preventDefault();
}

export function beginTabs() {
  const list = document.querySelector("[role=tablist]");
  list.addEventListener("click", ({ target }) => {
    const tab = target.closest("[role=tab]");
    if (tab !== null) openTab(tab.getAttribute("aria-controls"));
  });
  list.addEventListener("keydown", walk);
  openTab("given");
}
