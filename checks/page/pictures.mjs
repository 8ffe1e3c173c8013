// Takes the pictures of docs/PAGE.md, for a person to look at.
//   pictures.mjs PAGE FOLDER
import path from "node:path";
import { pathToFileURL } from "node:url";
import { open, type } from "./acts.mjs";
import { Browser } from "./browser.mjs";
import { HAS_VIEW, RESTS } from "./seen.mjs";
import { sample } from "./stored.mjs";

const [file, folder] = process.argv.slice(2).map((it) => path.resolve(it));

async function shown(page, scheme, width, height, ...names) {
  await page.become(width, height, scheme);
  await page.give("drop", names.map(sample));
  await page.until(HAS_VIEW);
  await page.until(RESTS);
}

/** Scrolls so that an element stands at the top. */
function toTop(page, marks) {
  return page.find(`document.querySelector(${JSON.stringify(marks)}).scrollIntoView({ block: "start" })`);
}

const PICTURES = {
  async narrow(page) {
    await shown(page, "light", 400, 860, "gamepad.hex");
    await toTop(page, "section.report");
  },
  async dark(page) {
    await shown(page, "dark", 1200, 600, "mouse.recording");
    await page.click("#item-46");
    await toTop(page, "#view .player");
  },
  async findings(page) {
    await shown(page, "light", 1000, 800, "odd.hex");
    await open("edit")(page);
    await page.until("document.getElementById('edit-text').value !== ''");
    await page.find("document.getElementById('edit-text').rows = 6");
    const words = ["Usage Page (Generic Desktop)", "Logical Minimum (0)", "Logical Maximum (many)", "Usage (X)"];
    await type(page, "edit", words.join("\n"));
    await page.until("document.querySelector('#edit-said button')");
    await page.find("document.activeElement.blur()");
    await toTop(page, "#tools");
  },
};

const browser = new Browser();
try {
  for (const [name, prepare] of Object.entries(PICTURES)) {
    const page = await browser.open(String(pathToFileURL(file)));
    await prepare(page);
    await page.picture(path.join(folder, `${name}.png`));
    await page.close();
  }
} finally {
  await browser.end();
}
