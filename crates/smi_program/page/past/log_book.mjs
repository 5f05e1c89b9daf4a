// The summary for a log book: shown, copied, saved as a file, and printed alone.

import { by, flag, make, set } from "../dom.mjs";
import { shownSpan, subject, wantedNames } from "./choice.mjs";
import { isWhole, pastBook } from "./history.mjs";
import { summaryOf } from "./summary.mjs";
import { dayOf, dayTime } from "./times.mjs";

/** Writes the summary, if it is open, and once all is there that it is made of. */
export function writeSummary() {
  if (!by("summary").open) return;
  set(by("summary-text"), isWhole ? summaryOf(pastBook, shownSpan(), wantedNames(), subject) :
    "entries are on their way\n");
}

/** Returns the name of the file of a summary, by the end of its time. */
function fileName() {
  const to = shownSpan().to;
  return "shift-" + dayOf(to).replaceAll("-", "") + "-" + dayTime(to).slice(0, 5).replace(":", "") + ".txt";
}

/** Copies the summary. A page that came without TLS may not write to the clipboard, but can copy what is selected. */
async function copySummary() {
  try {
    await navigator.clipboard.writeText(by("summary-text").textContent);
    set(by("summary-said"), "copied");
  } catch (refused) {
    getSelection().selectAllChildren(by("summary-text"));
    set(by("summary-said"), document.execCommand("copy") ? "copied" : "selected: copy it by Ctrl+C");
  }
}

function saveSummary() {
  const url = URL.createObjectURL(new Blob([by("summary-text").textContent], { type: "text/plain" })), a = make("a");
  a.href = url;
  a.download = fileName();
  a.click();
  set(by("summary-said"), "saved as " + a.download);
  setTimeout(() => URL.revokeObjectURL(url), 10000);
}

by("summary-copy").addEventListener("click", copySummary);
by("summary-save").addEventListener("click", saveSummary);
by("summary-print").addEventListener("click", () => print());
by("summary").addEventListener("toggle", () => {
  flag(document.body, "summarised", by("summary").open);
  set(by("summary-said"), "");
  writeSummary();
});
