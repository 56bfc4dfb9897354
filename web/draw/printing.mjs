/** What is folded is unfolded on paper, and where only text is kept; each sheet says when it was printed, those behind the first one of what. */

/** How much of that stands on a sheet; how many rules the page's style has: the next one is that of the paper. */
const MOST_TITLE = 150, SMALL = "font: 8pt system-ui, sans-serif;", STYLE = document.styleSheets[0]?.cssRules.length;

/**
 * Unfolds all, and draws what is drawn only then.
 * @returns {() => void} folds it again
 */
export function unfold() {
  const closed = document.querySelectorAll("details:not([open]):not(.aside)");
  for (const it of closed) {
    it.setAttribute("open", "");
    it.dispatchEvent(new Event("toggle"));
  }
  return () => { for (const it of closed) it.removeAttribute("open"); };
}

export function unfoldOnPaper() {
  let fold = () => {};
  window.addEventListener("beforeprint", () => {
    fold = unfold();
    nameOnPaper(`Printed on ${new Date().toLocaleString("en-GB", { dateStyle: "long", timeStyle: "short" })}`);
  });
  window.addEventListener("afterprint", () => fold());
}

/**
 * Puts the title at the head of each sheet of paper but the first, and at the foot of each when it was printed. In browsers that write
 * nothing at the edge of a sheet that stands below what is signed.
 * @param {string} printed
 */
function nameOnPaper(printed) {
  const { title: of, styleSheets: [sheet] } = document, title = `${document.querySelector("main .asked") ? "No result: " : ""}${of}`, words = title.length > MOST_TITLE ? `${title.slice(0, MOST_TITLE)} …` : title;
  for (const it of document.querySelectorAll(".printed")) it.textContent = "CSSMarginRule" in window ? "" : printed;
  if (!sheet) return;
  if (sheet.cssRules.length > STYLE) sheet.deleteRule(STYLE);
  const head = `@top-left { content: ${JSON.stringify(words).replace(/\\[nrt]/g, " ")}; ${SMALL} }`;
  sheet.insertRule(`@page { ${head} @bottom-left { content: "${printed}"; ${SMALL} } }`, STYLE);
}
