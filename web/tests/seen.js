// What a user sees of the page, and when it has come to rest.

// Done when nothing changes any more: by the page's own word, or else, and where a question is open, when nothing that is
// seen has changed for a while.
const REST = `(() => {
  const IDS = ["script", "told", "kept", "layers", "picked", "history", "refused", "unsaved", "compared-counts", "question-body"];
  const looks = () => IDS.map((id) => document.getElementById(id)?.textContent ?? "")
    .map((text) => text.length + text.slice(-80)).join("|") + document.getElementById("question").open;
  const still = (isEnough) => new Promise((done) => {
    let before = looks(), since = performance.now();
    const look = () => {
      const now = looks();
      if (now !== before) [before, since] = [now, performance.now()];
      if (performance.now() - since > 150 && isEnough()) done();
      else setTimeout(look, 10);
    };
    look();
  });
  // (what a question converts is none of the page's own)
  const isWorking = () => document.querySelector("#question[open] .working") !== null;
  const converted = () => new Promise((done) => {
    const look = () => isWorking() ? setTimeout(look, 10) : done();
    look();
  });
  const { idle } = globalThis.camplot ?? {};
  // (what a timer of the page begins comes a moment later)
  const pause = () => new Promise((done) => setTimeout(done, 20));
  const isAsking = () => document.getElementById("question").open && !isWorking();
  return idle ? Promise.race([idle().then(pause).then(idle).then(converted), still(isAsking)]) : still(() => true);
})()`;

export async function rest(tab, seconds = 120) {
  let timer = null;
  const late = new Promise((_, fail) => {
    timer = setTimeout(() => fail(new Error(`the page did not come to rest in ${seconds} seconds`)), 1000 * seconds);
  });
  try {
    await Promise.race([tab.ask(REST), late]);
  } finally {
    clearTimeout(timer);
  }
}

// The same of a page that is opened again: it may have to wait until the browser has closed the one before.
export async function restAgain(tab, seconds = 120) {
  await rest(tab, seconds);
  await tab.wait("!globalThis.camplot?.boards.others.some(({ isHeld }) => isHeld)", seconds);
  await rest(tab, seconds);
}

const SEEN = `JSON.stringify((() => {
  const words = (id) => document.getElementById(id)?.textContent.trim() ?? "";
  const all = (selector, of) => [...document.querySelectorAll(selector)].map(of);
  const isThere = (id) => document.getElementById(id) !== null && !document.getElementById(id).hidden;
  const question = document.getElementById("question");
  return {
    layers: all("#layers li", (row) => {
      const button = row.querySelector(".name"), [, name, items] = /^(\\S+): ([\\d,]+) items?/.exec(button.title) ?? [];
      return { name, items: Number(items?.replaceAll(",", "")), isActive: button.getAttribute("aria-pressed") === "true",
        label: button.querySelector("b")?.textContent ?? "", isShown: row.querySelector("input[type=checkbox]").checked };
    }).reverse(),
    // (of one item its layer's name and its place, above the station's own line)
    picked: { head: (document.querySelector("#picked [data-row=line] summary") ?? document.querySelector("#picked h3"))?.textContent
      .replace(", as the station has it", "") ?? "",
      words: document.querySelector("#picked code")?.textContent ?? "" },
    told: words("told"), kept: words("kept"), unsaved: words("unsaved"), history: words("history-count"),
    steps: all("#history li:not(.undone)", (row) => (row.querySelector("span") ?? row).textContent),
    canUndo: !document.querySelector("[data-act=undo]").disabled, canRedo: !document.querySelector("[data-act=redo]").disabled,
    compared: isThere("compared") ? words("compared-title") + ": " + words("compared-counts") : null,
    refused: isThere("refused-panel") ? all("#refused > li", (row) => row.textContent) : [],
    opened: all("#opened li", (row) => row.textContent),
    question: question?.open ? { title: words("question-title"), body: words("question-body"),
      answers: all("#question-choices button", (button) => ({ words: button.textContent, isOff: button.disabled })) } : null,
    isReady: document.body.dataset.ready === "yes",
  };
})())`;

export const seen = async (tab) => JSON.parse(await tab.ask(SEEN));

// What is picked: { name, place, words }, in the order of picking.
export const pickedNow = async (tab) => JSON.parse(await tab.ask("JSON.stringify([...camplot.state.picked]"
  + ".map(({ name, place, words }) => ({ name, place, words })))"));

// The script so far: what was accepted, and what was refused as comments.
export const scriptNow = (tab) => tab.ask("camplot.scriptText ? camplot.scriptText() : camplot.told.map(({ line, reply }) =>"
  + " reply.startsWith('refused') ? `# ${reply}: ${line}\\n` : `${line}\\n`).join('')");

export const linesNow = async (tab) => (await scriptNow(tab)).split("\n").filter((line) => line);
