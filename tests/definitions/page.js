// Runs behind the page in a browser: every link leads to something that is drawn, and back; every link in a definition has its sentence; no line is
// wider than a phone.
const faults = [];
const fault = text => { if (faults.length < 20) faults.push(text); };
const links = [...document.querySelectorAll("a[href]")];
for (const a of links) {
  const to = document.getElementById(decodeURIComponent(a.getAttribute("href").slice(1)));
  if (!to) fault(`${a.getAttribute("href")} leads nowhere`);
  else if (!to.getClientRects().length) fault(`${a.getAttribute("href")} leads to what is not drawn`);
  if (a.closest(".c, .u") && !a.title) fault(`${a.getAttribute("href")} has no sentence`);
}
for (const a of document.querySelectorAll(".u a")) {
  const user = document.getElementById(decodeURIComponent(a.getAttribute("href").slice(1)));
  const back = "#" + a.closest(".e").id;
  if (![...user.querySelectorAll(".c a")].some(x => decodeURIComponent(x.getAttribute("href")) === back)) fault(`${user.id} does not lead back to ${back}`);
}
const last = links.filter(a => a.closest(".c") && !a.classList.contains("k")).at(-1);
last.click();
const place = document.getElementById(decodeURIComponent(last.getAttribute("href").slice(1))).getBoundingClientRect();
if (place.bottom < 0 || place.top > innerHeight) fault(`${last.getAttribute("href")} was followed and is not in sight`);
document.documentElement.style.width = Math.min(innerWidth, 360) + "px";
for (const e of document.querySelectorAll(".e, .c, p, h2, h3, td, li")) if (e.getBoundingClientRect().right > 362 && innerWidth < 640) fault(`${e.closest("[id]").id} is wider than a phone`);
document.documentElement.dataset.result = faults.length ? `FAILED: ${faults.join("; ")}` : `ok, ${links.length} links, ${document.querySelectorAll(".e").length} boxes at ${innerWidth} pixels`;
