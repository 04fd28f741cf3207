const boxes = [...document.querySelectorAll(".e > label > input")];
const key = box => "hookbarley:" + box.closest(".e").id;
const store = { get: k => { try { return localStorage.getItem(k); } catch { return null; } }, set: (k, v) => { try { localStorage.setItem(k, v); } catch { } } };
const count = () => { document.getElementById("ticked").value = boxes.filter(b => b.checked).length + " of " + boxes.length; };
for (const box of boxes) {
  box.checked = store.get(key(box)) === "1";
  box.addEventListener("change", () => { store.set(key(box), box.checked ? "1" : "0"); count(); });
}
count();
