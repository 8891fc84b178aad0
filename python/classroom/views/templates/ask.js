// For comfort alone: the page stays while the answer is looked for, the place of a fault is selected, and the answer is
// where one reads on.
(() => {
  "use strict";
  const form = document.getElementById("ask");
  if (!form) return;
  const query = document.getElementById("query");
  const wait = document.getElementById("wait");
  const buttons = form.querySelectorAll("button");

  const select = (from, to) => {
    if (window.editor) return window.editor.mark(from, to);
    query.focus();
    query.setSelectionRange(from, to);
  };

  const show = (text, asked) => {
    const page = new DOMParser().parseFromString(text, "text/html");
    const answer = page.getElementById("answer");
    if (!answer) throw new Error("no answer");
    // The sections stay, so that what comes into them is read aloud.
    for (const name of ["answer", "handed-in"]) {
      const made = page.getElementById(name);
      if (made) document.getElementById(name).replaceChildren(...document.adoptNode(made).childNodes);
    }
    // A server that has begun anew takes its own forms alone.
    form.elements.token.value = page.querySelector("#ask [name=token]").value;
    const place = page.getElementById("query")?.dataset ?? {};
    if (place.from !== undefined && query.value === asked) select(Number(place.from), Number(place.to));
    else document.getElementById("answer").focus();
  };

  const waits = {
    ask: "Looks for the fewest rows …", run: "Runs …", hint: "Looks for the mistake …", "take back": "Is taken back …",
    count: "Is handed in again …",
  };
  const send = async (event) => {
    event.preventDefault();
    const body = new URLSearchParams(new FormData(event.target));
    const asked = (body.get("query") ?? "").replace(/\r\n/g, "\n");
    body.set("do", event.submitter?.value ?? "ask");
    for (const button of buttons) button.disabled = true;
    wait.textContent = waits[body.get("do")] ?? "Is handed in …";
    try {
      const response = await fetch(form.action, { method: "POST", body, credentials: "same-origin" });
      show(await response.text(), asked);
      wait.textContent = "";
    } catch {
      wait.textContent = "No answer came. Ask again in a few seconds.";
    }
    for (const button of buttons) button.disabled = false;
  };
  form.addEventListener("submit", send);
  // The forms that ask for hints come with answers, and each text that was handed in has its own.
  for (const name of ["answer", "handed-in"]) document.getElementById(name).addEventListener("submit", send);

  const ask = () => form.requestSubmit(buttons[0]);
  if (window.editor) window.editor.ask(ask);
  query.addEventListener("keydown", (event) => {
    if (event.key === "Enter" && (event.ctrlKey || event.metaKey)) ask();
  });

  // What is in the field survives a reload and a lost connection, for this tab, task by task.
  const task = form.elements.task;
  const place = () => `query ${form.dataset.owner} ${location.pathname} ${task.value}`;
  const text = () => (window.editor ? window.editor.value() : query.value);
  const stored = (act) => {
    try {
      return act(window.sessionStorage);
    } catch {
      return null; // the browser keeps nothing
    }
  };
  const keep = () => stored((storage) => storage.setItem(place(), text()));
  const take = () => {
    const found = stored((storage) => storage.getItem(place()));
    if (found === null || found === text()) return;
    if (window.editor) window.editor.set(found);
    else query.value = found;
  };
  if (query.value === "") take();
  else keep();
  query.addEventListener("input", keep);
  if (window.editor) window.editor.on("change", keep);
  task.addEventListener("change", take);

  if (query.dataset.from !== undefined) select(Number(query.dataset.from), Number(query.dataset.to));
})();
