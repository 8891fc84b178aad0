// An editor of the field, by CodeMirror: colours, line numbers, and completion of the names of tables and columns. The
// field stays what is sent, and what is used where this script doesn't run.
(() => {
  "use strict";
  const field = document.getElementById("query");
  if (!field || typeof CodeMirror === "undefined") return;
  const tables = {};
  for (const table of document.querySelectorAll("#tables table")) {
    tables[table.caption.textContent.split(":")[0]] = table.dataset.columns.split(" ");
  }
  const label = document.getElementById("query-label");
  const editor = CodeMirror.fromTextArea(field, {
    mode: "text/x-sql", lineNumbers: true, lineWrapping: true, matchBrackets: true, indentUnit: 2,
    viewportMargin: Infinity, inputStyle: "contenteditable",
    hintOptions: {
      tables, completeSingle: false,
      // Enter begins a line, as ever: Tab takes what is proposed.
      customKeys: {
        Up: (of, handle) => handle.moveFocus(-1), Down: (of, handle) => handle.moveFocus(1),
        Tab: (of, handle) => handle.pick(), Esc: (of, handle) => handle.close(),
      },
    },
    // Tab leaves the field, as in any form.
    extraKeys: { Tab: false, "Shift-Tab": false, "Ctrl-Space": "autocomplete" },
  });
  const input = editor.getInputField();
  input.setAttribute("aria-labelledby", "query-label");
  input.setAttribute("role", "textbox");
  input.setAttribute("aria-multiline", "true");
  label.addEventListener("click", () => editor.focus());
  editor.on("inputRead", (of, change) => {
    if (change.origin === "+input" && /[\w.]/.test(change.text[0])) of.showHint();
  });
  // The list of what is proposed has no name of its own.
  editor.on("startCompletion", () => setTimeout(() => {
    for (const list of document.querySelectorAll(".CodeMirror-hints")) list.setAttribute("aria-label", "Names that fit");
  }));
  editor.on("change", () => editor.save());
  let marked = null;
  // For ask.js: the place of a fault, in the characters of the whole text.
  window.editor = {
    focus: () => editor.focus(),
    mark: (from, to) => {
      if (marked) marked.clear();
      const [begin, end] = [editor.posFromIndex(from), editor.posFromIndex(Math.max(to, from + 1))];
      marked = editor.markText(begin, end, { className: "fault-place" });
      editor.setSelection(begin, editor.posFromIndex(to));
      editor.focus();
    },
    value: () => editor.getValue(),
    set: (text) => editor.setValue(text),
    on: (name, act) => editor.on(name, act),
    ask: (act) => editor.addKeyMap({ "Ctrl-Enter": act, "Cmd-Enter": act }),
  };
})();
