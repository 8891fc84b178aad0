"use strict";
// The page: the exercises, the fields, and the answer.

const MOST_MEMORY = 1 << 30;
const SOON = 300;

const field = (id) => document.getElementById(id);
const exercises = JSON.parse(field("exercises").textContent);
const asker = new Asker(field("worker").textContent, field("module").textContent);

// The fields.

function addTable(name, rows) {
  const plain = { spellcheck: "false", autocomplete: "off" };
  const title = element("input", { class: "name", "aria-label": "Name of the table", ...plain });
  const text = element("textarea", { class: "rows", "aria-label": "Rows as CSV", rows: "6", ...plain });
  const remove = element("button", { type: "button" }, "Remove");
  const table = element("div", { class: "table" }, element("p", {}, title, " ", remove), text);
  title.value = name;
  text.value = rows;
  remove.addEventListener("click", () => table.remove());
  field("rows").append(table);
}

function choose(exercise) {
  field("schema").value = exercise.schema;
  field("rows").replaceChildren();
  for (const { name, rows } of exercise.tables) addTable(name, rows);
  field("reference").value = exercise.reference;
  field("query").value = exercise.query;
  field("data").open = exercise.schema === "";
  field("solution").open = exercise.schema === "";
  show();
}

function listExercises() {
  const empty = { schema: "", tables: [{ name: "", rows: "" }], reference: "", query: "" };
  const chosen = exercises.flatMap(({ schema, tables, queries }) => queries.map((pair) => ({ schema, tables, ...pair })));
  const option = (value, name) => element("option", { value }, name);
  field("exercise").append(...chosen.map(({ name }, at) => option(String(at), name)), option("", "your own"));
  field("exercise").addEventListener("change", () => choose(chosen[field("exercise").value] ?? empty));
  choose(chosen[0]);
}

// The names and texts of the question, as the program is given them.
function question() {
  const tables = [...field("rows").querySelectorAll(".table")].map((table) =>
    [`data/${table.querySelector(".name").value.trim()}.csv`, table.querySelector(".rows").value]);
  const texts = { schema: field("schema").value, "query 1": field("reference").value, "query 2": field("query").value };
  return {
    texts,
    words: ["schema.sql", "data", "reference.sql", "query.sql"],
    files: [["schema.sql", texts.schema], ["reference.sql", texts["query 1"]], ["query.sql", texts["query 2"]], ...tables],
  };
}

// The answer.

function show(...parts) {
  field("answer").replaceChildren(...parts);
}

function verdict(kind, words, told = "") {
  return [element("h2", {}, element("span", { class: `grade ${kind}` }, words)), ...(told ? [element("p", {}, told)] : [])];
}

function refused({ part, fault, place }, texts) {
  const text = texts[part];
  if (place === null || text === undefined) return verdict("refused", `refused: ${part}: ${fault}`);
  const { from, to, line, column, before, marked } = placeOf(text, place);
  const id = { schema: "schema", "query 1": "reference", "query 2": "query" }[part];
  field(id).closest("details")?.setAttribute("open", "");
  field(id).focus();
  field(id).setSelectionRange(from, to);
  return [...verdict("refused", `refused: ${part}: ${fault} (line ${line}, column ${column})`),
    element("figure", {}, element("figcaption", {}, "The place in the text"),
      element("pre", { tabindex: "0" }, element("code", {}, before, element("mark", {}, marked), text.slice(to))))];
}

function differing(outcome, tables) {
  if (outcome.kind === "undecided" && outcome.best === null) {
    return verdict("undecided", "undecided", "The search ended before it found rows on which the answers differ.");
  }
  const rows = counted((outcome.kept ?? outcome.best).length, "row");
  const head = outcome.kind === "witness"
    ? verdict("differs", `differs on ${rows}`,
      "These are the fewest of the rows on which the query and the reference answer differently.")
    : verdict("undecided", `differs on ${rows}, perhaps on fewer`,
      "The search ended before it could tell whether fewer rows are enough.");
  return [...head, ...drawn(drawingOf(outcome, tables))];
}

function answered(outcome, texts, tables) {
  switch (outcome.kind) {
    case "agree":
      return verdict("agrees", "agrees",
        "The query and the reference have the same answer on every part of the rows that meets the schema.");
    case "witness":
    case "undecided":
      return differing(outcome, tables);
    case "refused":
      return refused(outcome, texts);
    case "limit":
      return verdict("passes-a-limit", `passes a limit: ${outcome.fault}`);
    case "memory":
      return verdict("no-verdict", "no verdict", `The question needs more memory than ${MOST_MEMORY / 2 ** 20} MiB.`);
    default:
      return [...verdict("no-verdict", "no verdict", "What the program printed:"),
        element("pre", { tabindex: "0" }, element("code", {}, outcome.printed))];
  }
}

async function answer() {
  const { texts, words, files } = question();
  const begun = performance.now();
  const passed = () => `${((performance.now() - begun) / 1000).toFixed(2)} seconds`;
  const waits = setTimeout(() => { field("state").textContent = "Looks for the fewest rows …"; }, SOON);
  field("ask").disabled = true;
  field("stop").disabled = false;
  try {
    const reply = await asker.ask(words, files, MOST_MEMORY);
    if (reply === null) {
      show();
      field("state").textContent = `Stopped after ${passed()}.`;
    } else {
      const [out, err] = [reply.out, reply.err].map((bytes) => new TextDecoder().decode(bytes));
      const tables = tablesOf(texts.schema);
      field("state").textContent = `Answered in ${passed()}.`;
      show(...answered(outcomeOf(reply.status, out, err, tables), texts, tables));
    }
  } catch (fault) {
    field("state").textContent = "";
    show(...verdict("no-verdict", "no verdict", `The program could not be run in this browser: ${fault.message}`));
  }
  clearTimeout(waits);
  field("ask").disabled = false;
  field("stop").disabled = true;
}

field("question").addEventListener("submit", (event) => {
  event.preventDefault();
  answer();
});
field("stop").addEventListener("click", () => asker.stop());
field("add").addEventListener("click", () => addTable("", ""));
field("question").addEventListener("keydown", (event) => {
  if (event.key === "Enter" && (event.ctrlKey || event.metaKey) && !field("ask").disabled) field("question").requestSubmit();
});
listExercises();
