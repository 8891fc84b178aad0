"use strict";
// The keyboard: everything works by forms and links without it.
(() => {
  const form = document.getElementById("mark");
  const points = document.getElementById("points");
  const comment = document.getElementById("comment");
  const again = [...document.querySelectorAll(".again")];

  const take = (button) => {
    points.value = button.dataset.points;
    comment.value = button.dataset.comment;
    points.focus();
    points.select();
  };
  for (const button of again) button.addEventListener("click", () => take(button));

  const keys = {
    n: () => document.getElementById("next").click(),
    p: () => document.getElementById("previous").click(),
    c: () => comment.focus(),
    u: () => document.querySelector("#undo button").click(),
  };
  document.addEventListener("keydown", (event) => {
    if (event.isComposing) return;
    if (event.altKey && /^Digit[1-9]$/.test(event.code)) {
      const button = again[Number(event.code.slice(5)) - 1];
      if (button) take(button);
      event.preventDefault();
      return;
    }
    if (event.target === comment) {
      if (event.key === "Enter" && (event.ctrlKey || event.metaKey)) {
        event.preventDefault();
        form.requestSubmit(form.querySelector("button[value=save]"));
      }
      if (event.key === "Escape") points.focus();
      return;
    }
    if (event.ctrlKey || event.altKey || event.metaKey || event.target.matches("select")) return;
    const does = keys[event.key];
    if (does) {
      event.preventDefault();
      does();
    }
  });
  points.select();

  // A form that is sent twice would find its own line there.
  form.addEventListener("submit", (event) => {
    if (form.dataset.sent) event.preventDefault();
    form.dataset.sent = "yes";
  });
  window.addEventListener("pageshow", () => delete form.dataset.sent);
})();
