// Files that the browser saves and opens.
"use strict";

const Files = (() => {
  // Saves these parts under the name of a text, with another ending.
  function save(name, ending, parts, type) {
    const link = document.createElement("a");
    link.href = URL.createObjectURL(new Blob(parts, { type }));
    link.download = `${name.replace(/^.*\//, "").replace(/\.[^.]*$/, "")}.${ending}`;
    link.click();
    setTimeout(() => URL.revokeObjectURL(link.href), 10000);
  }

  // `done` hears of the text and the name of each file that is chosen in a field.
  function opened(field, done) {
    field.addEventListener("change", async () => {
      const [file] = field.files;
      if (file) done(await file.text(), file.name);
      field.value = "";
    });
  }

  return { save, opened };
})();
