// Questions to the server behind the page. Whatever goes wrong is a sentence.
"use strict";

const Calls = (() => {
  const LONGEST = 1 << 20; // bytes of a question that the server takes
  const LONGEST_TEXT = 1 << 18; // bytes of a text in it
  const STOPPED = "The server does not answer: tools/play was stopped, or it is out of reach. The text is kept in this browser. " +
    "Start tools/play again and open the address that it prints.";

  class Sentence extends Error {}

  async function answered(request) {
    let answer;
    try {
      answer = await request;
    } catch (error) {
      if (error.name === "AbortError") throw error;
      throw new Sentence(STOPPED);
    }
    let value = null;
    try {
      value = await answer.json();
    } catch (error) {
      if (error.name === "AbortError") throw error;
      throw new Sentence("The server's answer was cut off.");
    }
    if (!answer.ok) throw new Sentence(value.sentence || "The server refused the request.");
    return value;
  }

  // Asks for what the program says of this text.
  function ask(name, question, signal) {
    if (new Blob([question.text]).size > LONGEST_TEXT) {
      return Promise.reject(new Sentence(`The text is longer than ${LONGEST_TEXT} bytes, which is more than the server takes.`));
    }
    const body = new Blob([JSON.stringify(question)], { type: "application/json" });
    if (body.size > LONGEST) {
      return Promise.reject(new Sentence(`The ticks are longer than ${LONGEST} bytes, which is more than the server takes.`));
    }
    return answered(fetch(name, { method: "POST", body, signal, credentials: "omit" }));
  }

  function get(name) {
    return answered(fetch(name, { credentials: "omit" }));
  }

  return { ask, get, Sentence };
})();
