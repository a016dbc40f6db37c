// The languages of charts, of extended charts and of SCL, as far as the page needs them. What is right and wrong of a text is
// said by the program alone.
"use strict";

const Language = (() => {
  function readerOf(text) {
    return Tokens.isExtended(text) ? new ExtendedReader(text) : new ChartReader(text);
  }

  // What is read of a text, or this where it stops before its end.
  function read(reader, work, otherwise) {
    try {
      return work();
    } catch (stop) {
      if (stop instanceof Stop) return otherwise;
      throw stop;
    }
  }

  // The chart that the text spells, or null where it spells none. Whether names are declared is not asked.
  function chartOf(text) {
    const reader = readerOf(text);
    return read(reader, () => {
      const chart = reader.chart();
      return reader.isAtEnd() ? chart : null;
    }, null);
  }

  // The variables of a chart or an SCL text, as far as they can be read.
  function variablesOf(text) {
    const reader = readerOf(text);
    return read(reader, () => {
      if (!reader.takes("scl")) reader.head();
      reader.name();
      reader.take("{");
      return reader.declarations();
    }, []);
  }

  // Whether it is one of a chart or of an extended chart, by its first token.
  function isChart(text) {
    return Tokens.isExtended(text) || Tokens.firstOf(text) === "chart";
  }

  // The ending of a file with such a text.
  function endingOf(text) {
    if (Tokens.isExtended(text)) return "extended";
    return isChart(text) ? "chart" : "scl";
  }

  // Every state and transition below some regions, in the order of the text.
  function* partsOf(regions) {
    for (const region of regions) {
      yield { sort: "region", part: region };
      for (const state of region.states) {
        yield { sort: "state", part: state };
        yield* partsOf(state.regions);
        for (const transition of state.transitions) yield { sort: "transition", part: transition };
      }
    }
  }

  // The innermost part of some regions at a place of the text.
  function partIn(regions, place) {
    const holds = (part) => part.from <= place && place < part.to;
    const region = regions.find(holds);
    if (!region) return null;
    const state = region.states.find(holds);
    if (!state) return { sort: "region", part: region };
    const transition = state.transitions.find(holds);
    if (transition) return { sort: "transition", part: transition };
    return partIn(state.regions, place) || { sort: "state", part: state };
  }

  // The innermost part of a chart at a place of the text; in a module that of its first use.
  function partAt(chart, place) {
    return partIn(chart.regions, place) || partIn(regionsOf(chart), place);
  }

  function regionsOf(chart) {
    return [...partsOf(chart.regions)].filter(({ sort }) => sort === "region").map(({ part }) => part);
  }

  // All parts that stand at the place of one: in a module one for each use.
  function alike(chart, one) {
    return [...partsOf(chart.regions)].map(({ part }) => part).filter(({ from, to }) => from === one.from && to === one.to);
  }

  return { chartOf, variablesOf, isChart, endingOf, partsOf, partIn, partAt, alike };
})();
