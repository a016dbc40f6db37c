// Directed graphs in rows: which row a node has, the order in a row, where it stands, and the ways of the edges. An edge goes
// from row to row through cells of its own, so that it crosses no node, and one of these cells has room for its label.
"use strict";

const Layers = (() => {
  const SPACE = 14; // between cells of a row, and between rows
  const FARTHEST = 60; // rows that an edge may pass
  const CELLS = 900; // cells of the edges of one graph
  const SWEEPS = 8;
  const PIECE = 24; // rows after which work may be put off

  // The edges that lead back by a walk from each node in turn.
  function backward(count, edges) {
    const out = Array.from({ length: count }, () => []);
    edges.forEach((edge, i) => out[edge.from].push(i));
    const met = new Uint8Array(count);
    const back = edges.map(() => false);
    const done = [];
    for (let start = 0; start < count; start += 1) {
      if (met[start]) continue;
      met[start] = 1;
      const open = [[start, 0]];
      while (open.length) {
        const top = open[open.length - 1];
        const [node, next] = top;
        if (next === out[node].length) {
          met[node] = 2;
          done.push(node);
          open.pop();
          continue;
        }
        top[1] += 1;
        const i = out[node][next];
        const { to } = edges[i];
        if (met[to] === 1) back[i] = true;
        if (met[to] === 0) {
          met[to] = 1;
          open.push([to, 0]);
        }
      }
    }
    return { back, order: done.reverse() };
  }

  // The row of each node, two for each edge of the longest way to it; which edges lead upwards; and which are not drawn as
  // lines, because they would pass too many rows.
  function ranked(count, edges) {
    const { back, order } = backward(count, edges);
    const below = Array.from({ length: count }, () => []);
    edges.forEach((edge, i) => below[back[i] ? edge.to : edge.from].push(back[i] ? edge.from : edge.to));
    const rows = new Array(count).fill(0);
    for (const node of order) {
      for (const next of below[node]) rows[next] = Math.max(rows[next], rows[node] + 2);
    }
    const span = edges.map((edge) => Math.abs(rows[edge.to] - rows[edge.from]));
    const farLast = edges.map((_, i) => i).sort((a, b) => span[a] - span[b]);
    const jumps = edges.map(() => false);
    let cells = 0;
    for (const i of farLast) {
      cells += span[i];
      jumps[i] = span[i] > FARTHEST || cells > CELLS;
    }
    return { rows, back, jumps };
  }

  // ---- cells

  class Grid {
    constructor(nodes, edges, ranking) {
      this.cells = nodes.map((node, i) => ({ ...node, row: ranking.rows[i], isNode: true, up: [], down: [], x: 0 }));
      this.rows = [];
      this.chains = edges.map((edge, i) => (ranking.jumps[i] ? null : this.chain(edge, ranking.back[i])));
      this.inOrder();
    }

    // The cells of an edge, from above to below.
    chain(edge, back) {
      const [upper, lower] = back ? [edge.to, edge.from] : [edge.from, edge.to];
      const first = this.cells[upper].row + 1;
      const last = this.cells[lower].row - 1;
      // the row of the label is odd, as all rows without nodes are
      const middle = first + 2 * Math.floor((last - first) / 4);
      const chain = [upper];
      for (let row = first; row <= last; row += 1) {
        const size = row === middle ? edge.label : { left: 4, right: 4, height: 0 };
        chain.push(this.cells.length);
        this.cells.push({ ...size, row, isNode: false, up: [], down: [], x: 0 });
      }
      chain.push(lower);
      for (let i = 1; i < chain.length; i += 1) {
        this.cells[chain[i - 1]].down.push(chain[i]);
        this.cells[chain[i]].up.push(chain[i - 1]);
      }
      return chain;
    }

    // The first order of each row: that of a walk down from each node in turn.
    inOrder() {
      const met = new Uint8Array(this.cells.length);
      for (let start = 0; start < this.cells.length; start += 1) {
        const open = [start];
        while (open.length) {
          const i = open.pop();
          if (met[i]) continue;
          met[i] = 1;
          const cell = this.cells[i];
          while (this.rows.length <= cell.row) this.rows.push([]);
          this.rows[cell.row].push(i);
          for (let k = cell.down.length - 1; k >= 0; k -= 1) open.push(cell.down[k]);
        }
      }
      this.number();
    }

    number() {
      for (const row of this.rows) row.forEach((i, at) => { this.cells[i].at = at; });
    }

    mean(list, value) {
      return list.reduce((sum, i) => sum + value(this.cells[i]), 0) / list.length;
    }

    // Does something to each row, in steps.
    static* each(rows, work) {
      for (let at = 0; at < rows.length; at += 1) {
        work(rows[at]);
        if (at % PIECE === PIECE - 1) yield;
      }
    }

    // Orders each row by where the neighbours of its cells stand in the row before.
    * sweep(downwards) {
      const rows = downwards ? this.rows : [...this.rows].reverse();
      const key = (i) => {
        const list = downwards ? this.cells[i].up : this.cells[i].down;
        return list.length ? this.mean(list, (cell) => cell.at) : this.cells[i].at;
      };
      yield* Grid.each(rows, (row) => {
        const keys = new Map(row.map((i) => [i, key(i)]));
        row.sort((a, b) => keys.get(a) - keys.get(b) || this.cells[a].at - this.cells[b].at);
        row.forEach((i, at) => { this.cells[i].at = at; });
      });
    }

    * crossings() {
      let count = 0;
      yield* Grid.each(this.rows, (row) => {
        const ends = row.flatMap((i) => this.cells[i].down.map((k) => this.cells[k].at).sort((a, b) => a - b));
        const sums = [];
        for (const end of ends) {
          for (let k = end + 1; k < sums.length; k += 1) count += sums[k] || 0;
          sums[end] = (sums[end] || 0) + 1;
        }
      });
      return count;
    }

    * reorder() {
      let best = this.rows.map((row) => [...row]);
      let least = yield* this.crossings();
      for (let turn = 0; turn < SWEEPS && least; turn += 1) {
        yield* this.sweep(turn % 2 === 0);
        const count = yield* this.crossings();
        if (count < least) {
          least = count;
          best = this.rows.map((row) => [...row]);
        }
        yield;
      }
      this.rows = best;
      this.number();
    }

    // ---- places

    // Moves the cells of a row to where they want to be, as near as their order and sizes allow.
    settle(row, wants) {
      const blocks = [];
      let offset = 0;
      row.forEach((i, at) => {
        const cell = this.cells[i];
        if (at) offset += this.cells[row[at - 1]].right + SPACE + cell.left;
        cell.offset = offset;
        const [want, weight] = wants(cell);
        let block = { from: at, weight, sum: weight * (want - offset) };
        while (blocks.length && blocks[blocks.length - 1].sum / blocks[blocks.length - 1].weight > block.sum / block.weight) {
          const before = blocks.pop();
          block = { from: before.from, weight: before.weight + block.weight, sum: before.sum + block.sum };
        }
        blocks.push(block);
      });
      blocks.forEach((block, k) => {
        const end = k + 1 < blocks.length ? blocks[k + 1].from : row.length;
        for (let at = block.from; at < end; at += 1) {
          this.cells[row[at]].x = this.cells[row[at]].offset + block.sum / block.weight;
        }
      });
    }

    * place() {
      const pull = (list) => (cell) => {
        const near = list(cell);
        if (!near.length) return [cell.x, 0.2];
        // long edges are drawn straight where they can be
        const weights = near.map((i) => (cell.isNode || this.cells[i].isNode ? 1 : 6));
        const whole = weights.reduce((sum, weight) => sum + weight, 0);
        return [near.reduce((sum, i, k) => sum + weights[k] * this.cells[i].x, 0) / whole, whole];
      };
      const upwards = [...this.rows].reverse();
      yield* Grid.each(this.rows, (row) => this.settle(row, () => [0, 1]));
      for (let turn = 0; turn < SWEEPS; turn += 1) {
        yield* Grid.each(this.rows, (row) => this.settle(row, pull((cell) => cell.up)));
        yield* Grid.each(upwards, (row) => this.settle(row, pull((cell) => cell.down)));
      }
      const both = pull((cell) => [...cell.up, ...cell.down]);
      for (let turn = 0; turn < SWEEPS; turn += 1) yield* Grid.each(turn % 2 ? this.rows : upwards, (row) => this.settle(row, both));
    }

    // The top and the bottom of each row.
    bands() {
      const bands = [];
      let top = 0;
      this.rows.forEach((row, r) => {
        const height = Math.max(0, ...row.map((i) => this.cells[i].height));
        bands.push({ top, bottom: top + height });
        let across = 0;
        for (const i of row) for (const k of this.cells[i].down) across = Math.max(across, Math.abs(this.cells[i].x - this.cells[k].x));
        top += height + (r + 1 < this.rows.length ? 10 + Math.min(26, across / 7) : 0);
      });
      return bands;
    }

    // Where edges meet a node: below its neighbours where that is possible, and apart from one another.
    ports(cell, neighbours) {
      const order = neighbours.map((near, k) => k).sort((a, b) => neighbours[a].x - neighbours[b].x);
      const half = cell.wide / 2 - 8;
      const apart = Math.min(16, (2 * half) / Math.max(1, order.length - 1));
      const xs = order.map((k) => Math.min(cell.x + half, Math.max(cell.x - half, neighbours[k].x)));
      for (let k = 1; k < xs.length; k += 1) xs[k] = Math.max(xs[k], xs[k - 1] + apart);
      xs.reverse();
      xs.forEach((x, k) => { xs[k] = Math.min(x, k ? xs[k - 1] - apart : cell.x + half); });
      xs.reverse();
      const ports = [];
      order.forEach((k, at) => { ports[k] = xs[at]; });
      return ports;
    }

    // The way of each edge from above to below: where it stands in each row, and from where to where it goes straight there.
    * ways(bands) {
      const tops = new Map();
      const bottoms = new Map();
      const note = (map, node, chain, near) => {
        if (!map.has(node)) map.set(node, { chains: [], near: [] });
        map.get(node).chains.push(chain);
        map.get(node).near.push(near);
      };
      for (const chain of this.chains.filter((one) => one)) {
        note(bottoms, chain[0], chain, this.cells[chain[1]]);
        note(tops, chain[chain.length - 1], chain, this.cells[chain[chain.length - 2]]);
      }
      const port = new Map();
      for (const map of [bottoms, tops]) {
        yield;
        for (const [node, { chains, near }] of map) {
          const xs = this.ports(this.cells[node], near);
          chains.forEach((chain, k) => port.set(chain, [...(port.get(chain) || []), xs[k]]));
        }
      }
      const ways = [];
      for (const chain of this.chains) {
        const end = (k) => (k === 0 ? "first" : k === chain.length - 1 ? "last" : "");
        ways.push(chain && chain.map((i, k) => this.stop(i, bands, end(k), port.get(chain))));
        if (ways.length % PIECE === 0) yield;
      }
      return ways;
    }

    // Where an edge stands in the row of one of its cells.
    stop(i, bands, end, ports) {
      const cell = this.cells[i];
      const band = bands[cell.row];
      if (end === "first") return { x: ports[0], top: cell.top + cell.tall, bottom: band.bottom };
      if (end === "last") return { x: ports[1], top: band.top, bottom: cell.top };
      const label = cell.height ? { x: cell.x, top: (band.top + band.bottom - cell.height) / 2 } : null;
      return { x: cell.x, top: band.top, bottom: band.bottom, label };
    }
  }

  // Nodes have what they take up left and right of the middle of their box and around it, `wide` and `tall` of the box itself;
  // edges have the like for their labels. Gives the middle and the top of each node, the ways of the edges, and the whole's size.
  function* arranged(nodes, edges, ranking) {
    const grid = new Grid(nodes, edges, ranking);
    yield;
    yield* grid.reorder();
    yield* grid.place();
    const bands = grid.bands();
    yield;
    const least = Math.min(...grid.cells.map((cell) => cell.x - cell.left));
    for (const cell of grid.cells) {
      cell.x -= least;
      cell.top = (bands[cell.row].top + bands[cell.row].bottom - (cell.isNode ? cell.tall : cell.height)) / 2;
    }
    const ways = yield* grid.ways(bands);
    const width = Math.max(...grid.cells.map((cell) => cell.x + cell.right));
    const places = nodes.map((_, i) => ({ x: grid.cells[i].x, top: grid.cells[i].top }));
    return { places, ways, width, height: bands[bands.length - 1].bottom };
  }

  return { ranked, arranged };
})();
