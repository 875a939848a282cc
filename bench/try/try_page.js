"use strict";
// What try_page.py asks of a page that it has opened.
const tried = {
  modulus: 1000003,
  frame: () => document.getElementById("frame"),
  text: (name) => document.getElementById(name).textContent,
  count: (choice) => document.querySelectorAll(choice).length,

  // what the colours of the frame that is shown come to
  sum() {
    const { width, height } = tried.frame();
    const { data } = tried.frame().getContext("2d").getImageData(0, 0, width, height);
    let sum = 0;
    for (let at = 0; at < data.length; at++) {
      if (at % 4 < 3) sum = (sum * 31 + data[at]) % tried.modulus;
    }
    return sum;
  },

  // the middle of an element in the window
  middle(choice) {
    const element = document.querySelector(choice);
    element.scrollIntoView({ block: "center" });
    const place = element.getBoundingClientRect();
    return [place.x + place.width / 2, place.y + place.height / 2];
  },

  // the middle of a mark in the lanes, with no mark chosen before
  mark(tile, index) {
    choose(null);
    at("scroll").scrollLeft = 0;
    at("lanes").scrollIntoView({ block: "center" });
    const place = at("lanes").getBoundingClientRect();
    const x = flow.places[0] + flow.cell * (index + 0.5), y = HEAD + LANE * (tile + 0.5);
    return [place.x + x, place.y + y];
  },

  // client and place of that mark
  name: (tile, index) => lanes.drawings[lanes.groups[0].tiles[tile][index]].slice(0, 2),

  // how many marks and entries a tile's lane has
  length(tile) {
    const counts = lanes.groups.map((group) => group.tiles[tile].length + (group.entry ? 1 : 0));
    return counts.reduce((sum, count) => sum + count, 0);
  },

  // elements that one works with and that no name tells
  nameless() {
    const all = [...document.querySelectorAll("button, input, select, [tabindex], canvas")];
    const named = (element) => element.getAttribute("aria-label")
      || element.getAttribute("aria-labelledby") || element.closest("label")
      || element.textContent.trim();
    const found = all.filter((element) => !named(element));
    return found.map((element) => element.outerHTML.slice(0, 80));
  },

  // the least contrast of text to what is behind it, by the formula of WCAG 2, and where
  contrast() {
    const linear = (share) => (share <= 0.03928 ? share / 12.92 : ((share + 0.055) / 1.055) ** 2.4);
    const light = (text) => {
      const [r, g, b] = text.match(/[0-9.]+/g).map((number) => linear(number / 255));
      return 0.2126 * r + 0.7152 * g + 0.0722 * b;
    };
    const behind = (element) => {
      const color = element ? getComputedStyle(element).backgroundColor : "rgb(255, 255, 255)";
      return /, 0\)$/.test(color) ? behind(element.parentElement) : color;
    };
    const kinds = "h1, h2, p, li, i, td, th, button, select, strong, label, output, summary";
    const all = [...document.querySelectorAll(`${kinds}, .names div, .names span`)];
    const shown = all.filter((element) => element.offsetParent && element.textContent.trim());
    return shown.map((element) => {
      const both = [light(getComputedStyle(element).color), light(behind(element))];
      const contrast = (Math.max(...both) + 0.05) / (Math.min(...both) + 0.05);
      return [contrast, element.outerHTML.slice(0, 60)];
    }).reduce((least, now) => (now[0] < least[0] ? now : least));
  },
};
