"use strict";

// A long list whose rows all have one height: only the rows near the window are made, a chunk at a time.

const CHUNK = 100;
const ROW_HEIGHT = 24;

// Rows are made when they are so many pixels away from the window.
const AHEAD = 800;

class Chunks {
  // `draw` makes the rows from one number up to another one, without that. `drawn` is called with both once they stand.
  constructor(count, draw, drawn) {
    Object.assign(this, { count, draw, drawn });
    this.elements = Array.from({ length: Math.ceil(count / CHUNK) }, (_, place) => {
      const element = make("div", "chunk");
      element.style.height = `${(Math.min(count, (place + 1) * CHUNK) - place * CHUNK) * ROW_HEIGHT}px`;
      return element;
    });
    this.isFilled = this.elements.map(() => false);
    this.fill(0);
  }

  // Makes the rows of a chunk where that isn't done.
  fill(place) {
    if (this.isFilled[place] !== false) {
      return;
    }
    const [from, until] = [place * CHUNK, Math.min(this.count, (place + 1) * CHUNK)];
    const element = this.elements[place];
    this.isFilled[place] = true;
    element.append(...this.draw(from, until));
    element.style.containIntrinsicHeight = element.style.height;
    element.style.height = "";
    this.drawn(from, until);
  }

  // The row of this number and those around it are made.
  fillAround(number) {
    const place = Math.floor(number / CHUNK);
    [place, place - 1, place + 1].forEach((one) => this.fill(one));
  }

  fillAll() {
    this.elements.forEach((_, place) => this.fill(place));
  }

  // From now on chunks are filled as they come near the window.
  watch() {
    const observer = new IntersectionObserver((entries) => entries.filter(({ isIntersecting }) => isIntersecting)
      .forEach(({ target }) => {
        observer.unobserve(target);
        this.fill(this.elements.indexOf(target));
      }), { rootMargin: `${AHEAD}px 0px` });
    this.elements.forEach((element) => observer.observe(element));
  }
}
