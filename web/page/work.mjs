// Background work in slices of a few milliseconds on the page's own thread, so that the pen never waits.

// How long a slice may take, in milliseconds. One library call may take longer: it is never interrupted.
const SLICE = 6;

// Runs a task soon, after the browser had a chance to handle input and draw.
function soon(task) {
  setTimeout(task, 0);
}

// Runs a generator in slices, then calls `done` with what it returned. Returns a function that abandons it.
export function slices(generator, done = () => {}, delay = 0) {
  let stopped = false;
  const slice = () => {
    if (stopped) return;
    const end = performance.now() + SLICE;
    do {
      const turn = generator.next();
      if (stopped) return;
      if (turn.done) {
        stopped = true;
        done(turn.value);
        return;
      }
    } while (performance.now() < end);
    soon(slice);
  };
  if (delay > 0) setTimeout(slice, delay);
  else soon(slice);
  return () => {
    stopped = true;
  };
}
