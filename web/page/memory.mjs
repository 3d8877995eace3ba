// Small things that a panel remembers across a reload. Storage that is missing or full is no fault: the panel then just forgets.

// Returns what was remembered under a name, null if there is nothing.
export function recall(name) {
  try {
    return JSON.parse(localStorage.getItem(`sitgurp:${name}`));
  } catch {
    return null;
  }
}

// Remembers a value under a name.
export function remember(name, value) {
  try {
    localStorage.setItem(`sitgurp:${name}`, JSON.stringify(value));
  } catch {
    // the browser keeps nothing
  }
}

// Returns a function that runs a task once, a moment after its last call.
export function later(task, milliseconds) {
  let timer = 0;
  return () => {
    clearTimeout(timer);
    timer = setTimeout(task, milliseconds);
  };
}
