// Measures how long the page keeps the screen waiting while a person works in it.

// Starts counting in the page: the longest time between two frames, and the longest task that kept the page busy.
function begin() {
  const seen = { frames: 0, longest: 0, tasks: [], last: performance.now(), on: true };
  const frame = (now) => {
    if (!seen.on) return;
    seen.longest = Math.max(seen.longest, now - seen.last);
    seen.last = now;
    seen.frames += 1;
    requestAnimationFrame(frame);
  };
  requestAnimationFrame((now) => {
    seen.last = now;
    requestAnimationFrame(frame);
  });
  seen.observer = new PerformanceObserver((list) => {
    for (const entry of list.getEntries()) seen.tasks.push(entry.duration);
  });
  seen.observer.observe({ type: 'longtask' });
  window.framesSeen = seen;
}

// Stops counting and returns what was seen, in milliseconds.
function end() {
  const seen = window.framesSeen;
  seen.on = false;
  for (const entry of seen.observer.takeRecords()) seen.tasks.push(entry.duration);
  seen.observer.disconnect();
  return { frames: seen.frames, longest: Math.round(seen.longest), tasks: seen.tasks.map(Math.round) };
}

// Does some work in a tab and returns how many frames there were meanwhile, the longest of them, and every task of 50 ms or more.
export async function framesDuring(tab, work) {
  await tab.run(begin);
  await work();
  return tab.run(end);
}

// Does some work in a tab and returns the longest time, in milliseconds, for which one task of a page kept the processor. Unlike the time between two
// frames it does not grow when other programs keep the processor busy.
export async function longestTask(tab, work) {
  const categories = { includedCategories: ['disabled-by-default-devtools.timeline'], excludedCategories: ['*'] };
  await tab.send('Tracing.start', { transferMode: 'ReportEvents', traceConfig: categories });
  await work();
  const events = await tab.traced();
  const pages = new Set(events.filter(({ name, args }) => name === 'thread_name' && args.name === 'CrRendererMain').map(({ pid, tid }) => `${pid} ${tid}`));
  const tasks = events.filter(({ name, pid, tid }) => name === 'RunTask' && pages.has(`${pid} ${tid}`));
  if (tasks.length === 0) throw new Error('the browser recorded no tasks');
  return Math.round(Math.max(...tasks.map(({ tdur = 0 }) => tdur)) / 1000);
}
