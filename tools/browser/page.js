"use strict";
// The page of tools/in-browser: takes jobs from the tool, makes each in this page, or each part of it in a worker of its own,
// and sends back what was seen.
const KEY = new URLSearchParams(location.search).get("k") || "";
const post = (path, value) => fetch(path + "?k=" + KEY, { method: "POST", body: JSON.stringify(value) });

function inWorker(job) {
  return new Promise((done, fail) => {
    const worker = new Worker("/worker.js");
    worker.onmessage = ({ data }) => { worker.terminate(); data.fault ? fail(new Error(data.fault)) : done(data); };
    worker.onerror = e => { worker.terminate(); fail(new Error("worker: " + e.message)); };
    worker.postMessage(job);
  });
}

// The parts of a job share no codec and no caller, so that moments alone put their lists into one.
async function inWorkers(job) {
  const told = await Promise.all(job.parts.map(part => inWorker({ ...job, ...part })));
  const list = told.flatMap((it, part) => it.list.map((entry, at) => [entry, part, at]));
  list.sort((a, b) => a[1] === b[1] ? a[2] - b[2] : a[0].ms - b[0].ms || a[1] - b[1]);
  return { list: list.map(it => it[0]), codecs: told.flatMap(it => it.codecs) };
}

async function main() {
  if (typeof AudioDecoder === "undefined") return post("/end", { error: "this browser has no WebCodecs" });
  for (;;) {
    const job = await (await fetch("/next?k=" + KEY)).json();
    if (job.end) break;
    job.key = KEY;
    job.from = now();
    let told;
    try { told = await (job.parts ? inWorkers(job) : run(job)); } catch (e) { told = { fault: nameOf(e) + ": " + messageOf(e) + " " + (e && e.stack) }; }
    await post("/result/" + job.index, told);
  }
  await post("/end", {});
}
setInterval(() => { fetch("/beat?k=" + KEY).catch(() => { }); }, 400);
main();
