// What the page asks of the bridge (editor.py).

/** What can't be done: a sentence or a refusal's name, and the refusal's number. */
export class Refused extends Error {
  constructor({ error, number }) {
    super(error);
    this.number = number;
  }
}

async function answered(path, body) {
  const how = body === undefined ? {} : { method: "POST", body: body instanceof Blob ? body : JSON.stringify(body) };
  const answer = await fetch(path, how).catch(() => { throw new Refused({ error: "The editor's program has ended." }); });
  if (!answer.ok) throw new Refused(await answer.json());
  return answer;
}

export const ask = async (path, body) => (await answered(path, body)).json();

/** Asks a question of `preview serve` (docs/SERVER.md). */
export const question = async (method, params) => (await ask("ask", { method, params })).result;

/** Asks for JSON of each part, and the parts: each with its `text`, an array of bytes. */
export async function parts(path, body) {
  const all = new Uint8Array(await (await answered(path, body)).arrayBuffer());
  const size = new DataView(all.buffer).getUint32(0);
  let at = 4 + size;
  return JSON.parse(new TextDecoder().decode(all.subarray(4, at))).map((told) => {
    const text = all.subarray(at, at + told.bytes);
    at += told.bytes;
    return { ...told, text };
  });
}

/** Listens to the server's notifications of the stream that is open. */
let events = null;
export function listen(heard) {
  events?.close();
  events = new EventSource("events");
  // What was told before it listens is asked for again.
  events.onopen = () => heard({ method: "listening" });
  events.onmessage = (event) => heard(JSON.parse(event.data));
}
