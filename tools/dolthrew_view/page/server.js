// Requests to the server of this page, under the token that stands in the page's own address.

const bytes = crypto.getRandomValues(new Uint8Array(16));
const tab = Array.from(bytes, (byte) => byte.toString(16).padStart(2, "0")).join("");

export class Refusal extends Error {
  constructor(status, line) {
    super(line);
    this.status = status;
  }
}

async function answerOf(response) {
  const answer = await response.json();
  if (!response.ok) throw new Refusal(response.status, answer.refusal);
  return answer;
}

async function sent(name, options) {
  try {
    return await fetch(name, options);
  } catch {
    throw new Refusal(0, "the page's server doesn't answer: was it ended?");
  }
}

export async function get(name) {
  return answerOf(await sent(name));
}

export async function ask(name, words, body) {
  const query = new URLSearchParams({ ...words, tab });
  return answerOf(await sent(`${name}?${query}`, {
    method: "POST",
    headers: { "Content-Type": "application/octet-stream" },
    body,
  }));
}

export const ends = () => ask("end", {}, "");
