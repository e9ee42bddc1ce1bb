// Questions to the screen's server: each has a limit of time, and what goes wrong has its words.

const QUESTION_SECONDS = 30; // the server waits 10 seconds for the desk
const COMMAND_SECONDS = 60; // the server tries for 25 seconds, after what it has in work
export const IMPORT_SECONDS = 330; // the server waits 300 for the desk

export const known = { me: null, book: null }; // who asks, and the book's names

/** What went wrong with a request: its status (0 where nothing was answered) and the server's words. */
export class Trouble extends Error {
  constructor(status, shown) {
    super(shown.words || "the screen's server gives no answer");
    this.status = status;
    this.shown = shown;
  }
}

const BETWEEN = { 401: "the login is missing or has ended (401): load the page again", 403: "this is refused on the way to the screen (403)" };

/** The words of an answer that isn't the screen's own, but of what stands before it. */
const wordsOf = (status) => BETWEEN[status] || `the screen's server is away or gives no answer (${status})`;

async function answerOf(route, options, seconds) {
  let reply;
  try {
    reply = await fetch(route, { ...options, signal: AbortSignal.timeout(seconds * 1000) });
    const shown = await reply.json();
    if (!reply.ok) throw new Trouble(reply.status, shown);
    return shown;
  } catch (error) {
    if (error instanceof Trouble) throw error;
    if (error.name === "TimeoutError") throw new Trouble(0, { words: `the screen's server gave no answer within ${seconds} seconds` });
    throw reply && !reply.ok ? new Trouble(reply.status, { words: wordsOf(reply.status) }) : new Trouble(0, {});
  }
}

export function get(route, query = {}, seconds = QUESTION_SECONDS) {
  const words = new URLSearchParams(query).toString();
  return answerOf(words ? `${route}?${words}` : route, {}, seconds);
}

function send(route, body, type, token, seconds) {
  return answerOf(route, { method: "POST", body, headers: { "Content-Type": type, "X-Screen-Token": token } }, seconds);
}

/** Posts with the page's token; where the server was started again, once more with the new one. */
export async function post(route, body, { type = "application/json", seconds = COMMAND_SECONDS } = {}) {
  try {
    return await send(route, body, type, known.me.token, seconds);
  } catch (trouble) {
    if (trouble.shown?.error !== "token") throw trouble;
    known.me = await get("/api/me");
    return send(route, body, type, known.me.token, seconds);
  }
}
