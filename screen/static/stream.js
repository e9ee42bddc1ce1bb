// The server's events, by one stream for all pages of a browser. A browser opens six connections to a server at most (by
// HTTP/1.1), so a stream for each page would leave none for questions. The pages queue for a lock: the one that has it holds the
// stream and passes each event on to the others. A page that is looked at takes the lock, since timers of hidden pages are slow;
// while none is looked at a hidden one keeps it, so that the tab can say what is new.
import { duration } from "./elements.js";
import { get } from "./requests.js";

const NAME = "outagebook-events";
const DELAYS = [0.5, 1, 2, 5, 10]; // seconds before the next try, the last one for all that follow
const SILENCE = 25; // seconds; the server sends an event every 10
const FIRST_NEWS = 3; // seconds that a page which is looked at again waits for the first event
const QUESTION = 5; // seconds for the question whether the server is there
const ASLEEP = 10; // seconds by which the clock has gone on between two looks, a second apart, where the computer was asleep

export class Stream {
  /** `heard` takes each event, `lost` the reason why there are none: what is shown may then be old. */
  constructor({ heard, lost }) {
    this.heard = heard;
    this.lost = lost;
    this.channel = navigator.locks ? new BroadcastChannel(NAME) : null; // a page neither by TLS nor from this computer has no locks
    this.channel?.addEventListener("message", ({ data }) => this.take(data));
    this.source = null; // of the page that leads
    this.leads = false;
    this.tries = 0;
    this.latest = null; // what was passed on last
    this.round = 0; // counts joins and leavings: what belongs to an older one is dropped
    this.looked = Date.now();
    setInterval(() => this.look(), 1000);
    document.addEventListener("visibilitychange", () => this.turn());
    if (this.channel || !document.hidden) this.join();
  }

  /** The page is looked at, or isn't any more. Without locks a hidden page has no stream. */
  turn() {
    this.looked = Date.now();
    if (!document.hidden) {
      if (!this.leads) this.join({ steal: true });
    } else if (!this.channel) this.leave();
    else if (!this.leads) clearTimeout(this.silence);
  }

  /** Queues for the stream, and asks the page that has it what it heard last. */
  join(options = null) {
    this.leave();
    const round = this.round;
    if (!document.hidden) this.expect(FIRST_NEWS);
    if (!this.channel) {
      this.lead(round);
      return;
    }
    this.queue(options ?? { signal: this.waits.signal }, round);
    this.channel.postMessage({ ask: true });
  }

  /** After a sleep what is shown is old, and the stream may have ended without a word: pages and their clocks begin anew. */
  look() {
    const gone = Math.round((Date.now() - this.looked) / 1000);
    this.looked = Date.now();
    if (document.hidden || gone < ASLEEP) return;
    this.lost(`this computer was asleep for ${duration(gone)}`);
    window.dispatchEvent(new Event("awake"));
    this.latest = null;
    this.join();
  }

  queue(options, round) {
    const hold = () => (round === this.round ? new Promise((resolve) => { this.giveBack = resolve; this.lead(round); }) : null);
    navigator.locks.request(NAME, options, hold).catch(() => {
      if (round === this.round && this.leads) this.join(); // another page took the lock, since it heard nothing
    });
  }

  leave() {
    this.round += 1;
    this.waits?.abort();
    this.waits = new AbortController();
    this.source?.close();
    this.source = null;
    this.leads = false;
    this.tries = 0;
    [this.silence, this.next].forEach(clearTimeout);
    this.giveBack?.();
    this.giveBack = null;
  }

  lead(round) {
    this.leads = true;
    this.connect(round);
  }

  connect(round) {
    if (round !== this.round) return;
    const source = (this.source = new EventSource("/events"));
    this.expect(SILENCE);
    source.addEventListener("message", (message) => {
      if (source !== this.source) return;
      this.tries = 0;
      this.pass({ event: JSON.parse(message.data) });
    });
    source.addEventListener("error", () => source === this.source && this.again(round));
  }

  /** A new stream after any end of the old one: the browser itself makes none after an answer such as 502. Meanwhile the server
   * is asked what there is, so that the reason is known; where it answers, its answer is as good as an event. */
  async again(round) {
    this.source?.close();
    this.source = null;
    const delay = DELAYS[Math.min(this.tries, DELAYS.length - 1)];
    this.tries += 1;
    try {
      const found = await get("/api/me", {}, QUESTION);
      if (round !== this.round) return;
      this.pass({ event: { what: "beat", desk: found.desk, why: found.why, differs: found.differs, number: found.number } });
    } catch (trouble) {
      if (round !== this.round) return;
      this.pass({ lost: trouble.message });
    }
    this.next = setTimeout(() => this.connect(round), delay * 1000);
  }

  pass(news) {
    this.latest = news;
    this.channel?.postMessage(news);
    this.take(news);
  }

  take(news) {
    if (news.ask) {
      this.look();
      if (this.leads && this.latest) this.channel.postMessage(this.latest.event ? { event: { ...this.latest.event, what: "beat" } } : this.latest);
      return;
    }
    if (this.leads || !document.hidden) this.expect(SILENCE);
    if (news.event) this.heard(news.event);
    else this.lost(news.lost);
  }

  /** If nothing is heard within some seconds, the page that leads makes a new stream, and another page takes the lead. */
  expect(seconds) {
    clearTimeout(this.silence);
    this.silence = setTimeout(() => this.wake(seconds), seconds * 1000);
  }

  wake(seconds) {
    if (this.leads) {
      this.again(this.round);
      return;
    }
    this.lost(`nothing was heard for ${seconds} seconds`);
    this.expect(SILENCE);
    if (seconds !== SILENCE || !this.channel) return;
    this.waits.abort();
    this.waits = new AbortController();
    this.queue({ steal: true }, this.round);
  }
}
