"use strict";

// How many packets never visit the server: of the given trace, and of flows that are made up.

const MOST_PACKETS = 16384;

function countsOfFast(packets) {
  const fast = packets.filter(({ way }) => way === "fast").length;
  return { fast, all: packets.length };
}

const percent = ({ fast, all }) => (all === 0 ? "–" : `${((100 * fast) / all).toFixed(fast === all ? 0 : 1)} %`);

// One share: a bar, and its numbers.
function drawShare(title, counts) {
  const used = make("span", "used fast");
  used.style.width = `${counts.all === 0 ? 0 : (100 * counts.fast) / counts.all}%`;
  return makeWith("div", "share", [
    make("span", "name", title), makeWith("span", "bar", [used]), make("b", "", percent(counts)),
    make("span", "", `${grouped(counts.fast)} of ${counted(counts.all, "packet")} never ${
      counts.all === 1 ? "visits" : "visit"} the server`),
  ]);
}

const shareLine = (text) => drawShare("fast in this replay", countsOfFast(readReport(text).packets));

// Replays a trace to its end, each packet after the one before.
async function drained(trace, isShrunk) {
  const [form, files] = chosenReplay("drain\n");
  const chosen = isShrunk === undefined ? form : `replay SRC TRACE SCHED LIMITS${isShrunk ? " shrink" : ""}`;
  return callProgram(chosen, { ...files, TRACE: trace, LIMITS: papers.text("limits") });
}

// The share of the given trace, for beside a split; nothing where it can't be had.
async function shareOfTrace(isShrunk) {
  const answer = await drained(papers.text("trace"), isShrunk);
  return answer.isDone ? drawShare("fast of the trace", countsOfFast(readReport(answer.text).packets)) : null;
}

const share = {
  place: () => document.getElementById("share-answer"),

  tell(answer, parts) {
    this.place().replaceChildren(answers.head("replay", answer), ...(answer.isDone ? parts(readReport(answer.text))
      : [make("pre", "refusal", answer.refusal)]));
  },

  async ofTrace() {
    this.tell(await drained(papers.text("trace")), ({ packets }) => [drawShare("the trace", countsOfFast(packets))]);
  },

  async ofFlows() {
    const number = (name) => Math.max(0, Math.floor(Number(inputOf(name)) || 0));
    const [flows, rounds] = [Math.max(1, number("flows")), Math.max(1, number("rounds"))];
    const withAnswers = document.getElementById("answers-too").checked;
    if (flows * rounds * (withAnswers ? 2 : 1) > MOST_PACKETS) {
      throw new Failed(`A trace has at most ${grouped(MOST_PACKETS)} packets.`);
    }
    const made = workloadOf({ flows, rounds, port: number("flow-port"),
      answerPort: withAnswers ? number("answer-port") : null });
    this.tell(await drained(made.trace), ({ packets }) => [
      drawShare("first packets of flows", countsOfFast(packets.filter((_, place) => made.isNew[place]))),
      drawShare("packets of known flows", countsOfFast(packets.filter((_, place) => !made.isNew[place]))),
      drawShare("all", countsOfFast(packets)),
      makeWith("p", "tools", [
        makeButton("Download this trace", () => download("flows.txt", made.trace)),
        makeButton("Take it as the trace", () => papers.all.get("trace").give(made.trace, "flows.txt")),
      ]),
    ]);
  },

  start() {
    const on = (name, act) => document.getElementById(name).addEventListener("click", () => attempt("replay", act));
    on("share-trace", () => this.ofTrace());
    on("share-flows", () => this.ofFlows());
  },
};
