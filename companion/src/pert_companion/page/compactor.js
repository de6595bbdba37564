// Makes the compact form of a certificate's text, as data.py does: what PertCertificate reads.
//
//     const compactor = new PertCompactor();
//     compactor.take(part);                    // the text of a certificate that check.js certifies, in parts
//     compactor.data();                        // its compact form
"use strict";

const PertCompactor = class {
    constructor() {
        this.rest = "";
        this.form = { form: 1, head: "", normal: "", crash: "", events: "", activities: "", segments: [] };
        this.walks = { NORMAL: [], CRASH: [] };
        this.walk = null;
        this.codes = { EVENT: [], ACT: [] };
        this.state = { times: [], bits: [], durations: [], flows: [] };
    }

    take(text) {
        const lines = (this.rest + text).split("\n");
        this.rest = lines.pop();
        for (const line of lines) this.takeLine(line);
    }

    takeLine(line) {
        const [kind, ...words] = line.split(" ");
        if (kind === "CERT") this.form.head = words.join(" ");
        else if (kind === "NORMAL" || kind === "CRASH") this.walk = this.walks[kind];
        else if (kind === "STEP") this.walk.push(words[0]);
        else if (kind === "SEGMENT") this.segment = { ends: words, EVENT: [], ACT: [] };
        else if (kind === "EVENT" || kind === "ACT") this.segment[kind].push(words);
        else if (kind === "CLOSE") this.close(this.segment);
    }

    close({ ends, EVENT: events, ACT: activities }) {
        if (this.form.segments.length === 0) this.begin(events, activities);
        const [upper, lower] = ends.map(BigInt);
        this.form.segments.push([ends.join(" "), this.eventChanges(events), this.activityChanges(activities)].join("|"));
        this.state.times = this.state.times.map((time, event) => (this.state.bits[event] === "1" ? time - (upper - lower) : time));
    }

    begin(events, activities) {
        this.codes = { EVENT: events.map(([code]) => code), ACT: activities.map(([code]) => code) };
        const all = (list, value) => list.map(() => value);
        this.state = { times: all(events, 0n), bits: all(events, "0"), durations: all(activities, "0"), flows: all(activities, "0 0") };
    }

    eventChanges(events) {
        const { times, bits } = this.state;
        const changes = [];
        events.forEach(([, time, bit], event) => {
            if (BigInt(time) !== times[event]) changes.push(`${event} ${time} ${bit}`);
            else if (bit !== bits[event]) changes.push(String(event));
            times[event] = BigInt(time);
            bits[event] = bit;
        });
        return changes.join(";");
    }

    activityChanges(activities) {
        const { durations, flows } = this.state;
        const changes = [];
        activities.forEach(([, duration, ...words], activity) => {
            const flow = words.join(" ");
            if (flow !== flows[activity]) changes.push(`${activity} ${duration} ${flow}`);
            else if (duration !== durations[activity]) changes.push(`${activity} ${duration}`);
            durations[activity] = duration;
            flows[activity] = flow;
        });
        return changes.join(";");
    }

    data() {
        const lists = { normal: this.walks.NORMAL, crash: this.walks.CRASH, events: this.codes.EVENT, activities: this.codes.ACT };
        const texts = Object.fromEntries(Object.entries(lists).map(([name, codes]) => [name, codes.join(" ")]));
        return { ...this.form, ...texts };
    }
};

if (typeof module !== "undefined") module.exports = PertCompactor;
