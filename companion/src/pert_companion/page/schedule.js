// Figures of a certificate that check.js has certified: cost and price of each length, and the schedule of each. Every schedule is checked again
// when it is read: it has the length, its durations are possible, and it costs what the curve says. Uses PertCertificate.
//
//     const plan = PertSchedule.open(form, deck);      // `form` is the compact form, `deck` one of PertCheck.readDeck
//     plan.longest, plan.breakpoints, plan.optimum     // 35n, [{length, cost, next}, ..], 30n or null without a price of time
//     plan.total(30n)                                  // what the work costs with its time
//     const { cost, next, tasks } = plan.at(30n, side.tasks);   // a task has start, finish, duration, shortened and extra
"use strict";

const PertSchedule = (() => {
    class Wrong extends Error {}
    function demand(holds, text) {
        if (!holds) throw new Wrong(text);
    }

    // What time costs by the TERMS card, or null without one.
    function termsOf(deck) {
        const card = deck.cards.find(({ fields }) => fields[0] === "TERMS");
        if (card === undefined) return null;
        const words = card.fields.slice(1, 5);
        demand(words.length === 4 && words.every((word) => /^[0-9]{1,13}$/.test(word)), "the TERMS card has no numbers");
        const [overhead, target, bonus, penalty] = words.map(BigInt);
        return { overhead, target, bonus, penalty };
    }

    /**
     * What an activity costs at a duration beyond its cost at the normal one.
     * @param {any} activity
     * @param {bigint} duration
     */
    function extraOf({ knees }, duration) {
        let sum = 0n;
        for (const { at, rise } of knees) if (at > duration) sum += rise * (at - duration);
        return sum;
    }

    // Returns the activities so that each comes after all that end where it begins.
    function inOrder({ events, activities }) {
        const waiting = events.map(() => 0);
        const leaving = events.map(() => []);
        activities.forEach(({ from, to }, place) => {
            waiting[to] += 1;
            leaving[from].push(place);
        });
        const ready = events.map((_, event) => event).filter((event) => waiting[event] === 0);
        const found = [];
        while (ready.length > 0) {
            for (const place of leaving[ready.pop()]) {
                found.push(place);
                waiting[activities[place].to] -= 1;
                if (waiting[activities[place].to] === 0) ready.push(activities[place].to);
            }
        }
        demand(found.length === activities.length, "the activities lead in a circle");
        return found;
    }

    class Plan {
        constructor(form, deck) {
            this.deck = deck;
            this.curve = PertCertificate.open(form, deck);
            this.terms = termsOf(deck);
            this.order = inOrder(deck);
        }

        get longest() {
            return this.curve.longest;
        }

        get shortest() {
            return this.curve.shortest;
        }

        get breakpoints() {
            return this.curve.breakpoints;
        }

        // Returns the least cost of the work at a length.
        cost(length) {
            const { upper, cost, slope } = this.curve.segments.find(({ lower }) => lower <= length);
            return cost + slope * (upper - length);
        }

        /**
         * Returns what the work costs with its time, or null without a price of time.
         * @param {bigint} length
         */
        total(length) {
            if (this.terms === null) return null;
            const { overhead, target, bonus, penalty } = this.terms;
            const early = length < target ? bonus * (target - length) : 0n;
            const late = length > target ? penalty * (length - target) : 0n;
            return this.cost(length) + overhead * length - early + late;
        }

        // The least length with the least total: the total is a straight line between breakpoints and the target.
        get optimum() {
            if (this.terms === null) return null;
            const lengths = [this.terms.target, ...this.breakpoints.map(({ length }) => length)];
            let best = null;
            for (const length of lengths.filter((each) => this.shortest <= each && each <= this.longest)) {
                const [total, least] = [this.total(length), best === null ? null : this.total(best)];
                if (best === null || total < least || (total === least && length < best)) best = length;
            }
            return best;
        }

        // Throws Wrong if a reading is no schedule of the deck with its length and its cost.
        checkReading({ length, cost, times, durations }) {
            const { start, end, activities } = this.deck;
            demand(times[start] === 0n && times[end] === length, `the schedule of ${length} has another length`);
            let paid = 0n;
            activities.forEach((activity, place) => {
                const gap = times[activity.to] - times[activity.from];
                const duration = durations[place];
                const isPossible = activity.crash <= duration && duration <= activity.normal && duration <= gap;
                demand(isPossible, `the schedule of ${length} has an impossible duration of ${activity.code}`);
                paid += activity.cost + extraOf(activity, duration);
            });
            demand(paid === cost, `the schedule of ${length} does not cost what the curve says`);
        }

        // Returns when each event is, as early as the durations allow.
        earlyTimes(durations) {
            const early = this.deck.events.map(() => 0n);
            for (const place of this.order) {
                const { from, to } = this.deck.activities[place];
                const after = early[from] + durations[place];
                if (after > early[to]) early[to] = after;
            }
            return early;
        }

        // Returns the schedule of a length: its cost, what one unit less costs (null if none is shorter), and its tasks.
        at(length, tasks) {
            const reading = PertCertificate.readingAt(this.curve, length);
            this.checkReading(reading);
            const early = this.earlyTimes(reading.durations);
            const rows = tasks.map((task) => this.taskAt(task, reading.durations, early));
            return { length, cost: reading.cost, next: reading.next, total: this.total(length), tasks: rows };
        }

        // A task whose finish waits for others ends with them, and is done in one piece unless its start is held too.
        taskAt({ parts, start: startMoment, finish: finishMoment }, durations, early) {
            const { activities } = this.deck;
            const [first, last] = [parts[0], parts[parts.length - 1]];
            const duration = parts.reduce((sum, part) => sum + durations[part], 0n);
            let start = early[activities[first].from];
            let finish = early[activities[last].from] + durations[last];
            if (finishMoment !== null) {
                finish = early[activities[finishMoment].from];
                if (startMoment === null) start = finish - duration;
            }
            const normal = parts.reduce((sum, part) => sum + activities[part].normal, 0n);
            const extra = parts.reduce((sum, part) => sum + extraOf(activities[part], durations[part]), 0n);
            return { start, finish, duration, shortened: normal - duration, extra };
        }
    }

    return { Wrong, open: (form, deck) => new Plan(form, deck) };
})();

if (typeof module !== "undefined") module.exports = PertSchedule;
