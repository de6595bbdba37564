// Reads what a deck cannot say: calendar, currency, and the tasks that its cards represent. Turns lengths into days and amounts into text.
//
//     const side = PertSide.read(sideText, deck);               // a side file, as docs/side-file.md describes it; throws Refused
//     const side = PertSide.implied(deck);                      // what it would say of a deck without one: every day counts
//     side.start, side.endDay(30n), side.money(13190n)          // "2024-03-01", "2024-03-30", "13,190 EUR"
//
// `deck` is one of PertCheck.readDeck. Days are ISO texts, so that they compare as days do; lengths and amounts are BigInt.
"use strict";

const PertSide = (() => {
    const VERSION = 2;
    const DAY = 86_400_000; // milliseconds
    const MOST_DAYS = 200_000; // that dates are looked for in
    const MOST_EXCEPTIONS = 20_000;
    const DAY_MINUTES = 1440;

    class Refused extends Error {}
    function need(holds, text) {
        if (!holds) throw new Refused(`the side data ${text}`);
    }

    const isObject = (value) => value !== null && typeof value === "object" && !Array.isArray(value);
    const isWhole = (value, least, most) => Number.isSafeInteger(value) && value >= least && value <= most;
    const isText = (value) => typeof value === "string";

    // Whether a value is a day of the calendar, as `2024-03-01`.
    function isDay(value) {
        if (!isText(value) || !/^[0-9]{4}-[0-9]{2}-[0-9]{2}$/.test(value)) return false;
        const time = Date.parse(value);
        return !Number.isNaN(time) && isoOf(time) === value;
    }

    function isoOf(time) {
        return new Date(time).toISOString().slice(0, 10);
    }

    // ---- The calendar

    // Returns the working minutes of a day of these shifts.
    function minutesOf(shifts) {
        need(Array.isArray(shifts), "has shifts that are no list");
        let [last, sum] = [0, 0];
        for (const shift of shifts) {
            const isShift = Array.isArray(shift) && shift.length === 2 && shift.every((minute) => isWhole(minute, 0, DAY_MINUTES));
            need(isShift && last <= shift[0] && shift[0] < shift[1], "has a shift that is out of order or out of the day");
            last = shift[1];
            sum += shift[1] - shift[0];
        }
        return sum;
    }

    function exceptionOf(entry) {
        need(isObject(entry) && isDay(entry.first) && isDay(entry.last), "has an exception without its days");
        need(entry.first <= entry.last, "has an exception that ends before it begins");
        return { first: entry.first, last: entry.last, minutes: minutesOf(entry.shifts) };
    }

    // Returns a function from a day's time to its working minutes. Where exceptions overlap, the first in the list holds.
    function minutesByDay(calendar) {
        need(isObject(calendar) && Array.isArray(calendar.week) && calendar.week.length === 7, "has no week of seven days");
        const week = calendar.week.map(minutesOf); // from Monday on
        need(week.some((minutes) => minutes > 0), "has a week without work");
        const list = calendar.exceptions;
        need(Array.isArray(list) && list.length <= MOST_EXCEPTIONS, "has no list of exceptions");
        const exceptions = list.map(exceptionOf);
        return (time) => {
            const day = isoOf(time);
            const found = exceptions.find(({ first, last }) => first <= day && day <= last);
            return found === undefined ? week[(new Date(time).getUTCDay() + 6) % 7] : found.minutes;
        };
    }

    // The days of work from the first day on, found when they are asked for.
    class Days {
        constructor(start, unitMinutes, minutesOn) {
            this.unit = unitMinutes;
            this.minutesOn = minutesOn;
            this.days = []; // {time, from}: working minutes before the day
            this.time = Date.parse(start);
            this.known = 0;
            this.looked = 0;
        }

        // Returns the day that has a minute of work, counted from 0, or null if it is too far away.
        dayWith(minute) {
            while (this.known <= minute && this.looked < MOST_DAYS) {
                const worked = this.minutesOn(this.time);
                if (worked > 0) this.days.push({ time: this.time, from: this.known });
                this.known += worked;
                this.time += DAY;
                this.looked += 1;
            }
            if (this.known <= minute) return null;
            let [low, high] = [0, this.days.length - 1];
            while (low < high) {
                const middle = (low + high + 1) >> 1;
                if (this.days[middle].from <= minute) low = middle;
                else high = middle - 1;
            }
            return isoOf(this.days[low].time);
        }

        // Returns the day on which work goes on after so many units.
        beginDay(length) {
            return length > BigInt(Number.MAX_SAFE_INTEGER) / BigInt(this.unit) ? null : this.dayWith(Number(length) * this.unit);
        }

        // Returns the last day of so many units of work.
        endDay(length) {
            if (length > BigInt(Number.MAX_SAFE_INTEGER) / BigInt(this.unit)) return null;
            return this.dayWith(Math.max(0, Number(length) * this.unit - 1));
        }
    }

    // ---- Side data

    class Side {
        constructor(start, unit, minutesOn, scale, currency, tasks) {
            this.start = start;
            this.days = new Days(start, unit.minutes, minutesOn);
            this.minutes = { unit: BigInt(unit.minutes), day: BigInt(unit.day) };
            this.day = unit.name;
            this.decimals = String(scale).length - 1;
            this.currency = currency;
            this.tasks = tasks; // {name, outline, parts, start, finish}: places of activities, or null
        }

        beginDay(length) {
            return this.days.beginDay(length);
        }

        endDay(length) {
            return this.days.endDay(length);
        }

        money(amount) {
            const digits = String(amount < 0n ? -amount : amount).padStart(this.decimals + 1, "0");
            const whole = grouped(digits.slice(0, digits.length - this.decimals));
            const part = this.decimals > 0 ? `.${digits.slice(-this.decimals)}` : "";
            return `${amount < 0n ? "\u2212" : ""}${whole}${part}${this.currency === "" ? "" : ` ${this.currency}`}`;
        }

        // Returns by how many units a length is shortened: by a day, or by a unit if units are longer.
        get step() {
            return this.minutes.day < this.minutes.unit ? 1n : this.minutes.day / this.minutes.unit;
        }

        // Returns units as a number of days without separators: `1030`, `82.5`. Halves of hundredths go to the even one.
        plainDays(units) {
            const [all, day] = [units * this.minutes.unit * 100n, this.minutes.day];
            const [whole, twice] = [all / day, (all % day) * 2n];
            const hundredths = twice > day || (twice === day && whole % 2n === 1n) ? whole + 1n : whole;
            const part = String(hundredths % 100n).padStart(2, "0").replace(/0+$/, "");
            return `${hundredths / 100n}${part === "" ? "" : `.${part}`}`;
        }

        // Returns the units of a number of days, rounded to the nearest, or null for what is none.
        unitsOf(text) {
            const found = /^([0-9]{1,12})(?:\.([0-9]{1,6}))?$/.exec(text);
            if (found === null) return null;
            const minutes = BigInt(found[1] + (found[2] ?? "").padEnd(6, "0")) * this.minutes.day;
            return (2n * minutes + this.minutes.unit * 1000000n) / (this.minutes.unit * 2000000n);
        }

        numberOfDays(units) {
            return this.plainDays(units).replace(/[0-9]+/, grouped);
        }

        lengthText(units) {
            const number = this.numberOfDays(units);
            return `${number} ${this.day}${number === "1" ? "" : "s"}`;
        }

        // Returns what the price of the next shortening is called: `One day less`.
        get oneLess() {
            const text = this.lengthText(this.step);
            return `${text === `1 ${this.day}` ? `One ${this.day}` : text} less`;
        }
    }

    function grouped(digits) {
        return digits.replace(/\B(?=(?:[0-9]{3})+$)/g, ",");
    }

    function taskOf(entry, deck) {
        const has = isObject(entry) && isText(entry.name) && Array.isArray(entry.parts) && entry.parts.length > 0;
        need(has && Array.isArray(entry.outline) && entry.outline.every(isText), "has a task without name, outline or parts");
        const place = (code) => {
            need(isText(code) && deck.acts.has(code), `has a task of cards that the deck does not have`);
            return deck.acts.get(code);
        };
        const moment = (code) => (code === null || code === undefined ? null : place(code));
        const parts = entry.parts.map(place);
        return {
            name: entry.name === "" ? entry.parts[0] : entry.name,
            outline: entry.outline,
            parts,
            start: moment(entry.start_moment),
            finish: moment(entry.finish_moment),
        };
    }

    function demandOneUse(tasks) {
        const cards = tasks.flatMap(({ parts, start, finish }) => [...parts, start, finish].filter((place) => place !== null));
        need(new Set(cards).size === cards.length, "uses a card of the deck more than once");
    }

    // Returns what a day of work is called, as the page has it.
    function dayName(calendar) {
        return calendar.week.every((shifts) => minutesOf(shifts) > 0) ? "day" : "working day";
    }

    // Returns the first day of the deck.
    function startOf(deck) {
        const day = deck.cards[0].fields[4];
        if (!isDay(day)) throw new Refused("the deck has no first day");
        return day;
    }

    function parsed(text) {
        try {
            return JSON.parse(text);
        } catch {
            throw new Refused("the side data is not JSON");
        }
    }

    // Demands that a task lasts as long as its cards: another plan has other durations.
    function demandDuration(entry, { parts }, deck) {
        const normal = parts.reduce((sum, part) => sum + deck.activities[part].normal, 0n);
        need(isWhole(entry.normal, 0, 1e15) && BigInt(entry.normal) === normal, "has a task that lasts another time in the deck");
    }

    // Returns the side data of a deck. It must have the deck's first day, and tasks that last as long as the deck says.
    function read(text, deck) {
        const data = parsed(text);
        need(isObject(data) && data.version === VERSION, `is not of version ${VERSION}`);
        need(data.start === startOf(deck), "begins on another day than the deck");
        const minutesOn = minutesByDay(data.calendar);
        const { day_minutes: dayMinutes, week_minutes: weekMinutes } = data.calendar;
        need(isWhole(dayMinutes, 1, DAY_MINUTES) && isWhole(weekMinutes, 1, 7 * DAY_MINUTES), "has a day or week without minutes");
        need(isWhole(data.unit_minutes, 1, 7 * DAY_MINUTES), "has no unit");
        need(isWhole(data.money_scale, 1, 1e6) && /^10*$/.test(String(data.money_scale)), "has no scale of money");
        need(isText(data.currency) && Array.isArray(data.tasks), "has no currency or no tasks");
        const tasks = data.tasks.map((entry) => taskOf(entry, deck));
        data.tasks.forEach((entry, at) => demandDuration(entry, tasks[at], deck));
        demandOneUse(tasks);
        const unit = { minutes: data.unit_minutes, day: dayMinutes, name: dayName(data.calendar) };
        return new Side(data.start, unit, minutesOn, data.money_scale, data.currency, tasks);
    }

    // Returns what side data would say of a deck without it: every day counts, and each activity that is no dummy is a task.
    function implied(deck) {
        const tasks = deck.cards
            .filter(({ fields }) => fields[0] === "ACT" && (fields[7] !== "0" || fields[8] !== "0"))
            .map(({ fields }) => ({ name: fields[12] || fields[1], outline: [], parts: [deck.acts.get(fields[1])], start: null, finish: null }));
        const days = Number(deck.cards[0].fields[5] || "1");
        if (!isWhole(days, 1, 1e6)) throw new Refused("the deck has no unit");
        return new Side(startOf(deck), { minutes: days, day: 1, name: "day" }, () => 1, 1, "", tasks);
    }

    // Returns what of a side file dates and amounts depend on, as a text to compare. The rest is rewritten when a deck is read again.
    function meaning(text) {
        const data = parsed(text);
        need(isObject(data) && isObject(data.calendar) && Array.isArray(data.tasks), "is not a side file");
        const { start, calendar, unit_minutes: unit, currency, money_scale: scale } = data;
        const tasks = data.tasks.map((task) => [task?.parts, task?.name, task?.normal, task?.start_moment, task?.finish_moment, task?.deadline]);
        const { day_minutes: dayMinutes, week_minutes: weekMinutes, week, exceptions } = calendar;
        return JSON.stringify([start, unit, currency, scale, dayMinutes, weekMinutes, week, exceptions, tasks]);
    }

    return { Refused, read, implied, meaning };
})();

if (typeof module !== "undefined") module.exports = PertSide;
