// What pert-desk answers and what it is asked: the JSON of every address. Nothing of it is run.
//
// Every request needs the cookie that the printed address sets. Every request that is not GET needs
// the header `Origin` of the page (browsers send it) and `Content-Type: application/json`, except
// uploads, which are `multipart/form-data` with the header `X-Pert-Desk: 1`.
//
//   GET  /?token=T                            sets the cookie, once; leads to /
//   GET  /                                    page of the folder (HTML)
//   GET  /projects/{project}                  page of a project (HTML)
//   GET  /static/{name}                       scripts and styles: those of desk/static, and the
//                                             page's report.css, portfolio.css, portfolio.js
//
//   GET  /api/folder                          Folder: at once; rows that are not known yet are null
//   GET  /api/projects/{project}/row          FolderRow: computed if it must be (ask for few at once)
//
//   POST /api/uploads                         multipart: part `file`, part `options` (JSON of
//                                             ImportOptions, may be left out) -> UploadBegun
//   GET  /api/uploads/{upload}/events         server-sent events: `progress` ImportProgress,
//                                             then one `outcome` ImportOutcome or `failed` ApiError
//   POST /api/uploads/{upload}/accept         ImportAccept -> UploadBegun: the same events again,
//                                             whose outcome names the project
//   DELETE /api/uploads/{upload}              {} : the file is forgotten
//
//   GET  /api/projects/{project}              Project; ?length=UNITS chooses the length
//   GET  /api/projects/{project}/schedule     Schedule; ?length=UNITS
//   GET  /api/projects/{project}/length       Length; ?length=UNITS or ?by=YYYY-MM-DD; with
//                                             &chance=1 its chance is simulated, else it is null
//   GET  /api/projects/{project}/options      Options: certain lengths with their chances
//   GET  /api/projects/{project}/load         LoadByWeek: what a length costs and uses (?length=)
//   GET  /api/projects/{project}/version      VersionAnswer: ask every few seconds
//   POST /api/projects/{project}/edits        EditRequest -> EditAnswer
//   POST /api/projects/{project}/tasks        AddTask -> EditAnswer
//   POST /api/projects/{project}/undo         Versioned -> EditAnswer
//   POST /api/projects/{project}/redo         Versioned -> EditAnswer
//   GET  /api/projects/{project}/changes      Changes since the project was opened
//   GET  /api/projects/{project}/history      History
//   POST /api/projects/{project}/save         Versioned -> Saved
//   POST /api/projects/{project}/revert       Versioned -> EditAnswer: as in the file, can be undone
//   POST /api/projects/{project}/outside      OutsideRequest -> EditAnswer: after `changed-outside`
//
//   GET  /api/projects/{project}/states       States
//   POST /api/projects/{project}/states       SaveState -> States: save as the state of a date
//   GET  /api/projects/{project}/compare      Comparison; ?with=STATE
//
//   POST /api/projects/{project}/vouchers     multipart: part `file`, part `options` (JSON of
//                                             VoucherOptions) -> VoucherOutcome: what booking does
//   POST /api/projects/{project}/book         BookRequest -> EditAnswer
//
//   POST /api/projects/{project}/exports      ExportRequest -> ExportReady
//   POST /api/projects/{project}/original     multipart: part `file`: the planner's file, if it is
//                                             not in the folder -> OriginalAnswer
//   GET  /api/exports/{export}                the file, as a download
//   GET  /api/projects/{project}/report       the report page of the project as it is now (HTML,
//                                             with a policy of its own; for a frame); ?length=UNITS
//   POST /api/projects/{project}/check        Versioned -> CheckAnswer: pert_check on the certificate
//
// Every answer that is not 2xx is an ApiError. Statuses: 400 request that makes no sense, 401 no or
// wrong cookie, 403 wrong Host or Origin, 404 no such thing, 409 somebody else changed it, 413 too
// large, 415 no JSON, 422 refused by the programs or the rules of the deck (message for people),
// 429 too many at once, 503 a program ended or the disk is full (what was there is there).

/** One of the server's own names for a thing; opaque, never a path. */
type Id = string;
/** A day, `2026-04-30`. */
type Day = string;
/** Working days as a decimal number, `4` or `82.5` or `-0.5`. */
type Days = string;
/** An amount in the currency as a decimal number, `1200` or `1200.50` or `-3`. */
type Money = string;
/** A length in units of the deck: whole; for requests alone, people see `Days`. */
type Units = number;

interface ApiError {
    error: {
        code: ErrorCode;
        /** One line for people. */
        message: string;
        /** Of `conflict`: the version that is there now, and what others changed since. */
        version?: number;
        changes?: Change[];
        /** Of `changed-outside`: the file as it was opened against how it is now. */
        outside?: Outside;
        /** Of `refused` edits: the field to go back to. */
        task?: string;
        field?: Field;
    };
}

type ErrorCode =
    | "bad-request"
    | "no-access"
    | "not-found"
    | "conflict"
    | "changed-outside"
    | "too-large"
    | "too-slow"
    | "too-many"
    | "refused"
    | "losses"
    | "disk-full"
    | "program-ended"
    | "failed";

// ---------------------------------------------------------------------------------- the folder

interface Folder {
    /** The name of the folder, without where it is. */
    name: string;
    version: string;
    projects: FolderRow[];
    /** Files of the folder that are planners' files and not imported yet. */
    files: { id: Id; name: string; bytes: number }[];
    /** Sums and shared resources as on the portfolio's page; null until all rows are known. */
    sums: { name: string; overrun: string; note: string; is_bad: boolean }[] | null;
}

interface FolderRow {
    id: Id;
    /** The name of the deck's file. */
    file: string;
    title: string;
    /** Null until somebody asked for it. */
    row: PortfolioRow | null;
    /** Edits that are not saved, also of a desk that was killed. */
    unsaved: number;
    /** The planner's file that it came from, or empty. */
    source: string;
}

/** Ready for show: the cells of the portfolio's page, in the order of `heads`. */
interface PortfolioRow {
    heads: { name: string; is_number: boolean }[];
    cells: { text: string; key: string; note: string; tone: "" | "bad"; is_number: boolean }[];
    /** Why there are no cells: the fault of the deck. */
    fault: string;
    /** `missed late overrun stale ..`: the words that filters find it by. */
    alarms: string;
    /** The most urgent first: rows are sorted by this text. */
    urgency: string;
}

// ---------------------------------------------------------------------------------- importing

/** What `pert-import` can be told; everything may be left out. */
interface ImportOptions {
    /** The project that the file is a newer state of: its terms and accepted losses hold on. */
    project?: Id;
    /** A file of the folder (`Folder.files`), instead of the part `file`. */
    file?: Id;
    name?: string;
    start?: Day;
    as_of?: Day;
    unit?: "auto" | "days" | "hours";
    decimal?: "." | ",";
    day_first?: boolean;
    sheet?: string;
    calendar?: string;
    crash_field?: string;
    crash_cost_field?: string;
    /** Proposals for shortest durations, as `2h@50%`. */
    overtime?: string;
    /** Amounts for each working day, and the last day of work by the contract. */
    overhead?: Money;
    bonus?: Money;
    penalty?: Money;
    contract?: Day;
}

interface UploadBegun {
    upload: Id;
    events: string;
}

interface ImportProgress {
    /** 0 to 100; steps that are done, never a guess of time. */
    percent: number;
    /** `reading plan.xml`. */
    text: string;
}

interface ImportOutcome {
    /** The file as it is called, `plan.xml`. */
    file: string;
    /** `mspdi`, `xer`, `xlsx`, .. */
    format: string;
    tasks: number;
    groups: number;
    links: number;
    start: Day;
    data_date: Day | null;
    /** `12 tasks, 3 groups, ..; days of the calendar 'Standard' from 2026-04-01`. */
    summary: string;
    /** What was assumed. */
    notes: string[];
    /** By kind, in the order of the file. All have to be accepted before there is a project. */
    losses: LossKindList[];
    /** How dates differ from the planner's. Null if the file has no dates. */
    dates: { compared: number; summary: string; differences: DateMoved[] } | null;
    /** Tasks that pause at some lengths, or empty. */
    pauses: string;
    /** The command that does the same. */
    command: string;
    /** The project that was made; null as long as losses are not accepted. */
    project: Id | null;
}

interface LossKindList {
    /** `deadline`, `link`, .. */
    kind: string;
    /** What this kind is, for people. */
    meaning: string;
    /** Whether all of it was accepted, now or at the last import. */
    is_accepted: boolean;
    losses: { where: string; name: string; field: string; text: string; why: string }[];
}

interface DateMoved {
    code: string;
    row: number | null;
    name: string;
    field: "start" | "finish";
    listed: Day;
    computed: Day;
}

interface ImportAccept {
    /** Kinds of losses. */
    kinds: string[];
    /** The name of the project's file without its ending; the server makes it one that is free. */
    name?: string;
}

// ---------------------------------------------------------------------------------- a project

interface Project {
    id: Id;
    file: string;
    title: string;
    /** Counts up with each change of any tab. */
    version: number;
    /** The version that is in the file. */
    saved_version: number;
    /** Edits were found that a killed desk had not saved; they are applied. */
    recovered: number;
    can_undo: boolean;
    can_redo: boolean;
    currency: string;
    /** `2026-04-30`: progress is as of the evening of this day; null without status. */
    data_date: Day | null;
    has_begun: boolean;
    has_side_file: boolean;
    /** Why tasks cannot be added or removed, nor links changed; or empty. */
    tasks_fixed: string;
    first_day: Day;
    /** The planner's file, and whether it is in the folder; null for a deck written by hand. */
    source: { name: string; format: string; is_here: boolean; planner: string } | null;
    /** What the smallest step of a duration is: `1 day`, `0.5 days`. */
    step: string;
    terms: Terms | null;
    /** What was not carried over at the import and accepted: `6 × deadline`. */
    accepted: string;
    notes: string[];
    curve: Curve;
    rows: TaskRow[];
    schedule: Schedule;
    accounts: boolean;
}

interface Terms {
    overhead: Money;
    bonus: Money;
    penalty: Money;
    /** The last day of work from which on the penalty counts. */
    target: Day | null;
}

interface Curve {
    shortest: Units;
    longest: Units;
    /** From the longest length down. */
    points: CurvePoint[];
    /** The lengths of today's plan, contract, deadlines, cheapest, .. */
    marks: { units: Units; name: string }[];
    /** The date that the project is held to. */
    contract: { day: Day; name: string; units: Units } | null;
}

/** What a length costs and uses by week; of a running project, of what is left. */
interface LoadByWeek {
    version: number;
    /** `5 days`, or more if there are too many weeks. */
    period: string;
    /** The first day of each period. */
    periods: Day[];
    costs: Money[];
    resources: ResourceLoad[];
    overloads: Overload[];
}

interface ResourceLoad {
    code: string;
    /** Its name without the unit, and with it. */
    name: string;
    title: string;
    /** By period. */
    amounts: string[];
    /** How many work at once; an empty text if nobody said it. */
    capacity: string;
    /** The numbers of the periods in which it is above its capacity. */
    above: number[];
}

interface Overload {
    first: Day;
    title: string;
    amount: string;
    available: string;
    /** How many would have to work at once on the worst of so many days. */
    most: string;
    days: number;
    capacity: string;
    tasks: string[];
}

interface CurvePoint {
    units: Units;
    days: Days;
    end: Day | null;
    /** The least cost of the work. */
    work: Money;
    /** With the price of time; the same as `work` without terms. */
    total: Money;
    /** What one day less costs from here on, work alone; null at the shortest length. */
    day_less: Money | null;
}

interface Length {
    version: number;
    units: Units;
    days: Days;
    end: Day | null;
    work: Money;
    overhead: Money | null;
    bonus: Money | null;
    penalty: Money | null;
    total: Money;
    /** Against nothing shortened, in all. */
    against_today: Money;
    /** What one step less costs in all; null at the shortest length. */
    next: Money | null;
    /** `3 days after the contract date`, or empty. */
    late: string;
    /** `lengths 30 to 32 cost the same in all: take 32`, or empty. */
    hint: string;
    /** The chance to end by then, in per cent: `62 %`; null if no estimates differ. */
    chance: string | null;
}

interface Options {
    version: number;
    options: (Length & { names: string[] })[];
    /** How sure today's plan is, in a sentence; empty if no estimates differ. */
    sureness: string;
}

/** A row of the table: a group, or a task that is edited. In the order of the plan. */
type TaskRow = GroupRow | WorkRow;

interface GroupRow {
    kind: "group";
    name: string;
    level: number;
}

interface WorkRow {
    kind: "task";
    code: string;
    /** The number that people see in their planner. */
    row: number | null;
    name: string;
    level: number;
    links: Link[];
    /** The links as planners write them: `DIG, WALLSSS+2d`. */
    links_text: string;
    normal: Days;
    shortest: Days;
    /** What the first day less costs; null if it cannot be shortened. */
    price: Money;
    cost: Money;
    /** Three estimates. */
    optimistic: Days;
    likely: Days;
    pessimistic: Days;
    /** `50`, or empty. */
    percent: string;
    actual_start: Day | null;
    actual_finish: Day | null;
    remaining: Days | null;
    state: "waiting" | "begun" | "finished";
    is_milestone: boolean;
    deadline: Day | null;
    resources: string[];
    /** The fields that can be edited here. */
    editable: Field[];
    /** Why others cannot. */
    fixed: Partial<Record<Field, string>>;
}

interface Link {
    /** The code of the task before. */
    task: string;
    kind: "FS" | "SS" | "FF" | "SF";
    lag: Days;
}

type Field =
    | "name"
    | "normal"
    | "shortest"
    | "price"
    | "cost"
    | "optimistic"
    | "likely"
    | "pessimistic"
    | "links"
    | "percent"
    | "actual_start"
    | "actual_finish"
    | "remaining";

/** Dates and floats of all tasks at one length; drawn as bars and as the network. */
interface Schedule {
    version: number;
    length: Length;
    /** Nothing works after this day. */
    end: Day;
    first_day: Day;
    /** One entry for each task, in the order of the rows that are tasks. */
    tasks: Dated[];
}

interface Dated {
    code: string;
    start: Day;
    finish: Day;
    /** The moment of work, `2026-04-30T17:00`, for bars of less than a day. */
    start_time: string;
    finish_time: string;
    duration: Days;
    shortened: Days;
    float: Days;
    cost: Money;
    is_critical: boolean;
    is_late: boolean;
    /** Days of `shortened` or why its dates are odd, for a title; or empty. */
    note: string;
}

// ---------------------------------------------------------------------------------- changing

interface Versioned {
    /** The version that the browser shows. */
    version: number;
    /** The length that is chosen, for the answer; the longest if it is left out. */
    length?: Units;
}

interface EditRequest extends Versioned {
    /** Applied together: all of them or none. */
    edits: Edit[];
}

interface AddTask extends Versioned {
    name: string;
    /** The code of the task that it follows in the table: it is in the same group and package. */
    after: string;
}

type Edit =
    /** A figure of a task; `value` as people write it, an empty text takes it away. */
    | { kind: "task"; task: string; field: Field; value: string }
    /** A task is removed with its links. */
    | { kind: "task"; task: string; field: "remove"; value: "" }
    /** The data date: the close of this day. */
    | { kind: "data-date"; day: Day }
    /** The price of time; an empty text is none. */
    | { kind: "terms"; field: "overhead" | "bonus" | "penalty" | "target"; value: string }
    /** How much of a resource, by its code, there is; an empty text takes it away. */
    | { kind: "capacity"; resource: string; value: string }
    /** The date of the contract (the directed end); an empty text takes it away. */
    | { kind: "contract"; value: string };

interface EditAnswer {
    version: number;
    saved_version: number;
    can_undo: boolean;
    can_redo: boolean;
    /** What changed by this request: shown for a moment, and read out. */
    changes: Change[];
    /** The rows that changed, complete. */
    rows: WorkRow[];
    /** Whether there are other tasks than before, or in another order: ask for the project again. */
    rows_are_others: boolean;
    curve: Curve;
    /** At the chosen length, or at the nearest that there still is. */
    length: Length;
    /** Ask for the schedule of this version to redraw dates, floats and bars. */
    schedule_is_old: boolean;
    /** How long the programs took, in milliseconds. */
    took: number;
}

interface Change {
    /** The task's code, or empty for the project. */
    task: string;
    name: string;
    /** `normal`, `data date`, .. */
    field: string;
    before: string;
    after: string;
}

interface Changes {
    version: number;
    list: Change[];
    /** Unified diff of the deck, and of the side file if that alone changed. */
    diff: string;
}

interface VersionAnswer {
    version: number;
    saved_version: number;
    /** Somebody else changed the file; null if it is as it was opened or saved. */
    outside: Outside | null;
}

interface Outside {
    /** What is different in the file now, as a list and as a diff. */
    changes: Change[];
    diff: string;
    /** The file is gone, or is no deck any more: the line that says so; else empty. */
    fault: string;
}

interface OutsideRequest extends Versioned {
    /**
     * `theirs`: open the file as it is now, and put own edits on top as far as they fit (in one step
     * that can be undone). `mine`: stay, and let the next save write over it; theirs is kept.
     */
    take: "theirs" | "mine";
}

interface Saved {
    version: number;
    saved_version: number;
    /** The files that were written, and the one that is kept of before. */
    files: string[];
    before: string;
}

interface History {
    /** From the first to the last. */
    steps: HistoryStep[];
}

interface HistoryStep {
    version: number;
    /** Local time, `14:05:31`. */
    time: string;
    text: string;
    /** The command that does the same, ready to be copied. */
    command: string;
    is_undone: boolean;
}

// ---------------------------------------------------------------------------------- states

interface States {
    version: number;
    states: {
        id: Id;
        file: string;
        data_date: Day;
        /** `state`: saved as a state. `before`: kept when it was saved. `other`: a deck of the folder. */
        kind: "opened" | "state" | "before" | "other";
        name: string;
    }[];
}

interface SaveState extends Versioned {
    /** The data date of the state. */
    date: Day;
}

/** What `pert-compare STATE PROJECT` prints, and its figures. */
interface Comparison {
    text: string;
    command: string;
    end_moved: Days;
    changes: { task: string; name: string; text: string }[];
}

interface VoucherOptions {
    /** The data date that the vouchers are booked at; the project's if it is left out. */
    as_of?: Day;
    /** What the list is. */
    list?: "vouchers" | "to-go" | "progress";
    decimal?: "." | ",";
    day_first?: boolean;
}

interface VoucherOutcome {
    upload: Id;
    /** The version that it was computed for. */
    version: number;
    /** `reconciled EUR: lists 300 = new 300 + known 0; ..` */
    summary: string;
    new: number;
    notes: string[];
    findings: { kind: string; meaning: string; is_accepted: boolean; list: { place: string; why: string }[] }[];
    command: string;
}

interface BookRequest extends Versioned {
    upload: Id;
    /** Kinds of findings; all have to be accepted. */
    accept: string[];
}

// ---------------------------------------------------------------------------------- handing on

interface ExportRequest extends Versioned {
    /** `into`: the planner's own file, changed. */
    format: "xlsx" | "csv" | "ics" | "xml" | "into" | "report" | "deck" | "side" | "certificate";
    /** Also written into the folder, next to the deck, under a name that is free. */
    to_folder?: boolean;
}

interface ExportReady {
    url: string;
    name: string;
    bytes: number;
    /** What is not in the file, or not as in the deck. */
    notes: string[];
    /** The name in the folder, or empty. */
    file: string;
    command: string;
}

interface OriginalAnswer {
    name: string;
}

interface CheckAnswer {
    version: number;
    /** What `pert_check` said: `certified 6`. */
    answer: string;
    is_certified: boolean;
    command: string;
}
