
// What the scripts of the desk's pages share. Nothing of it is run.

/** A column of a table that is drawn in view only (grid.js). */
interface GridColumn {
    key: string;
    head: string;
    /** What the heading means. */
    hint?: string;
    /** In pixels. */
    width: number;
    /** Its share of what the window is wider than all columns. */
    grow?: number;
    /** Its class: name, text, number or bars. */
    kind?: string;
    text?: (row: any) => string;
    /** Draws what is more than a text. */
    draw?: (row: any, cell: HTMLElement) => void;
    /** What an editor begins with, or null if the cell cannot be edited. */
    input?: (row: any) => string | null;
}

interface GridWishes {
    name: string;
    columns: GridColumn[];
    rowClass?: (row: any) => string;
    cellClass?: (row: any, key: string) => string;
    /** What is said at a cell, such as why an edit was refused. */
    note?: (row: any, key: string) => string;
    edit?: (row: any, column: GridColumn, text: string) => void;
    /** Why a cell cannot be edited, or an empty text. */
    why?: (row: any, key: string) => string;
    /** What Enter does at a cell that cannot be edited. */
    open?: (row: any, column: GridColumn) => void;
}

/** A row of a table of tasks (rows.js). */
interface GridRow {
    key: string;
    name: string;
    level: number;
    /** Null for a group. */
    task: WorkRow | null;
    dated: Dated | undefined;
    isFolded: boolean;
}

/** A column that is edited: key, heading, its meaning, width and class. */
type EditedColumn = [Field, string, string, number, string];

/** Something that is done on the server (model.js). */
interface DeskStep {
    path: string;
    body: Record<string, any>;
    /** What it does, for people. */
    text: string;
    /** The cell that it came from. */
    cell?: string;
}

/** Why nothing is sent for now. */
interface DeskTrouble {
    kind: string;
    text: string;
    changes: Change[];
    diff: string;
}

/** A task of the network, with the keys of those before (network.js). */
interface NetworkTask {
    key: string;
    name: string;
    start: string;
    finish: string;
    note: string;
    isCritical: boolean;
    isDone: boolean;
    before: string[];
}
