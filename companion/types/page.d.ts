// What `tsc` does not see in the scripts of the pages (jsconfig.json). Nothing of it is run.

// Scripts that a page has before the one that uses them.
declare const PertCertificate: typeof import("../src/pert_companion/page/certificate");
declare const PertCompactor: typeof import("../src/pert_companion/page/compactor");
declare const PertSchedule: typeof import("../src/pert_companion/page/schedule");
declare const PertSide: typeof import("../src/pert_companion/page/side");
declare const PertCheck: any;

// The templates say of what kind an element is.
interface Document {
    getElementById(id: string): any;
}
interface EventTarget {
    files: any;
    value: any;
}
