// The floor of building: the page as one file, of its modules, its style and the module; and a board in a built page.
//
// Nothing of it is in the page. It reads the files of the floors as texts, and imports none of them.
//
// Contents of a page are { title, files, lines, pictures, window }, as contents.js has them.
//
//     import { withContents } from "./index.js";
//     const page = '<script type="application/json" id="contents">null</script>';
//     withContents(page, { title: "amp", files: [] }).includes('"title":"amp"'); // true

export { withContents } from "./contents.js";

/** @typedef {import("./contents.js").Contents} Contents */
