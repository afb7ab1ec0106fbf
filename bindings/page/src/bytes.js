// The bytes around a refused one.

/** Rows of bytes, of which those from `place` up to `seen` show why, and the first of them is refused. */
function byteRows({ bytes, from, place, seen }) {
    const width = matchMedia("(max-width: 44rem)").matches ? 8 : 16;
    const rows = make("pre", "bytes");
    rows.tabIndex = 0; // it may have to be scrolled
    rows.setAttribute("role", "region");
    rows.setAttribute("aria-label", "The bytes around it");
    for (let at = 0; at < bytes.length; at += width) {
        const row = bytes.subarray(at, at + width);
        rows.append(make("span", "offset", String(from + at).padStart(8)), "  ");
        row.forEach((byte, index) => rows.append(byteMark(from + at + index, place, seen, HEX[byte]), " "));
        rows.append("   ".repeat(width - row.length), " ");
        row.forEach((byte, index) => rows.append(byteMark(from + at + index, place, seen, printedByte(byte))));
        rows.append("\n");
    }
    if (place >= from + bytes.length) rows.append(" ".repeat(10), make("mark", "refused", "the file ends here"), "\n");
    return rows;
}

function byteMark(offset, place, seen, text) {
    if (offset === place) return make("mark", "refused", text);
    return offset > place && offset < seen ? make("mark", "", text) : text;
}

function printedByte(byte) {
    return byte > 31 && byte < 127 ? String.fromCharCode(byte) : "·";
}
