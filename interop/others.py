"""Files that are no streams, or damaged ones, as programs made them, and what `gob why` says is behind each.

They stand in the folder others. POINT is a stream of two points, NOTES one of 40 notes; the rest of `made` is what was
typed. What is due was worked out by hand from docs/FORMAT.md, Why; tools/test-why compares.
"""
from typing import NamedTuple


class Due(NamedTuple):
    made: str
    cause: str
    step: str
    # where it is refused without the definitions that are said again
    then: str = ""


OTHER = "Get the file that holds the stream: this is another."
SALVAGE = ("Get the file once more from where it comes from, or read what isn't damaged: "
           "gob values --salvage IN")
FETCH = "Get the file once more from where it comes from, in binary, and compare its size or checksum."
BEGIN = "Get the file from its first byte on."
MISSING = "The beginning of the stream is missing: the first item is a value, and nothing defines its type."
TORN = "The file was cut off, or isn't all written yet. What stands before this item is whole."
NO_STREAM = "This is no gob stream: no item begins as it does."
TEXT = "The file is text, and no gob stream."
JSON = "The file begins as JSON does: it is text, and no gob stream."
IN_JSON = "The file is JSON, and a string in it is base64 of a gob stream."
INFLATE = ("python3 -c 'import sys, zlib; sys.stdout.buffer.write(zlib.decompress(sys.stdin.buffer.read()))' <IN | "
           "gob why")
FROM_JSON = """jq -r '.. | strings | select(startswith("H/+BAwEB"))' IN | head -n 1 | base64 -d | gob why"""
FROM_XXD = "sed 's/^[^:]*: //; s/  .*//' IN | xxd -r -p | gob why"
FROM_DUMP = "sed 's/^[^ ]* *//; s/|.*//' IN | xxd -r -p | gob why"
FROM_NUMBERS = "tr -c 0-9 ' ' <IN | xargs printf %02x | xxd -r -p | gob why"


def form(made, name, step=OTHER):
    return Due(made, f"This is no gob stream: it begins as {name} does.", step)


def spelled(made, name, step):
    return Due(made, f"The file is {name}, and what it holds is a gob stream.", step)


def tail(made, cause, bytes_before):
    return Due(made, cause, f"tail -c +{bytes_before + 1} IN | gob why")


def prefix(made, count):
    noun = "byte stands" if count == 1 else "bytes stand"
    return tail(made, f"{count} {noun} before the stream: whole items follow.", count)


def length(made, count, order=", the high one first"):
    size = "1 byte" if count == 1 else f"{count} bytes"
    return tail(made, f"Before the stream stands its length, in {size}{order}.", count)


def http(made, count):
    return tail(made, f"This is no gob stream: it begins with a head of HTTP, of {count} bytes.", count)


def behind(made, begin=48):
    return Due(made, f"Something stands behind the last item, at byte {begin}.", f"head -c {begin} IN | gob why")


def one_byte(made, byte):
    return Due(made, f"The file has no byte but {byte}, as far as was read: room that was never written.", FETCH)


def lost(made, count):
    return Due(made, f"The beginning of the stream is missing or was changed: from byte {count} on whole items stand.",
               "Get the file once more, from its first byte on.")


def zeros(made, begin=48):
    return Due(made, "From here on there are only zeros, as far as was read: room that was never written.",
               f"head -c {begin} IN | gob why")


def cut_off(made, begin, stream):
    return Due(made, f"A write was cut off within this item, and another encoder's stream begins at byte {stream}.",
               f"head -c {begin} IN | gob why; tail -c +{stream + 1} IN | gob why")


def between(made, begin, stream):
    cause = f"{stream - begin} bytes stand here that are no item, and another encoder's stream begins at byte {stream}."
    return Due(made, cause, f"head -c {begin} IN | gob why; tail -c +{stream + 1} IN | gob why")


def damaged(made, end):
    cause = f"These bytes were changed. The item ends where its count says, and the next begins at byte {end}."
    return Due(made, cause, "Get the file once more, or read all other items: gob values --salvage IN")


PACKED = {
    "point.gz": form("gzip -n -c POINT", "gzip", "gunzip -c IN | gob why"),
    "a.tar.gz": form("tar, then gzip -n", "gzip", "gunzip -c IN | gob why"),
    "point.zst": form("zstd -c POINT", "zstd", "zstd -dc IN | gob why"),
    "point.bz2": form("bzip2 -c POINT", "bzip2", "bunzip2 -c IN | gob why"),
    "point.xz": form("xz -c POINT", "xz", "xz -dc IN | gob why"),
    "point.lzma": form("xz --format=lzma -c POINT", "lzma", "xz --format=lzma -dc IN | gob why"),
    "point.lz4": form("lz4 -c POINT", "lz4", "lz4 -dc IN | gob why"),
    "zlib_1": form("python3: zlib.compress(POINT, 1)", "zlib", INFLATE),
    "zlib_6": form("python3: zlib.compress(POINT, 6)", "zlib", INFLATE),
    "zlib_9": form("python3: zlib.compress(POINT, 9)", "zlib", INFLATE),
    "go_zlib": form("Go's compress/zlib", "zlib", INFLATE),
    "git_object": form("git commit", "zlib", INFLATE),
    "snappy_framed": form("by hand: a frame that isn't packed", "snappy", "snzip -dc IN | gob why"),
    "a.zip": form("zip -X a.zip POINT", "zip", "unzip -p IN | gob why"),
    "stored.zip": form("zip -X -0 stored.zip POINT", "zip", "unzip -p IN | gob why"),
    "ustar.tar": form("tar --format=ustar", "tar", "tar -xOf IN | gob why"),
    "go_tar": form("Go's archive/tar", "tar", "tar -xOf IN | gob why"),
    "a.ar": form("ar rcD a.ar POINT", "an archive of ar", "ar p IN | gob why"),
    "openssl_enc": form("openssl enc -aes-128-cbc -pbkdf2", "a file that OpenSSL encrypted",
                        "openssl enc -d -aes-256-cbc -pbkdf2 -in IN | gob why"),
    "point.gpg": form("gpg --symmetric POINT", "a file that OpenPGP encrypted", "gpg -d IN | gob why"),
}

FORMS = {
    "image.png": form("Go's image/png", "a PNG image"),
    "image.jpg": form("Go's image/jpeg", "a JPEG image"),
    "image.gif": form("Go's image/gif", "a GIF image"),
    "elf": form("head -c 512 /usr/bin/true", "an ELF program"),
    "pe.exe": form("GOOS=windows go build; head -c 512", "a program for Windows"),
    "macho": form("GOOS=darwin go build; head -c 512", "a program for macOS"),
    "wasm": form("GOOS=js GOARCH=wasm go build; head -c 512", "a WebAssembly module"),
    "git.pack": form("git pack-objects --all", "a pack of git"),
    "table.sqlite": form("sqlite3: create table", "a SQLite database", "sqlite3 IN .schema"),
    "pickle_2": form("python3: pickle.dumps(.., 2)", "Python's pickle", "python3 -m pickletools IN"),
    "pickle_3": form("python3: pickle.dumps(.., 3)", "Python's pickle", "python3 -m pickletools IN"),
    "pickle_4": form("python3: pickle.dumps(.., 4)", "Python's pickle", "python3 -m pickletools IN"),
    "pickle_5": form("python3: pickle.dumps(.., 5)", "Python's pickle", "python3 -m pickletools IN"),
    "pickle_of_stream": form("python3: pickle.dumps(POINT)", "Python's pickle", "python3 -m pickletools IN"),
    "msgpack_map": form("by hand", "MessagePack"),
    "msgpack_array": form("by hand", "MessagePack"),
    "cbor_map": form("by hand", "CBOR"),
    "cbor_array": form("by hand", "CBOR"),
    "cbor_tagged": form("by hand", "CBOR"),
    "utf16le_bom": form("python3: .encode('utf-16le')", "text in UTF-16", "iconv -f UTF-16 -t UTF-8 IN | gob why"),
    "utf16be_bom": form("python3: .encode('utf-16be')", "text in UTF-16", "iconv -f UTF-16 -t UTF-8 IN | gob why"),
    "utf16_of_base64": form("base64 POINT | iconv -t UTF-16", "text in UTF-16",
                            "iconv -f UTF-16 -t UTF-8 IN | gob why"),
    "utf16le": form("python3: .encode('utf-16le')", "text in UTF-16", "iconv -f UTF-16LE -t UTF-8 IN | gob why"),
    "git.index": Due("git add", NO_STREAM, "file IN"),
    "git.bundle": Due("git bundle create", NO_STREAM, "file IN"),
    "key.der": Due("openssl ecparam -genkey -outform DER", NO_STREAM, "file IN"),
    "protobuf": Due("by hand", NO_STREAM, "file IN"),
    "bson": Due("by hand", NO_STREAM, "file IN"),
    "deflate": Due("python3: zlib without a head", NO_STREAM, "file IN"),
    "random_0": Due("python3: random.Random(1).randbytes(1024)", NO_STREAM, "file IN"),
    "random_1": Due("the next", NO_STREAM, "file IN"),
    "random_2": Due("the next", NO_STREAM, "file IN"),
    "random_3": Due("the next", NO_STREAM, "file IN"),
    "question_marks": Due("python3: ? for each byte above 127", NO_STREAM, "file IN"),
    "ones": one_byte("python3: 4096 bytes of ff", "ff"),
    "zeros": one_byte("head -c 4096 /dev/zero", "00"),
    "zeros_4": one_byte("head -c 4 /dev/zero", "00"),
    "zeros_512": one_byte("head -c 512 /dev/zero", "00"),
}

SPELLED = {
    "openssl_base64": spelled("openssl base64 -in POINT", "base64", "base64 -di IN | gob why"),
    "xxd_plain": spelled("xxd -p POINT", "hexadecimal digits", "xxd -r -p IN | gob why"),
    "xxd_plain_one_line": spelled("xxd -p -c 999 POINT", "hexadecimal digits", "xxd -r -p IN | gob why"),
    "hex_upper": spelled("xxd -u -p -c 999 POINT", "hexadecimal digits", "xxd -r -p IN | gob why"),
    "postgres_hex": spelled("Postgres' bytea: \\x", "hexadecimal digits", "xxd -r -p IN | gob why"),
    "hex_0x": spelled("the same behind 0x", "hexadecimal digits", "xxd -r -p IN | gob why"),
    "od_x1": spelled("od -An -tx1 POINT", "hexadecimal digits", "xxd -r -p IN | gob why"),
    "point.xxd": spelled("xxd POINT", "a dump by xxd", FROM_XXD),
    "hexdump_C": spelled("hexdump -C POINT", "a dump by hexdump or od", FROM_DUMP),
    "xxd_32": spelled("xxd -c 32 POINT", "a dump by xxd", FROM_XXD),
    "od_t_x1": spelled("od -t x1 POINT", "a dump by hexdump or od", FROM_DUMP),
    "hexdump_short": Due("hexdump -C of an int and a text of 100 letters a",
                         "The file is a dump by hexdump or od of a gob stream, in which a line of * stands for lines "
                         "that repeat.",
                         "Get the file itself, or a dump of all its lines, as hexdump -v -C and od -v -t x1 make them."),
    "base64_crlf": spelled("base64 -w 32 POINT, with CR before each LF", "base64", "base64 -di IN | gob why"),
    "base64_of_gzip": Due("gzip -n <POINT | base64", "The file is base64, and what it holds begins as gzip does.",
                          "base64 -di IN | gob why"),
    "hex_of_zstd": Due("zstd <POINT | xxd -p", "The file is hexadecimal digits, and what it holds begins as zstd does.",
                       "xxd -r -p IN | gob why"),
    "json_string": Due("Go's encoding/json of POINT", IN_JSON, FROM_JSON),
    "go_bytes_printed": spelled("Go: fmt.Println(POINT)", "a list of decimal numbers", FROM_NUMBERS),
    "json_array": spelled("python3: json.dumps(list(POINT))", "a list of decimal numbers", FROM_NUMBERS),
    "latin1_as_utf8": spelled("iconv -f LATIN1 -t UTF-8 POINT",
                              "text in UTF-8, made of bytes that were taken for Latin-1",
                              "iconv -f UTF-8 -t ISO-8859-1 IN | gob why"),
    "notes_latin1_as_utf8": spelled("iconv -f LATIN1 -t UTF-8 NOTES",
                                    "text in UTF-8, made of bytes that were taken for Latin-1",
                                    "iconv -f UTF-8 -t ISO-8859-1 IN | gob why"),
    "json_with_base64.json": Due("Go's encoding/json of a struct with POINT", IN_JSON, FROM_JSON),
    "json_with_base64_deep.json": Due("the same within a list", IN_JSON, FROM_JSON),
    "node_buffer": Due("Node: JSON.stringify(buffer)", JSON, "jq . IN"),
    "json_lines": Due("by hand", JSON, "jq . IN"),
    "replaced": Due("python3: .decode('utf-8', 'replace')",
                    "U+FFFD, ef bf bd, stands in place of bytes that are no text. They are lost.",
                    "Get the file once more, and send it as bytes: nothing on its way may take it for text."),
} | {name: Due(made, TEXT, "head IN") for name, made in {
    "base64_in_mail": "a part of a mail", "csv": "by hand", "data_url": "by hand", "html": "by hand", "xml": "by hand",
    "empty_line": "echo", "number": "echo 22", "go_bytes_in_source": "Go: fmt.Printf(\"%#v\", POINT)",
    "go_quoted": "Go: fmt.Printf(\"%q\", POINT)", "hexdump": "hexdump POINT", "od": "od POINT",
    "xxd_bits": "xxd -b POINT", "xxd_c": "xxd -i <POINT",
    "key.pem": "openssl genrsa", "pickle_0": "python3: pickle.dumps(.., 0)",
    "point.base32": "base32 POINT", "quoted_printable": "python3: quopri", "repr": "python3: repr(POINT)",
    "sqlite_insert": "sqlite3: .mode insert", "sqlite_quote": "sqlite3: quote(POINT)", "urlencoded": "python3: quote",
    "utf8_text": "by hand", "latin1_text": "by hand in Latin-1", "uuencoded": "python3: b2a_uu",
}.items()}

BEFORE = {
    "http_response": http("curl -i", 116),
    "http_short_response": http("the same in HTTP/1.0", 39),
    "http_request": http("the request of a POST", 64),
    "http_chunked": http("the same in chunks", 47),
    "http_error": http("an answer of 404", 51),
    "length_right": length("its length and POINT", 4),
    "length_of_notes": length("its length and NOTES", 4),
    "frames": length("two frames", 4),
    "frames_2_bytes": length("two frames", 2),
    "varint_frames": length("two frames", 1, ""),
    "length_wrong": prefix("256 in 4 bytes and POINT", 4),
    "length_wrong_of_notes": prefix("65536 in 4 bytes and NOTES", 4),
    "length_of_first_item": prefix("the length of the first item in 4 bytes and POINT", 4),
    "version_4": prefix("1 in 4 bytes and POINT", 4),
    "magic_8": prefix("8 bytes and POINT", 8),
    "time_8": prefix("a time in 8 bytes and POINT", 8),
    "length_and_crc": prefix("its length, its CRC-32 and POINT", 8),
    "grpc": prefix("gRPC's frame", 5),
    "v7.tar": prefix("tar --format=v7", 512),
    "prefix_100": prefix("100 bytes of text and POINT", 100),
    "snappy_block": prefix("a block of snappy that isn't packed", 2),
    "torn_in_definition_then_new": prefix("20 bytes of NOTES, and NOTES", 20),
    "zeros_in_front": prefix("512 zeros and POINT", 512),
    "lost_front_1": lost("NOTES from byte 1 on", 37),
    "lost_front_10": lost("NOTES from byte 10 on", 28),
    "lost_front_50": lost("NOTES from byte 50 on", 27),
    "lost_front_100": lost("NOTES from byte 100 on", 16),
    "lost_front_of_point": lost("POINT from byte 5 on", 27),
    "no_first": Due("NOTES from its first value on", MISSING, BEGIN),
}

WITHIN = {
    "behind_text": behind("POINT and a line"),
    "behind_md5": behind("POINT and a line of md5sum"),
    "behind_crc": behind("POINT and its CRC-32"),
    "behind_crc_le": behind("the same, the low byte first"),
    "behind_length": behind("POINT and its length in 4 bytes"),
    "behind_line_feeds": behind("POINT and two line feeds"),
    "notes_behind_text": behind("NOTES and a line", 1732),
    "behind_4_nuls": zeros("POINT and 4 zeros"),
    "behind_nul": zeros("POINT and a zero"),
    "behind_ctrl_z": Due("POINT and 1a", TORN, "Get the whole file."),
    "behind_space": Due("POINT and a space", TORN, "Get the whole file."),
    "torn_then_new": cut_off("700 bytes of NOTES, and POINT", 692, 700),
    "torn_then_new_same": cut_off("700 bytes of NOTES, and NOTES", 692, 700),
    "two_with_a_line_between": between("POINT, a line and POINT", 48, 51),
    "two_that_hold": Due("Go: two encoders, each of a list whose interface holds a struct",
                         "Another encoder's stream begins with this item: it defines type 65 once more, in the same "
                         "way.", "gob values --salvage IN",
                         "then: refused 8 DefinedTwice(66) at 88 seen 90, without 13 bytes that define types again\n"),
    "middle_byte": damaged("NOTES, whose byte 824 is 07", 864),
    "first_byte": damaged("NOTES, whose byte 5 is 09", 38),
    "middle_hole": Due("dd: 512 bytes of NOTES are zeros",
                       "504 zeros stand here, and other bytes behind them: a piece of the file is lost, or was never "
                       "written.", SALVAGE),
}

FILES = PACKED | FORMS | SPELLED | BEFORE | WITHIN
