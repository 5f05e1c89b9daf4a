"""Requests that are not well formed, or hide another one, each with the statuses that it may be answered with.

What may be answered is from RFC 9112 ("HTTP/1.1") and docs/FORMATS.md, "The screen". Of a POST, which is complete but
for its framing, these are FRAMINGS: a name, fields, a body, and statuses. A request that may be read as one without an
order is refused as such (REFUSED). WHOLE has whole requests as bytes, and PLACES has targets.
"""

# A POST without the key of the page, with orders and without (docs/FORMATS.md).
REFUSED = {403, 405}
# What a request hides in its body: HIDDEN becomes a question for the tree, and an order with the page's key.
HIDDEN = b"HIDDEN"
CHUNKED = "Transfer-Encoding: chunked"
END = b"0\r\n\r\n"

# If a length is no length, or two differ, the request is refused with 400 and the connection ends (6.3).
LENGTHS = [
    ("two lengths that differ", ["Content-Length: 0", "Content-Length: 4"], b"abcd", {400}),
    ("two lengths in one field", ["Content-Length: 0, 4"], b"abcd", {400}),
    *(("the length %r" % text, ["Content-Length: " + text], b"abcd" + HIDDEN, {400})
      for text in ["+4", "-1", "0x4", "4 4", "1e3", "4;", "four", "\x0b4", "4\x0b", "\xb2"]),
    ("an empty length", ["Content-Length:"], HIDDEN, {400}),
    *(("the length %s" % text, ["Content-Length: " + text], HIDDEN, {400, 413})
      for text in ["18446744073709551615", "18446744073709551616", "18446744073709551620", "340282366920938463463374"])]
# If chunked is not the last coding, or is there twice, it is 400, and a coding that is not known is 501 (6.1, 6.3).
CODINGS = [
    ("a length and a coding", ["Content-Length: 5", CHUNKED], END + HIDDEN, {400, *REFUSED}),
    ("a coding and a length", [CHUNKED, "Content-Length: 6"], HIDDEN, {400}),
    ("a coding and a bad length", [CHUNKED, "Content-Length: x"], END, {400}),
    *(("the coding %r" % text, ["Transfer-Encoding: " + text], END + HIDDEN, {400, 501})
      for text in ["identity", "xchunked", "chunked, chunked", "chunked, identity", "\x0bchunked", '"chunked"',
                   "chunked\x0b", "chunked;x", "chunked, gzip", "chunke", "gzip, chunked,x"])]
# What is no chunk. (7.1; a screen takes a body of 100 bytes at most, and 64 of extensions and of trailers each.)
CHUNKS = [
    *(("the chunk %r" % text, [CHUNKED], text + b"\r\nabcd\r\n" + END + HIDDEN, {400, 413})
      for text in [b"-1", b"0x4", b"10000000000000004", b"4 4", b"+4", b"g", b"", b"FFFFFFFFFFFFFFFF", b"4\xff"]),
    ("a chunk that ends by LF", [CHUNKED], b"4\nabcd\r\n" + END, {400}),
    ("a chunk longer than said", [CHUNKED], b"2\r\nabcd\r\n" + END + HIDDEN, {400}),
    ("a chunk shorter than said", [CHUNKED], b"6\r\nabcd\r\n" + END + HIDDEN, {400}),
    ("an extension with LF", [CHUNKED], b"4;a\nb\r\nabcd\r\n" + END, {400}),
    ("a long extension", [CHUNKED], b"4;" + b"a" * 100_000, {400, 413, 431}),
    ("long trailers", [CHUNKED], b"0\r\n" + b"A: b\r\n" * 15_000, {400, 413, 431}),
    ("a trailer that is a length", [CHUNKED], b"0\r\nContent-Length: 6\r\n\r\n", {400, *REFUSED})]
# What is no field (5.1, 5.2), and offers that a server may leave alone (RFC 9110, 7.8 and 10.1.1).
FIELDS = [
    *(("the field %r" % text, [text], b"", {400})
      for text in ["X: a\0b", "X: a\rb", ": b", "A b: c", "Xb", "X\xe9: b", "X\0: b", "(X): b", "X : b"]),
    ("a coding with a blank before the colon", ["Transfer-Encoding : chunked"], END + HIDDEN, {400}),
    ("a folded field", ["X: a", " b"], b"", {400, *REFUSED}),
    ("a folded coding", ["Transfer-Encoding:", " chunked"], END + HIDDEN, {400}),
    ("an offer of HTTP/2", ["Connection: Upgrade, HTTP2-Settings", "Upgrade: h2c", "HTTP2-Settings: AAMAAABk"], b"",
     REFUSED),
    ("an offer of a WebSocket", ["Connection: Upgrade", "Upgrade: websocket", "Sec-WebSocket-Version: 13",
                                 "Sec-WebSocket-Key: dGhlIHNhbXBsZSBub25jZQ=="], b"", REFUSED)]
FRAMINGS = LENGTHS + CODINGS + CHUNKS + FIELDS
# After which of these the connection has to end, because nobody knows where the next request begins.
ENDED = {it[0] for it in LENGTHS + CODINGS + CHUNKS[:-1]}

# Whole requests, in which HOST becomes the screen's. If nothing has to be answered, 0 is among the statuses.
WHOLE = [
    ("lines that end by CR", b"GET / HTTP/1.1\rHost: HOST\r\r", {0, 400}),
    ("two blanks", b"GET  / HTTP/1.1\r\nHost: HOST\r\n\r\n", {400}),
    ("a tab", b"GET\t/ HTTP/1.1\r\nHost: HOST\r\n\r\n", {400}),
    ("HTTP/0.9", b"GET /\r\n\r\n", {0, 400, 505}),
    ("HTTP/2.0", b"GET / HTTP/2.0\r\nHost: HOST\r\n\r\n", {400, 505}),
    ("HTTP/1.10", b"GET / HTTP/1.10\r\nHost: HOST\r\n\r\n", {400, 505}),
    ("http/1.1", b"GET / http/1.1\r\nHost: HOST\r\n\r\n", {400, 505}),
    ("the preface of HTTP/2", b"PRI * HTTP/2.0\r\n\r\nSM\r\n\r\n" + bytes(9), {400, 505}),
    ("a method in small letters", b"get / HTTP/1.1\r\nHost: HOST\r\n\r\n", {405}),
    ("a method of no letter", b"G@T / HTTP/1.1\r\nHost: HOST\r\n\r\n", {400}),
    ("a method of 5 KB", b"A" * 5_000 + b" / HTTP/1.1\r\nHost: HOST\r\n\r\n", {400, 405, 431, 501}),
    ("a question for all", b"OPTIONS * HTTP/1.1\r\nHost: HOST\r\n\r\n", {400, 405, 421}),
    ("no host in HTTP/1.0", b"GET / HTTP/1.0\r\n\r\n", {400, 421}),
    ("a host with a user", b"GET / HTTP/1.1\r\nHost: x@HOST\r\n\r\n", {400, 421}),
    ("a host with a path", b"GET / HTTP/1.1\r\nHost: HOST/x\r\n\r\n", {400, 421}),
    ("a host with a blank", b"GET / HTTP/1.1\r\nHost: HOST x\r\n\r\n", {400, 421}),
    ("two hosts in one field", b"GET / HTTP/1.1\r\nHost: HOST, HOST\r\n\r\n", {400, 421}),
    ("a field before the request", b"X: y\r\nGET / HTTP/1.1\r\nHost: HOST\r\n\r\n", {400}),
    ("a head of 1 MB", b"GET / HTTP/1.1\r\nHost: HOST\r\nX: " + b"x" * 1_000_000, {400, 431}),
    ("a target of 1 MB", b"GET /" + b"x" * 1_000_000, {400, 414, 431}),
    ("a hundred thousand fields", b"GET / HTTP/1.1\r\nHost: HOST\r\n" + b"a:b\r\n" * 100_000, {400, 431}),
    ("a body of 1 MB", b"POST / HTTP/1.1\r\nHost: HOST\r\nContent-Length: 1000000\r\n\r\n" + b"x" * 1_000_000, {413})]

PLACES = ["/../../etc/passwd", "/..%2f..%2fetc%2fpasswd", "/%2e%2e/%2e%2e/etc/passwd", "//etc/passwd", "/api//tree",
          "/api/tree/..", "/./", "/%00", "/api/tree%00.html", "/API/TREE", "/api/tree;x", "/\\..\\..", "/%2f",
          "/%0d%0aSet-Cookie:%20a=b"]
